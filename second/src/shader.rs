//! 01, "Shader numbers". 01 states them of their bits, so they are made here
//! as bits, by whole-number arithmetic: no floating-point operation is used,
//! and none can round.

use crate::record::{in_range, Block};

/// The bits of the single-precision number code / 4,096, for a code from
/// -4,096 to 4,095.
///
/// A single-precision number is a sign bit, an exponent in 8 bits that is 127
/// too large, and the 23 bits after the leading one. With h the place of the
/// code's highest one, |code| / 4,096 is 2^(h - 12) times a number from 1 up to
/// 2; its bits after the leading one are the code's h low bits, moved up to
/// the top of the 23. Since h is at most 12 none is lost.
fn divided_by_4096(code: i32) -> u32 {
    if code == 0 {
        return 0;
    }
    let sign = if code < 0 { 1 } else { 0 };
    let size = code.unsigned_abs();
    let mut h = 0;
    while size >> (h + 1) != 0 {
        h += 1;
    }
    let exponent = 127 + h - 12;
    let after_leading_one = (size - (1 << h)) << (23 - h);
    (sign << 31) | (exponent << 23) | after_leading_one
}

/// The bits of the seven numbers, or 14.
pub fn shader(block: &Block) -> Result<[u32; 7], u32> {
    if !in_range(block) {
        return Err(14);
    }
    match *block {
        Block::Level2 {
            target_max_pq,
            trim_slope,
            trim_offset,
            trim_power,
            trim_chroma_weight,
            trim_saturation_gain,
            ms_weight,
        } => Ok([
            divided_by_4096(target_max_pq as i32),
            divided_by_4096(trim_slope as i32),
            divided_by_4096(trim_offset as i32),
            divided_by_4096(trim_power as i32),
            divided_by_4096(trim_chroma_weight as i32),
            divided_by_4096(trim_saturation_gain as i32),
            divided_by_4096(ms_weight as i32),
        ]),
        _ => Err(14),
    }
}
