//! The writer: 01's syntax in the other direction. 14 comes before 13, and
//! a refused write changes no byte.

use crate::reader::WRAPPER;
use crate::record::{valid, Block, Record, BARE_BYTES};

/// Room for the largest bare payload, and how many bits were written. Bits
/// that were not written are 0.
struct Bits {
    bytes: [u8; BARE_BYTES],
    written: usize,
}

impl Bits {
    fn bit(&mut self, bit: u32) {
        if bit == 1 {
            self.bytes[self.written / 8] |= 1 << (7 - self.written % 8);
        }
        self.written += 1;
    }

    /// u(n), the most significant bit first
    fn u(&mut self, number: u32, n: u32) {
        for i in (0..n).rev() {
            self.bit((number >> i) & 1);
        }
    }

    /// i(n): the low n bits of the two's complement
    fn i(&mut self, number: i16, n: u32) {
        self.u(number as i32 as u32, n);
    }

    /// ue(v): the k with 2^k - 1 <= number < 2^(k+1) - 1 gives k zeros, a one,
    /// and the k bits of number - (2^k - 1).
    fn ue(&mut self, number: u32) {
        let mut k = 0;
        while number >= (1 << (k + 1)) - 1 {
            k += 1;
        }
        self.u(0, k);
        self.u(1, 1);
        self.u(number - ((1 << k) - 1), k);
    }

    fn zeros_to_byte(&mut self) {
        while self.written % 8 != 0 {
            self.bit(0);
        }
    }

    fn block(&mut self, block: &Block) {
        let (length, level) = match block {
            Block::Nothing => return,
            Block::Level1 { .. } => (5, 1),
            Block::Level2 { .. } => (11, 2),
            Block::Level5 { .. } => (7, 5),
        };
        self.ue(length);
        self.u(level, 8);
        let after_level = self.written;
        match *block {
            Block::Nothing => {}
            Block::Level1 {
                min_pq,
                max_pq,
                avg_pq,
            } => {
                self.u(min_pq as u32, 12);
                self.u(max_pq as u32, 12);
                self.u(avg_pq as u32, 12);
            }
            Block::Level2 {
                target_max_pq,
                trim_slope,
                trim_offset,
                trim_power,
                trim_chroma_weight,
                trim_saturation_gain,
                ms_weight,
            } => {
                self.u(target_max_pq as u32, 12);
                self.u(trim_slope as u32, 12);
                self.u(trim_offset as u32, 12);
                self.u(trim_power as u32, 12);
                self.u(trim_chroma_weight as u32, 12);
                self.u(trim_saturation_gain as u32, 12);
                self.i(ms_weight, 13);
            }
            Block::Level5 {
                left,
                right,
                top,
                bottom,
            } => {
                self.u(left as u32, 13);
                self.u(right as u32, 13);
                self.u(top as u32, 13);
                self.u(bottom as u32, 13);
            }
        }
        while self.written < after_level + 8 * length as usize {
            self.bit(0);
        }
    }
}

/// The payload of a valid record.
fn payload(record: &Record) -> Bits {
    let mut bits = Bits {
        bytes: [0; BARE_BYTES],
        written: 0,
    };
    bits.ue(1);
    bits.ue(0);
    bits.u(record.refresh as u32, 1);
    if record.refresh {
        bits.ue(record.count as u32);
        if record.count > 0 {
            bits.zeros_to_byte();
            for block in &record.places[..record.count as usize] {
                bits.block(block);
            }
        }
    }
    bits.zeros_to_byte();
    bits
}

/// The number of bytes written, or the refusal number.
pub fn write_bare(record: &Record, out: &mut [u8]) -> Result<usize, u32> {
    if !valid(record) {
        return Err(14);
    }
    let bits = payload(record);
    let needed = bits.written / 8;
    if out.len() < needed {
        return Err(13);
    }
    out[..needed].copy_from_slice(&bits.bytes[..needed]);
    Ok(needed)
}

/// The same behind the eight wrapper bytes, which count among those written.
pub fn write_wrapped(record: &Record, out: &mut [u8]) -> Result<usize, u32> {
    if !valid(record) {
        return Err(14);
    }
    let bits = payload(record);
    let needed = WRAPPER.len() + bits.written / 8;
    if out.len() < needed {
        return Err(13);
    }
    out[..WRAPPER.len()].copy_from_slice(&WRAPPER);
    out[WRAPPER.len()..needed].copy_from_slice(&bits.bytes[..bits.written / 8]);
    Ok(needed)
}
