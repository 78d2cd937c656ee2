//! 02, a, "Take the SEI unit whole": SEI NAL units of H.265, read and written.
//!
//! The refusals 30 to 33 are "checked in that order, each over the whole unit,
//! before document 01's". So each has a pass of its own, which knows that those
//! before it found nothing.

use crate::reader::{read_wrapped, Reading, Refusal, WRAPPER};
use crate::record::{Record, WRAPPED_BYTES};
use crate::writer::write_wrapped;

/// The longest unit that is read. Every byte that arrives counts, those of the
/// header and of emulation prevention too.
pub const UNIT_LIMIT: usize = 4096;

/// nal_unit_type of a prefix and of a suffix SEI unit.
const PREFIX: u8 = 39;
const SUFFIX: u8 = 40;
/// nal_unit_type 39, nuh_layer_id 0, nuh_temporal_id_plus1 1
const HEADER: [u8; 2] = [PREFIX << 1, 1];

/// The payload type of user data registered by ITU-T T.35.
const T35: usize = 4;
/// rbsp_trailing_bits() on a byte boundary: a one and seven zeros.
const TRAILING: u8 = 0x80;

/// 30: "unit shorter than two bytes or above 4,096, first header bit set,
/// temporal id plus one of 0, or another type". The header is (H.265, 7.3.1.2)
/// forbidden_zero_bit f(1), nal_unit_type u(6), nuh_layer_id u(6),
/// nuh_temporal_id_plus1 u(3); every layer is taken.
fn check_header(unit: &[u8]) -> Result<(), u32> {
    if unit.len() < 2 || unit.len() > UNIT_LIMIT {
        return Err(30);
    }
    let forbidden_zero_bit = unit[0] >> 7;
    let nal_unit_type = (unit[0] >> 1) & 0x3F;
    let nuh_temporal_id_plus1 = unit[1] & 7;
    if forbidden_zero_bit == 1 || nuh_temporal_id_plus1 == 0 {
        return Err(30);
    }
    if nal_unit_type != PREFIX && nal_unit_type != SUFFIX {
        return Err(30);
    }
    Ok(())
}

/// 31: "two zero bytes followed by 00, 01 or 02, or by 03 and then a byte above
/// 03". Behind a 03 that is the last byte of the unit there is no such byte.
fn check_emulation(unit: &[u8]) -> Result<(), u32> {
    for i in 2..unit.len() {
        if unit[i - 2] == 0 && unit[i - 1] == 0 {
            if unit[i] <= 2 {
                return Err(31);
            }
            if unit[i] == 3 && i + 1 < unit.len() && unit[i + 1] > 3 {
                return Err(31);
            }
        }
    }
    Ok(())
}

/// H.265, 7.3.1.1: of the bytes 00 00 03 the 03 is
/// emulation_prevention_three_byte and is dropped. The zeros before it do not
/// count with those behind it.
fn without_emulation(bytes: &[u8]) -> Vec<u8> {
    let mut kept = Vec::with_capacity(bytes.len());
    let mut zeros = 0;
    for &byte in bytes {
        if zeros == 2 && byte == 3 {
            zeros = 0;
            continue;
        }
        zeros = if byte == 0 { zeros + 1 } else { 0 };
        kept.push(byte);
    }
    kept
}

struct Message<'a> {
    payload_type: usize,
    content: &'a [u8],
}

/// H.265, 7.3.5: a type or a size is 255 for each byte FF and then the byte
/// behind them.
fn chained(bytes: &[u8], at: &mut usize) -> Result<usize, u32> {
    let mut number = 0;
    loop {
        if *at >= bytes.len() {
            return Err(32);
        }
        let byte = bytes[*at];
        *at += 1;
        number += byte as usize;
        if byte != 0xFF {
            return Ok(number);
        }
    }
}

/// 32: "no message at all, a type, size or content that runs past the end, or
/// an end that is not the single byte 80 after a whole message". So 80 is the
/// end only where it is the last byte; before any other byte it is the type 128.
fn messages(bytes: &[u8]) -> Result<Vec<Message<'_>>, u32> {
    let mut list = Vec::new();
    let mut at = 0;
    while list.is_empty() || bytes[at..] != [TRAILING] {
        let payload_type = chained(bytes, &mut at)?;
        let payload_size = chained(bytes, &mut at)?;
        if payload_size > bytes.len() - at {
            return Err(32);
        }
        let content = &bytes[at..at + payload_size];
        at += payload_size;
        list.push(Message {
            payload_type,
            content,
        });
    }
    Ok(list)
}

/// "The first message of type 4 that begins with our eight wrapper bytes goes
/// to the existing reader, whose answer stands; the others are passed over."
/// 33: "none of our messages". So an offset is one in that message's data, and the
/// unit's own refusals have none.
pub fn read_unit(unit: &[u8]) -> Result<Reading, Refusal> {
    read_unit_by(read_wrapped, unit)
}

/// The same, with any reader for the message.
pub fn read_unit_by(
    read: impl Fn(&[u8]) -> Result<Reading, Refusal>,
    unit: &[u8],
) -> Result<Reading, Refusal> {
    check_header(unit).map_err(Refusal::nowhere)?;
    check_emulation(unit).map_err(Refusal::nowhere)?;
    let bytes = without_emulation(&unit[HEADER.len()..]);
    for message in messages(&bytes).map_err(Refusal::nowhere)? {
        if message.payload_type == T35 && message.content.starts_with(&WRAPPER) {
            return read(message.content);
        }
    }
    Err(Refusal::nowhere(33))
}

/// Appends the bytes, and a 03 before each byte up to 03 that would follow two
/// zero bytes.
fn append(unit: &mut Vec<u8>, bytes: &[u8]) {
    for &byte in bytes {
        if byte <= 3 && unit.ends_with(&[0, 0]) {
            unit.push(3);
        }
        unit.push(byte);
    }
}

/// The number of bytes written, or the refusal number. "We write type 39, layer
/// 0, temporal id plus one of 1, with our message alone."
pub fn write_unit(record: &Record, out: &mut [u8]) -> Result<usize, u32> {
    // There is room for every payload, so a refusal is 14.
    let mut payload = [0; WRAPPED_BYTES];
    let size = write_wrapped(record, &mut payload)?;
    let mut unit = HEADER.to_vec();
    // At most 232, so the size is one byte.
    append(&mut unit, &[T35 as u8, size as u8]);
    append(&mut unit, &payload[..size]);
    append(&mut unit, &[TRAILING]);
    if out.len() < unit.len() {
        return Err(13);
    }
    out[..unit.len()].copy_from_slice(&unit);
    Ok(unit.len())
}
