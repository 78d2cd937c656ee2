//! 01, "The record": the refresh flag, a block count and 18 places.
//!
//! The second half is the flat record, the form in which records cross the
//! interface of the proved archive.

/// At most 18 known blocks in all.
pub const PLACES: usize = 18;
/// At most sixteen blocks of level 2.
pub const LEVEL_2_BLOCKS: usize = 16;
/// The largest bare payload that is written.
pub const BARE_BYTES: usize = 224;
/// The largest wrapped payload that is written.
pub const WRAPPED_BYTES: usize = 232;

/// One place: nothing, or a block of one of the three levels with the fields
/// of that level, in the order of table E.1.3.
#[derive(Clone, Copy, PartialEq, Eq, Debug)]
pub enum Block {
    Nothing,
    Level1 {
        min_pq: u16,
        max_pq: u16,
        avg_pq: u16,
    },
    Level2 {
        target_max_pq: u16,
        trim_slope: u16,
        trim_offset: u16,
        trim_power: u16,
        trim_chroma_weight: u16,
        trim_saturation_gain: u16,
        ms_weight: i16,
    },
    Level5 {
        left: u16,
        right: u16,
        top: u16,
        bottom: u16,
    },
}

#[derive(Clone, Copy, PartialEq, Eq, Debug)]
pub struct Record {
    pub refresh: bool,
    pub count: u8,
    pub places: [Block; PLACES],
}

/// "The empty record has flag 0 and count 0."
pub const EMPTY: Record = Record {
    refresh: false,
    count: 0,
    places: [Block::Nothing; PLACES],
};

/// Whether u(12) can hold the number.
fn u12(number: u16) -> bool {
    number <= 4095
}

/// Whether u(13) can hold the number.
fn u13(number: u16) -> bool {
    number <= 8191
}

/// Whether i(13) can hold the number.
fn i13(number: i16) -> bool {
    (-4096..=4095).contains(&number)
}

/// Whether the fields fit their widths and, in level 1, min <= avg <= max.
/// A place that holds nothing has no fields, so nothing is out of range.
pub fn in_range(block: &Block) -> bool {
    match *block {
        Block::Nothing => true,
        Block::Level1 {
            min_pq,
            max_pq,
            avg_pq,
        } => u12(min_pq) && u12(max_pq) && u12(avg_pq) && min_pq <= avg_pq && avg_pq <= max_pq,
        Block::Level2 {
            target_max_pq,
            trim_slope,
            trim_offset,
            trim_power,
            trim_chroma_weight,
            trim_saturation_gain,
            ms_weight,
        } => {
            u12(target_max_pq)
                && u12(trim_slope)
                && u12(trim_offset)
                && u12(trim_power)
                && u12(trim_chroma_weight)
                && u12(trim_saturation_gain)
                && i13(ms_weight)
        }
        Block::Level5 {
            left,
            right,
            top,
            bottom,
        } => u13(left) && u13(right) && u13(top) && u13(bottom),
    }
}

/// Which repeat a block is that comes after `earlier`, as a refusal number, or none:
/// "11 is kept for a repeated target_max_PQ; 17 second level 1, 18 second level 5, 19
/// seventeenth level 2. If 11 and 19 both apply, 19 comes first" (02, e).
pub fn repeat(earlier: &[Block], block: &Block) -> Option<u32> {
    match *block {
        Block::Nothing => None,
        Block::Level1 { .. } => earlier
            .iter()
            .any(|b| matches!(b, Block::Level1 { .. }))
            .then_some(17),
        Block::Level5 { .. } => earlier
            .iter()
            .any(|b| matches!(b, Block::Level5 { .. }))
            .then_some(18),
        Block::Level2 { target_max_pq, .. } => {
            let mut met = 0;
            let mut target_met = false;
            for other in earlier {
                if let Block::Level2 {
                    target_max_pq: target,
                    ..
                } = *other
                {
                    met += 1;
                    target_met |= target == target_max_pq;
                }
            }
            if met >= LEVEL_2_BLOCKS {
                return Some(19);
            }
            target_met.then_some(11)
        }
    }
}

/// "A valid record meets all this and the ranges above."
pub fn valid(record: &Record) -> bool {
    let count = record.count as usize;
    if count > PLACES {
        return false;
    }
    // "With the flag 0 the count is 0."
    if !record.refresh && count != 0 {
        return false;
    }
    // "Exactly the first count places hold a block."
    for i in 0..PLACES {
        let holds_a_block = record.places[i] != Block::Nothing;
        if holds_a_block != (i < count) {
            return false;
        }
    }
    for i in 0..count {
        if !in_range(&record.places[i]) || repeat(&record.places[..i], &record.places[i]).is_some()
        {
            return false;
        }
    }
    true
}

/// A flat record: refresh, count, then 18 places of 8 numbers.
pub const FLAT: usize = 2 + PLACES * FLAT_BLOCK;
/// A flat block: its level, or 0 for nothing, then its fields in syntax
/// order; numbers that the level does not use are 0.
pub const FLAT_BLOCK: usize = 8;

pub fn as_u16(number: i32) -> Option<u16> {
    if (0..=65_535).contains(&number) {
        Some(number as u16)
    } else {
        None
    }
}

fn as_i16(number: i32) -> Option<i16> {
    if (-32_768..=32_767).contains(&number) {
        Some(number as i16)
    } else {
        None
    }
}

/// The block that eight numbers name, or none if they name none: another
/// level, a field that its type cannot hold, or an unused number that is not 0.
pub fn block_from_flat(flat: &[i32]) -> Option<Block> {
    let used = match flat[0] {
        0 => 1,
        1 => 4,
        2 => 8,
        5 => 5,
        _ => return None,
    };
    if flat[used..FLAT_BLOCK].iter().any(|&number| number != 0) {
        return None;
    }
    match flat[0] {
        1 => Some(Block::Level1 {
            min_pq: as_u16(flat[1])?,
            max_pq: as_u16(flat[2])?,
            avg_pq: as_u16(flat[3])?,
        }),
        2 => Some(Block::Level2 {
            target_max_pq: as_u16(flat[1])?,
            trim_slope: as_u16(flat[2])?,
            trim_offset: as_u16(flat[3])?,
            trim_power: as_u16(flat[4])?,
            trim_chroma_weight: as_u16(flat[5])?,
            trim_saturation_gain: as_u16(flat[6])?,
            ms_weight: as_i16(flat[7])?,
        }),
        5 => Some(Block::Level5 {
            left: as_u16(flat[1])?,
            right: as_u16(flat[2])?,
            top: as_u16(flat[3])?,
            bottom: as_u16(flat[4])?,
        }),
        _ => Some(Block::Nothing),
    }
}

pub fn block_to_flat(block: &Block) -> [i32; FLAT_BLOCK] {
    match *block {
        Block::Nothing => [0; FLAT_BLOCK],
        Block::Level1 {
            min_pq,
            max_pq,
            avg_pq,
        } => [1, min_pq as i32, max_pq as i32, avg_pq as i32, 0, 0, 0, 0],
        Block::Level2 {
            target_max_pq,
            trim_slope,
            trim_offset,
            trim_power,
            trim_chroma_weight,
            trim_saturation_gain,
            ms_weight,
        } => [
            2,
            target_max_pq as i32,
            trim_slope as i32,
            trim_offset as i32,
            trim_power as i32,
            trim_chroma_weight as i32,
            trim_saturation_gain as i32,
            ms_weight as i32,
        ],
        Block::Level5 {
            left,
            right,
            top,
            bottom,
        } => [
            5,
            left as i32,
            right as i32,
            top as i32,
            bottom as i32,
            0,
            0,
            0,
        ],
    }
}

/// The record that 146 numbers name, or none. What it names need not be valid.
pub fn from_flat(flat: &[i32]) -> Option<Record> {
    let mut record = EMPTY;
    record.refresh = match flat[0] {
        0 => false,
        1 => true,
        _ => return None,
    };
    if !(0..=255).contains(&flat[1]) {
        return None;
    }
    record.count = flat[1] as u8;
    for i in 0..PLACES {
        let at = 2 + FLAT_BLOCK * i;
        record.places[i] = block_from_flat(&flat[at..at + FLAT_BLOCK])?;
    }
    Some(record)
}

/// Writes all 146 numbers.
pub fn to_flat(record: &Record, flat: &mut [i32]) {
    flat[0] = record.refresh as i32;
    flat[1] = record.count as i32;
    for i in 0..PLACES {
        let at = 2 + FLAT_BLOCK * i;
        flat[at..at + FLAT_BLOCK].copy_from_slice(&block_to_flat(&record.places[i]));
    }
}

pub fn flat(record: &Record) -> [i32; FLAT] {
    let mut numbers = [0; FLAT];
    to_flat(record, &mut numbers);
    numbers
}
