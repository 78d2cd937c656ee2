//! This program's own answers behind the interface of the proved archive
//! (`proved.rs` has the same functions with the same arguments): flat records,
//! flat tables, a result number, and lent arrays that stay as they were on a
//! refusal, but for the facts of a reading, which then say where and why.
//!
//! Two rules belong to that interface and not to 01. An argument of a wrong
//! length is refused with 13 before everything else: a record, the facts of a
//! reading, a block, the bits of the shader numbers, a point, and every table, so that
//! 16 is never the answer to a table's length. A flat record that names no record is
//! treated as one that is not valid, in a point too, and a flat point whose segment is
//! none, below 0 or above 65,535, as one whose record is not valid. The lengths of the
//! bytes to be written are 01's business and keep 01's order (14 before 13).

use crate::reader::{self, Reading, Refusal};
use crate::record::{block_from_flat, from_flat, to_flat, FLAT, FLAT_BLOCK};
use crate::rival;
use crate::shader;
use crate::track::{self, point_from_flat, point_to_flat, table_to_flat, Point};
use crate::track::{CLEARED, FLAT_POINT, FLAT_TABLE, POINTS};
use crate::unit;
use crate::why::{self, Told};
use crate::writer;

/// The facts of a reading: the bits read, the number of blocks that were passed over,
/// and of a refusal its offset, whether that is one in the wrapper, the number of its
/// element, what is told of a value, the value by halves of 32 bits, and the lowest and
/// the highest that is allowed.
pub const READING: usize = 10;
pub const BITS: usize = 0;
pub const SKIPPED: usize = 1;
pub const OFFSET: usize = 2;
pub const IN_WRAPPER: usize = 3;
pub const ELEMENT: usize = 4;
pub const KIND: usize = 5;
pub const VALUE: usize = 6;
pub const VALUE_HIGH: usize = 7;
pub const LOWEST: usize = 8;
pub const HIGHEST: usize = 9;

/// The kinds: no value is told, allowed is from the lowest to the highest, and allowed
/// are others than those met.
pub const NO_VALUE: u32 = 0;
pub const RANGE: u32 = 1;
pub const OTHER: u32 = 2;

/// The facts of a refused reading.
pub fn facts_of(refusal: &Refusal) -> [u32; READING] {
    let mut facts = [0; READING];
    facts[OFFSET] = refusal.offset;
    facts[IN_WRAPPER] = refusal.is_in_wrapper() as u32;
    facts[ELEMENT] = refusal.element.map_or(0, |element| element as u32);
    let (kind, value) = match refusal.told {
        Told::Nothing => (NO_VALUE, 0),
        Told::Range { value, .. } => (RANGE, value),
        Told::Other { value } => (OTHER, value),
    };
    facts[KIND] = kind;
    facts[VALUE] = value as u32;
    facts[VALUE_HIGH] = (value >> 32) as u32;
    if let Told::Range {
        lowest, highest, ..
    } = refusal.told
    {
        facts[LOWEST] = lowest;
        facts[HIGHEST] = highest;
    }
    facts
}

/// What a reader answers, given to the arrays. A refusal leaves the record as it
/// was; of the facts it gives all but the first two, and an accepted input those, and
/// the others are zeros. An array of facts that has not its length is left alone.
fn give_read(
    read: impl Fn(&[u8]) -> Result<Reading, Refusal>,
    input: &[u8],
    record: &mut [i32],
    facts: &mut [u32],
) -> u32 {
    if facts.len() != READING {
        return 13;
    }
    facts.fill(0);
    if record.len() != FLAT {
        return 13;
    }
    match read(input) {
        Ok(reading) => {
            to_flat(&reading.record, record);
            facts[BITS] = reading.bits;
            facts[SKIPPED] = reading.skipped;
            0
        }
        Err(refusal) => {
            facts.copy_from_slice(&facts_of(&refusal));
            refusal.number
        }
    }
}

#[inline(never)]
pub fn read_bare(input: &[u8], record: &mut [i32], facts: &mut [u32]) -> u32 {
    give_read(reader::read_bare, input, record, facts)
}

#[inline(never)]
pub fn read_wrapped(input: &[u8], record: &mut [i32], facts: &mut [u32]) -> u32 {
    give_read(reader::read_wrapped, input, record, facts)
}

#[inline(never)]
pub fn read_unit(input: &[u8], record: &mut [i32], facts: &mut [u32]) -> u32 {
    give_read(unit::read_unit, input, record, facts)
}

/// The readers for speed, behind the same interface.
#[inline(never)]
pub fn rival_read_bare(input: &[u8], record: &mut [i32], facts: &mut [u32]) -> u32 {
    give_read(rival::read_bare, input, record, facts)
}

#[inline(never)]
pub fn rival_read_wrapped(input: &[u8], record: &mut [i32], facts: &mut [u32]) -> u32 {
    give_read(rival::read_wrapped, input, record, facts)
}

/// A unit, whose message of ours the reader for speed reads.
pub fn rival_read_unit(input: &[u8], record: &mut [i32], facts: &mut [u32]) -> u32 {
    let read = |unit: &[u8]| unit::read_unit_by(rival::read_wrapped, unit);
    give_read(read, input, record, facts)
}

fn give_number(answer: Result<usize, u32>, number: &mut u32) -> u32 {
    match answer {
        Ok(done) => {
            *number = done as u32;
            0
        }
        Err(refusal) => refusal,
    }
}

#[inline(never)]
pub fn write_bare(record: &[i32], out: &mut [u8], written: &mut u32) -> u32 {
    if record.len() != FLAT {
        return 13;
    }
    match from_flat(record) {
        Some(named) => give_number(writer::write_bare(&named, out), written),
        None => 14,
    }
}

#[inline(never)]
pub fn write_wrapped(record: &[i32], out: &mut [u8], written: &mut u32) -> u32 {
    if record.len() != FLAT {
        return 13;
    }
    match from_flat(record) {
        Some(named) => give_number(writer::write_wrapped(&named, out), written),
        None => 14,
    }
}

#[inline(never)]
pub fn write_unit(record: &[i32], out: &mut [u8], written: &mut u32) -> u32 {
    if record.len() != FLAT {
        return 13;
    }
    match from_flat(record) {
        Some(named) => give_number(unit::write_unit(&named, out), written),
        None => 14,
    }
}

/// The text of `why` in the first bytes of the output. 13 where that is shorter.
#[inline(never)]
pub fn why_wrapped(input: &[u8], out: &mut [u8], written: &mut u32) -> u32 {
    let text = why::text(&reader::read_wrapped(input));
    if out.len() < text.len() {
        return 13;
    }
    out[..text.len()].copy_from_slice(text.as_bytes());
    *written = text.len() as u32;
    0
}

#[inline(never)]
pub fn shader(block: &[i32], bits: &mut [u32]) -> u32 {
    if block.len() != FLAT_BLOCK || bits.len() != 7 {
        return 13;
    }
    let answer = match block_from_flat(block) {
        Some(named) => shader::shader(&named),
        None => Err(14),
    };
    match answer {
        Ok(numbers) => {
            bits.copy_from_slice(&numbers);
            0
        }
        Err(refusal) => refusal,
    }
}

/// The table whose points inside the count are these, or none if one of them
/// has numbers that name no point. What lies past the count is not looked at.
fn points(table: &[i32], count: usize) -> Option<Vec<Point>> {
    let mut points = vec![CLEARED; POINTS];
    for (i, point) in points.iter_mut().enumerate().take(count) {
        let at = FLAT_POINT * i;
        *point = point_from_flat(&table[at..at + FLAT_POINT])?;
    }
    Some(points)
}

/// The table and the count, if they are given; on a refusal neither changes.
fn give_table(
    answer: Result<usize, u32>,
    points: &[Point],
    table: &mut [i32],
    count: &mut u32,
) -> u32 {
    if answer.is_ok() {
        table_to_flat(points, table);
    }
    give_number(answer, count)
}

#[inline(never)]
pub fn place(
    record: &[i32],
    picture: i32,
    segment: u16,
    table: &mut [i32],
    count: &mut u32,
) -> u32 {
    if record.len() != FLAT || table.len() != FLAT_TABLE {
        return 13;
    }
    let mut made = vec![CLEARED; POINTS];
    match from_flat(record) {
        Some(named) => {
            let answer = track::place(&named, picture, segment, &mut made);
            give_table(answer, &made, table, count)
        }
        None => 14,
    }
}

/// The point in force, or zeros where nothing is: its picture is the start, and "lookup
/// gives [the segment], 0 with nothing" (02, g).
#[inline(never)]
pub fn lookup(
    table: &[i32],
    count: usize,
    picture: i32,
    point: &mut [i32],
    found: &mut u32,
) -> u32 {
    if point.len() != FLAT_POINT || table.len() != FLAT_TABLE {
        return 13;
    }
    let table = match points(table, count) {
        Some(table) => table,
        None => return 16,
    };
    match track::lookup(&table, count, picture) {
        Ok(Some(in_force)) => {
            point_to_flat(in_force, point);
            *found = 1;
            0
        }
        Ok(None) => {
            point_to_flat(&CLEARED, point);
            *found = 0;
            0
        }
        Err(refusal) => refusal,
    }
}

#[inline(never)]
pub fn join(
    a: &[i32],
    a_count: usize,
    b: &[i32],
    b_count: usize,
    table: &mut [i32],
    count: &mut u32,
) -> u32 {
    if a.len() != FLAT_TABLE || b.len() != FLAT_TABLE || table.len() != FLAT_TABLE {
        return 13;
    }
    let (a, b) = match (points(a, a_count), points(b, b_count)) {
        (Some(a), Some(b)) => (a, b),
        _ => return 16,
    };
    let mut made = vec![CLEARED; POINTS];
    let answer = track::join(&a, a_count, &b, b_count, &mut made);
    give_table(answer, &made, table, count)
}
