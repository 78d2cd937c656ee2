//! 01, "Tracks": a table of 64 points with a count. Each point carries the number of
//! the segment that it came from (02, g).
//!
//! The second half is the flat table, the form in which tables cross the
//! interface of the proved archive.

use crate::record::{as_u16, from_flat, to_flat, valid, Record, EMPTY, FLAT};

/// The points of a table.
pub const POINTS: usize = 64;

/// "Points are then equal only if number, record and segment are" (02, g).
#[derive(Clone, Copy, PartialEq, Eq, Debug)]
pub struct Point {
    pub picture: i32,
    pub segment: u16,
    pub record: Record,
}

/// "Entries past the new count become picture 0 with the empty record", and "cleared
/// entries have segment 0" (02, g).
pub const CLEARED: Point = Point {
    picture: 0,
    segment: 0,
    record: EMPTY,
};

/// Refusal 16's question. The whole track is judged, whatever is asked of it;
/// points past the count are ignored. Any segment will do.
fn is_track(table: &[Point], count: usize) -> bool {
    if table.len() != POINTS || count > POINTS {
        return false;
    }
    for i in 0..count {
        if i > 0 && table[i].picture <= table[i - 1].picture {
            return false;
        }
        if !table[i].record.refresh || !valid(&table[i].record) {
            return false;
        }
    }
    true
}

/// The point whose record is in force, the one with the greatest number not above the
/// picture's, or nothing. That number is the track's start at the picture, and "lookup
/// gives" the segment too (02, g). Refuses only with 16.
pub fn lookup(table: &[Point], count: usize, picture: i32) -> Result<Option<&Point>, u32> {
    if !is_track(table, count) {
        return Err(16);
    }
    let mut in_force = None;
    for point in &table[..count] {
        if point.picture <= picture {
            in_force = Some(point);
        }
    }
    Ok(in_force)
}

/// The new count. "Placing a record at a picture: 14, then 13." The segment is "given
/// when the payload is placed" (02, g). A record with the flag 0 makes no point that
/// could carry it.
pub fn place(
    record: &Record,
    picture: i32,
    segment: u16,
    table: &mut [Point],
) -> Result<usize, u32> {
    if !valid(record) {
        return Err(14);
    }
    if table.len() != POINTS {
        return Err(13);
    }
    for entry in table.iter_mut() {
        *entry = CLEARED;
    }
    if !record.refresh {
        return Ok(0);
    }
    table[0] = Point {
        picture,
        segment,
        record: *record,
    };
    Ok(1)
}

/// The new count. "Join: first track 16, second track 16, result table 13,
/// then 15."
pub fn join(
    a: &[Point],
    a_count: usize,
    b: &[Point],
    b_count: usize,
    table: &mut [Point],
) -> Result<usize, u32> {
    if !is_track(a, a_count) {
        return Err(16);
    }
    if !is_track(b, b_count) {
        return Err(16);
    }
    if table.len() != POINTS {
        return Err(13);
    }
    // Every number of either, in rising order; where both hold the number, the
    // point of the second, its segment with its record (02, g).
    let mut points: Vec<&Point> = Vec::with_capacity(2 * POINTS);
    let mut i = 0;
    let mut j = 0;
    while i < a_count || j < b_count {
        if j == b_count || (i < a_count && a[i].picture < b[j].picture) {
            points.push(&a[i]);
            i += 1;
        } else {
            if i < a_count && a[i].picture == b[j].picture {
                i += 1;
            }
            points.push(&b[j]);
            j += 1;
        }
    }
    if points.len() > POINTS {
        return Err(15);
    }
    for (at, entry) in table.iter_mut().enumerate() {
        *entry = match points.get(at) {
            Some(point) => **point,
            None => CLEARED,
        };
    }
    Ok(points.len())
}

// -------------------------------------------------------------- flat table

/// The numbers of a flat point: its picture, its segment, then its flat record.
pub const FLAT_POINT: usize = RECORD + FLAT;
pub const PICTURE: usize = 0;
pub const SEGMENT: usize = 1;
pub const RECORD: usize = 2;
/// The numbers of a flat table.
pub const FLAT_TABLE: usize = POINTS * FLAT_POINT;

/// The point that 148 numbers name, or none if the second is no segment number or
/// those behind it name no record.
pub fn point_from_flat(flat: &[i32]) -> Option<Point> {
    Some(Point {
        picture: flat[PICTURE],
        segment: as_u16(flat[SEGMENT])?,
        record: from_flat(&flat[RECORD..])?,
    })
}

/// Writes all 148 numbers.
pub fn point_to_flat(point: &Point, flat: &mut [i32]) {
    flat[PICTURE] = point.picture;
    flat[SEGMENT] = point.segment as i32;
    to_flat(&point.record, &mut flat[RECORD..]);
}

/// Writes all numbers of a table.
pub fn table_to_flat(table: &[Point], flat: &mut [i32]) {
    for (point, numbers) in table.iter().zip(flat.chunks_mut(FLAT_POINT)) {
        point_to_flat(point, numbers);
    }
}
