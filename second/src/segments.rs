//! 02, g: "Every point shall carry a segment number". Tracks that share numbers, which of
//! them are compared, and what their joins and lookups must get; and tables that hold
//! numbers that are no segment's.

use crate::compare::{Compare, Track};
use crate::made::{no_segment, pictures, Rng, NO_SEGMENTS};
use crate::runs::{build, in_one, inside_the_count, look_around, meant, rng};
use crate::runs::{same_answers, swapping, two_by_hand, Loose};
use crate::track::{FLAT_POINT, POINTS, SEGMENT};

/// In what the tracks differ where they hold the same number: nowhere, at one number in
/// one thing, at many in one thing, at many in any.
#[derive(Clone, Copy, Debug)]
enum Sharing {
    Equal,
    OneSegment,
    OneRecord,
    Segments,
    Records,
    Any,
}

const SHARINGS: [Sharing; 6] = [
    Sharing::Equal,
    Sharing::OneSegment,
    Sharing::OneRecord,
    Sharing::Segments,
    Sharing::Records,
    Sharing::Any,
];

/// Three tracks in a round of each sharing.
const THREES: u64 = 150;
/// Tables with a number that is no segment's.
const TABLES: u64 = 160;

/// The points of three tracks. Every number is held by one of them at least.
fn lists(rng: &mut Rng, sharing: Sharing) -> [Vec<Loose>; 3] {
    let total = match rng.below(4) {
        0 => rng.from(60, 70) as usize,
        _ => rng.from(1, 16) as usize,
    };
    let numbers = pictures(rng, total);
    let one = rng.below(total);
    let mut lists = [Vec::new(), Vec::new(), Vec::new()];
    for (i, &number) in numbers.iter().enumerate() {
        let point = Loose::made(rng, number);
        // Three of four numbers are shared, and so is the one that differs.
        let holders = if i == one || !rng.one_in(4) {
            rng.pick(&[0b011, 0b101, 0b110, 0b111, 0b111])
        } else {
            rng.pick(&[0b001, 0b010, 0b100])
        };
        let (records, segments) = match sharing {
            Sharing::Equal => (false, false),
            Sharing::OneSegment => (false, i == one),
            Sharing::OneRecord => (i == one, false),
            Sharing::Segments => (false, rng.one_in(2)),
            Sharing::Records => (rng.one_in(2), false),
            Sharing::Any => (rng.one_in(2), rng.one_in(2)),
        };
        // A track has room for 64.
        let mut earlier: Option<Loose> = None;
        for (bit, list) in lists.iter_mut().enumerate() {
            if holders & 1 << bit == 0 || list.len() == POINTS {
                continue;
            }
            let held = match earlier {
                // The third can have the point of the first again.
                Some(_) if bit == 2 && holders == 0b111 && rng.one_in(3) => point,
                Some(before) => before.other(rng, records, segments),
                None => point,
            };
            list.push(held);
            earlier = Some(held);
        }
    }
    lists
}

/// Joins three tracks, two at a time both ways and all in both groupings, and looks up
/// in what comes of it. Gives the number of threes.
pub fn threes(compare: &mut Compare, round: u64) -> u64 {
    let mut threes = 0;
    for (part, &sharing) in SHARINGS.iter().enumerate() {
        let mut rng = rng(0xF00 + part as u64, round);
        for i in 0..THREES {
            compare.begin(format!(
                "three {} of tracks that share {:?}, round {}",
                i, sharing, round
            ));
            three(compare, &mut rng, sharing, i % 2 == 0);
            threes += 1;
        }
    }
    threes
}

fn three(compare: &mut Compare, rng: &mut Rng, sharing: Sharing, placed: bool) {
    let lists = lists(rng, sharing);
    let tracks: Vec<Track> = lists
        .iter()
        .map(|list| {
            if placed && list.len() <= 16 {
                build(compare, rng, list)
            } else {
                in_one(&[list]).unwrap()
            }
        })
        .collect();
    let (a, b, c) = (&tracks[0], &tracks[1], &tracks[2]);
    let ab = swapping(compare, (a, b), (&lists[0], &lists[1]));
    let bc = swapping(compare, (b, c), (&lists[1], &lists[2]));
    let ac = swapping(compare, (a, c), (&lists[0], &lists[2]));
    for (joined, first, second) in [(&ab, 0, 1), (&bc, 1, 2), (&ac, 0, 2)] {
        if let Some(joined) = joined {
            of_the_second(compare, joined, &lists[first], &lists[second]);
            look_around(compare, rng, joined, 2);
        }
    }
    // Demand 3: both groupings give the same track, or both are refused, the latter
    // exactly when there are more than 64 different numbers.
    let left = ab.and_then(|ab| grouped(compare, &ab, c));
    let right = bc.and_then(|bc| grouped(compare, a, &bc));
    if left != right || left != in_one(&[&lists[0], &lists[1], &lists[2]]) {
        compare.fail(
            "both implementations group three tracks otherwise than they were meant",
            &format!("{}, {} and {} points", a.count, b.count, c.count),
            &format!(
                "the first two joined first: {:?} points, the last two: {:?}",
                left.map(|track| track.count),
                right.map(|track| track.count)
            ),
        );
    }
    compare.count_grouped(left.is_none());
    if let Some(joined) = &left {
        look_around(compare, rng, joined, 6);
    }
}

/// The join of a join and a track, or none if it is refused, with 15 then.
fn grouped(compare: &mut Compare, first: &Track, second: &Track) -> Option<Track> {
    let (number, joined) = compare.join(first, second);
    if joined.is_none() {
        meant(compare, number, 15);
    }
    joined
}

/// Looks up where both tracks of a join hold a number with equal records and other
/// segments: the segment is the second's, there and up to the next number.
fn of_the_second(compare: &mut Compare, joined: &Track, a: &[Loose], b: &[Loose]) {
    for point in a {
        let other = match b.iter().find(|other| other.picture == point.picture) {
            Some(other) if other.record == point.record => other,
            _ => continue,
        };
        if other.segment == point.segment {
            continue;
        }
        let next = (0..joined.count)
            .map(|i| joined.table.picture(i))
            .find(|&picture| picture > point.picture);
        for picture in [point.picture, next.map_or(i32::MAX, |next| next - 1)] {
            let number = compare.lookup(&joined.table, joined.count, picture);
            if number != 0 || compare.in_force()[SEGMENT] != other.segment as i32 {
                compare.fail(
                    "both implementations give another segment than the second track's",
                    &format!("picture {}, segment {}", picture, other.segment),
                    &format!("both: {}, {:?}", number, &compare.in_force()[..FLAT_POINT]),
                );
            }
            compare.count_found_of_second();
        }
    }
}

/// Tables that hold numbers that are no segment's: inside the count, where they make the
/// table no track, and past it, where they are ignored. Everything else is that of a
/// track. Gives the number of tables.
pub fn without_segments(compare: &mut Compare, round: u64) -> u64 {
    compare.begin(format!("tables without segments, round {}", round));
    let mut rng = rng(0xF80, round);
    for i in 0..TABLES as usize {
        let a_count = match i / NO_SEGMENTS.len() % 4 {
            0 => 1,
            1 => POINTS,
            _ => rng.from(2, 40) as usize,
        };
        let b_count = rng.below(POINTS + 1 - a_count.min(40));
        let (a, b) = two_by_hand(&mut rng, a_count, b_count);
        let at = match rng.below(4) {
            0 => 0,
            1 => a_count - 1,
            _ => rng.below(a_count),
        };
        let listed = NO_SEGMENTS[i % NO_SEGMENTS.len()];
        let alike = no_segment(&mut rng, a.table.segment(at) as u16);
        for number in [listed, alike] {
            let mut worse = a.clone();
            worse.table.set_segment(at, number);
            let (lookups, joins) =
                inside_the_count(compare, &mut rng, (&a, &b), at, &worse, Some(false));
            compare.count_no_segment(lookups, joins);
        }
        // Every segment that there is will do at the same point.
        let mut other = a.clone();
        other.table.set_segment(at, rng.from(0, 65_535));
        inside_the_count(compare, &mut rng, (&a, &b), at, &other, Some(true));
        past_the_count(compare, &mut rng, (&a, &b), listed);
    }
    TABLES
}

/// The entries past the counts would continue the tracks, but for their segments.
fn past_the_count(compare: &mut Compare, rng: &mut Rng, (a, b): (&Track, &Track), listed: i32) {
    let mut more = [a.clone(), b.clone()];
    for track in more.iter_mut() {
        for at in track.count..POINTS {
            if at > 0 {
                track.table.copy_within(at, at - 1);
                let next = track.table.picture(at).saturating_add(1);
                track.table.set_picture(at, next);
            }
            let number = if rng.one_in(2) {
                listed
            } else {
                no_segment(rng, 0)
            };
            track.table.set_segment(at, number);
        }
    }
    same_answers(compare, rng, (a, b), (&more[0], &more[1]));
}
