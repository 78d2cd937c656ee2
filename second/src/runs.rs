//! The parts of a run: which inputs are compared, and how many.

use crate::compare::{hex, Compare, Differ, Known, Table, Track};
use crate::made::{
    flat_record, no_segment, other_segment, payload, pictures, point_record, segment, wrapped,
    FlatKind, Kind, Rng, WrapperKind, FLAT_KINDS, KINDS, WRAPPER_KINDS,
};
use crate::own::{facts_of, READING};
use crate::plan::{Answer, Payload};
use crate::reader::{Refusal, WRAPPER};
use crate::record::{flat, EMPTY, FLAT, FLAT_BLOCK};
use crate::track::{FLAT_POINT, FLAT_TABLE, POINTS};
use crate::why::Element;
use std::collections::BTreeMap;

/// The lengths that are wrong for a flat record.
pub const WRONG_RECORD_LENGTHS: [usize; 5] = [0, 1, 145, 147, 292];

/// The lengths that are wrong for a flat point: nothing, a number, a record without
/// picture and segment, as before 02's request g, a number too many, and two points.
const WRONG_POINT_LENGTHS: [usize; 6] =
    [0, 1, FLAT, FLAT_POINT - 1, FLAT_POINT + 1, 2 * FLAT_POINT];

/// Lengths of a flat record and of the facts of a reading of which one, or both,
/// is wrong.
pub const WRONG_READ_LENGTHS: [(usize, usize); 16] = [
    (0, READING),
    (1, READING),
    (FLAT - 1, READING),
    (FLAT + 1, READING),
    (2 * FLAT, READING),
    (FLAT, 0),
    (FLAT, READING - 1),
    (FLAT, READING + 1),
    (FLAT, 2 * READING),
    // As many facts as before 02's requests e and f.
    (FLAT, 2),
    (FLAT, 4),
    (FLAT - 1, READING - 1),
    (FLAT + 1, READING + 1),
    (0, 0),
    (1, READING + 1),
    // Their sum is right.
    (FLAT + 1, READING - 1),
];

/// The lengths that are wrong for a table: a number or a point too few or too
/// many, nothing, one point, 63 points and one number, the number of points taken
/// for the length, and 64 points without their segments.
const WRONG_TABLE_LENGTHS: [usize; 9] = [
    FLAT_TABLE - 1,
    FLAT_TABLE + 1,
    0,
    FLAT_POINT,
    63 * FLAT_POINT,
    63 * FLAT_POINT + 1,
    65 * FLAT_POINT,
    POINTS,
    POINTS * (FLAT_POINT - 1),
];

/// Every part has its own stream of made inputs, and every round continues
/// with other seeds.
pub fn rng(part: u64, round: u64) -> Rng {
    Rng::new(0x0094_1000_0000_0000 + (part << 32) + round)
}

// ------------------------------------------------------------ small inputs

/// All inputs of 0, 1 and 2 bytes: bare, behind the wrapper, and as wrapped
/// input themselves. Gives the number of inputs.
pub fn small_inputs(compare: &mut Compare) -> u64 {
    compare.begin("all inputs of 0, 1 and 2 bytes".to_string());
    let mut cases = 0;
    for n in 0..3usize {
        for value in 0..1u32 << (8 * n) {
            let bytes = [(value >> 8) as u8, value as u8];
            let input = &bytes[2 - n..];
            compare.read(true, input);
            let number = compare.read(false, input);
            same_behind_wrapper(compare, input, number);
            cases += 3;
        }
    }
    cases
}

/// Reads what was just read bare behind the wrapper: the number and the facts must be
/// the same, for no offset in the data counts the wrapper.
fn same_behind_wrapper(compare: &mut Compare, data: &[u8], bare: u32) {
    let facts = compare.all_facts();
    let number = compare.read_behind_wrapper(data);
    if number != bare || compare.all_facts() != facts {
        compare.fail(
            "both implementations answer otherwise behind the wrapper",
            &format!("data: {}", hex(data)),
            &format!(
                "bare: {} {:?}, wrapped: {} {:?}",
                bare,
                facts,
                number,
                compare.all_facts()
            ),
        );
    }
}

/// Every cut of the wrapper and every wrong byte at each of its places: before the
/// data, before nothing but wrong bytes, and as the last byte. Gives the number of
/// inputs.
pub fn wrappers(compare: &mut Compare) -> u64 {
    compare.begin("every cut and every wrong byte of the wrapper".to_string());
    let whole = [&WRAPPER[..], &[0x50]].concat();
    let mut cases = 0;
    let mut hold = |input: &[u8], answer| {
        let number = compare.read(true, input);
        expect(compare, input, answer, number);
        cases += 1;
    };
    for at in 0..WRAPPER.len() {
        hold(&whole[..at], Answer::Refused(Refusal::wrapper_cut(at)));
        for byte in (0..=255).filter(|&byte| byte != WRAPPER[at]) {
            let answer = Answer::Refused(Refusal::wrapper_byte(at, byte));
            let mut input = whole.clone();
            input[at] = byte;
            hold(&input, answer);
            for later in &mut input[at + 1..] {
                *later = !*later;
            }
            hold(&input, answer);
            hold(&input[..at + 1], answer);
        }
    }
    // The wrapper is whole, and a bit of the data is missing.
    let missing = Refusal::cut(Element::AppIdentifier, 0);
    hold(&WRAPPER, Answer::Refused(missing));
    hold(&whole, Answer::Accepted);
    cases
}

// ----------------------------------------------------------------- reading

/// How many payloads of each kind a round makes. Kinds whose payloads fail in
/// the header need fewer.
fn payloads_of(kind: Kind) -> u64 {
    match kind {
        Kind::Valid => 60_000,
        Kind::Largest => 1_000,
        Kind::Cut => 30_000,
        Kind::Extended => 20_000,
        Kind::SeventeenthLevel2 | Kind::SeventeenthTargetAgain => 2_500,
        Kind::FirstZeroBit
        | Kind::AppIdentifier
        | Kind::AppIdentifierAndVersion
        | Kind::AppVersion
        | Kind::TooManyBlocks
        | Kind::TooManyBlocksAndZeroBit => 10_000,
        Kind::LooseFields | Kind::SeveralFaults => 50_000,
        Kind::RandomBytes => 50_000,
        _ => 12_000,
    }
}

/// Payloads by kind, every fourth also behind a wrapper. Gives the number of
/// inputs.
pub fn made_payloads(compare: &mut Compare, round: u64) -> u64 {
    let mut cases = 0;
    for (part, &kind) in KINDS.iter().enumerate() {
        compare.begin(format!("payloads of kind {:?}, round {}", kind, round));
        let mut rng = rng(0x100 + part as u64, round);
        for i in 0..payloads_of(kind) {
            let made = payload(kind, &mut rng);
            let number = compare.read(false, &made.bytes);
            cases += 1;
            expect(compare, &made.bytes, made.answer, number);
            if i % 8 == 0 {
                same_behind_wrapper(compare, &made.bytes, number);
                cases += 1;
            } else if i % 8 == 4 {
                let wrapper = rng.pick(&WRAPPER_KINDS);
                let (input, answer) = wrapped(wrapper, &made, &mut rng);
                let number = compare.read(true, &input);
                cases += 1;
                expect(compare, &input, answer, number);
            }
            if i % 256 == 0 {
                // The wrong lengths come before everything else.
                for (length, facts) in WRONG_READ_LENGTHS {
                    for is_wrapped in [false, true] {
                        let number = compare.read_lent(is_wrapped, &made.bytes, length, facts);
                        meant(compare, number, 13);
                        cases += 1;
                    }
                }
            }
        }
    }
    cases
}

/// Where the way in which an input was made leaves only one answer, both
/// implementations must have given it: the number, and of a refusal all that its facts
/// say, where and why.
pub fn expect(compare: &mut Compare, input: &[u8], answer: Answer, number: u32) {
    let as_meant = match answer {
        Answer::Accepted => number == 0,
        Answer::Refused(refusal) => {
            compare.count_known(Known::marked(refusal.is_in_wrapper()));
            number == refusal.number && compare.all_facts() == facts_of(&refusal)
        }
        Answer::Unknown => true,
    };
    if !as_meant {
        compare.fail(
            "both implementations answer otherwise than the made input was meant",
            &format!("input: {}", hex(input)),
            &format!(
                "meant: {:?}, both: {}, {}",
                answer,
                number,
                compare.facts_text()
            ),
        );
    }
}

/// The same for any call; the report names it by its part and its number.
pub fn meant(compare: &Compare, number: u32, expected: u32) {
    if number != expected {
        compare.fail(
            "both implementations answer otherwise than the call was meant",
            "",
            &format!("meant: {}, both: {}", expected, number),
        );
    }
}

/// Every cut of payloads of every kind, bare and wrapped. Gives the number of inputs.
pub fn cuts(compare: &mut Compare, round: u64) -> u64 {
    compare.begin(format!("cuts, round {}", round));
    let mut rng = rng(0x210, round);
    let mut cases = 0;
    for kind in KINDS {
        for _ in 0..12 {
            let made = payload(kind, &mut rng);
            for n in 0..made.bytes.len() {
                let data = &made.bytes[..n];
                let number = compare.read(false, data);
                expect(compare, data, made.answer_of_cut(n), number);
                same_behind_wrapper(compare, data, number);
                cases += 2;
            }
        }
    }
    cases
}

/// What an accepted payload gets when this bit of it is flipped, if it is a zero bit.
pub fn of_flip(payload: &Payload, bit: usize) -> Answer {
    match payload.zero_bit(bit) {
        Some(element) => Answer::Refused(Refusal::one(element, bit)),
        None => Answer::Unknown,
    }
}

/// Every single-bit flip of some valid payloads, bare and wrapped. One in the wrapper
/// makes its byte differ, and one of a zero bit makes that a one. Gives the number of
/// inputs.
pub fn bit_flips(compare: &mut Compare, round: u64) -> u64 {
    compare.begin(format!("bit flips, round {}", round));
    let mut rng = rng(0x200, round);
    let mut cases = 0;
    for i in 0..260 {
        let kind = if i == 0 { Kind::Largest } else { Kind::Valid };
        let made = payload(kind, &mut rng);
        let is_wrapped = i % 4 == 1;
        let mut input = made.bytes.clone();
        let mut data_begins = 0;
        if is_wrapped {
            input = wrapped(WrapperKind::Whole, &made, &mut rng).0;
            data_begins = 8 * WRAPPER.len();
        }
        for bit in 0..8 * input.len() {
            input[bit / 8] ^= 0x80 >> (bit % 8);
            let number = compare.read(is_wrapped, &input);
            let answer = if bit < data_begins {
                Answer::Refused(Refusal::wrapper_byte(bit / 8, input[bit / 8]))
            } else {
                of_flip(&made, bit - data_begins)
            };
            expect(compare, &input, answer, number);
            cases += 1;
            input[bit / 8] ^= 0x80 >> (bit % 8);
        }
    }
    cases
}

// ----------------------------------------------------------------- writing

/// Flat records by kind, into outputs of many lengths. Gives the number of
/// writes.
pub fn made_writes(compare: &mut Compare, round: u64) -> u64 {
    let mut cases = 0;
    for (part, &kind) in FLAT_KINDS.iter().enumerate() {
        compare.begin(format!("flat records of kind {:?}, round {}", kind, round));
        let mut rng = rng(0x300 + part as u64, round);
        let records = match kind {
            FlatKind::Valid => 30_000,
            FlatKind::AnyNumber => 40_000,
            _ => 4_000,
        };
        for i in 0..records {
            let record = flat_record(kind, &mut rng);
            let is_wrapped = rng.one_in(2);
            let needed = needed(&record, is_wrapped);
            let out_len = match rng.below(8) {
                0 => rng.below(240),
                1 => needed.saturating_sub(1),
                2 => needed + 1,
                3 => (needed + 5).saturating_sub(rng.below(16)),
                _ => needed,
            };
            let number = compare.write(is_wrapped, &record, out_len);
            cases += 1;
            let as_meant = match kind.certain() {
                Some(true) => number == if out_len < needed { 13 } else { 0 },
                Some(false) => number == 14,
                None => true,
            };
            if !as_meant {
                compare.fail(
                    "both implementations answer otherwise than the made record was meant",
                    &format!("record: {:?}\noutput of {} bytes", record, out_len),
                    &format!("both: {}", number),
                );
            }
            if i % 256 == 0 {
                for length in WRONG_RECORD_LENGTHS {
                    let mut other = [record, record].concat();
                    other.truncate(length);
                    let number = compare.write_lent(is_wrapped, &other, 240);
                    meant(compare, number, 13);
                    cases += 1;
                }
            }
            if i % 512 == 0 && kind == FlatKind::Valid {
                // Every length up to some bytes more than are needed.
                for out_len in 0..needed + 10 {
                    compare.write(is_wrapped, &record, out_len);
                    cases += 1;
                }
            }
        }
    }
    cases
}

/// The bytes that a valid record needs, by 01's widths; for others a length
/// that would do for many.
fn needed(record: &[i32; FLAT], is_wrapped: bool) -> usize {
    let mut bits = 5;
    if record[0] == 1 {
        bits += match record[1] {
            0 => 1,
            1..=2 => 3,
            3..=6 => 5,
            7..=14 => 7,
            _ => 9,
        };
    }
    bits = (bits + 7) / 8 * 8;
    for block in record[2..].chunks(FLAT_BLOCK) {
        bits += match block[0] {
            1 => 53,
            2 => 103,
            5 => 71,
            _ => 0,
        };
    }
    (bits + 7) / 8 + if is_wrapped { WRAPPER.len() } else { 0 }
}

// ------------------------------------------------------------------ shader

/// All codes of all seven fields, then blocks in and out of range. Gives the
/// number of blocks.
pub fn shader_numbers(compare: &mut Compare, round: u64) -> u64 {
    compare.begin(format!("shader numbers, round {}", round));
    let mut rng = rng(0x400, round);
    let mut cases = 0;
    for field in 1..8 {
        let (low, high) = if field == 7 { (-4096, 4095) } else { (0, 4095) };
        for code in low..=high {
            let mut block = [2, 0, 0, 0, 0, 0, 0, 0];
            for (i, number) in block[1..7].iter_mut().enumerate() {
                *number = (code + 977 * i as i32) & 4095;
            }
            block[7] = ((code * 3) & 8191) - 4096;
            block[field] = code;
            let (number, bits) = compare.shader(&block, 7);
            cases += 1;
            // 01 once more, now as numbers: the number times 4,096 is the
            // code, and code 0 is plus zero.
            let one = bits[field - 1];
            let is_the_code = f32::from_bits(one) * 4096.0 == code as f32;
            if number != 0 || !is_the_code || (code == 0 && one != 0) {
                compare.fail(
                    "both implementations convert otherwise than 01",
                    &format!("block: {:?}", block),
                    &format!("both: {}, bits {:08X?}", number, bits),
                );
            }
        }
    }
    for _ in 0..20_000 {
        // A place of a made flat record: level 2 or another, in range or not.
        let kind = match rng.below(4) {
            0 => FlatKind::Valid,
            1 => rng.pick(&[FlatKind::FieldAbove, FlatKind::FieldNoU16]),
            2 => rng.pick(&[FlatKind::MsWeightOutside, FlatKind::MsWeightNoI16]),
            _ => rng.pick(&FLAT_KINDS),
        };
        let record = flat_record(kind, &mut rng);
        for block in record[2..].chunks(FLAT_BLOCK).take(5) {
            compare.shader(block, 7);
            cases += 1;
        }
        if rng.one_in(64) {
            for length in [0, 1, 7, 9, 16] {
                let number = compare.shader(&record[2..2 + length], 7).0;
                meant(compare, number, 13);
                cases += 1;
            }
            for length in [0, 1, 6, 8] {
                let number = compare.shader(&record[2..2 + FLAT_BLOCK], length).0;
                meant(compare, number, 13);
                cases += 1;
            }
        }
    }
    cases
}

// ------------------------------------------------------------------ tracks

/// Placings of flat records of every kind. Gives the number of placings.
pub fn placings(compare: &mut Compare, round: u64) -> u64 {
    let mut cases = 0;
    for (part, &kind) in FLAT_KINDS.iter().enumerate() {
        compare.begin(format!("placings of kind {:?}, round {}", kind, round));
        let mut rng = rng(0x500 + part as u64, round);
        let records = match kind {
            FlatKind::Valid => 3_000,
            FlatKind::AnyNumber => 2_000,
            _ => 200,
        };
        for i in 0..records {
            let record = flat_record(kind, &mut rng);
            let picture = match rng.below(4) {
                0 => i32::MIN,
                1 => i32::MAX,
                2 => rng.from(-2, 2),
                _ => rng.next() as i32,
            };
            let segment = segment(&mut rng);
            let number = compare.place(&record, picture, segment).0;
            cases += 1;
            match kind.certain() {
                Some(true) => meant(compare, number, 0),
                Some(false) => meant(compare, number, 14),
                None => {}
            }
            if i % 16 == 0 {
                // The wrong lengths come before everything else.
                for table_len in WRONG_TABLE_LENGTHS {
                    let number = compare.place_lent(&record, picture, segment, table_len).0;
                    meant(compare, number, 13);
                    cases += 1;
                }
                for length in WRONG_RECORD_LENGTHS {
                    let mut other = [record, record].concat();
                    other.truncate(length);
                    let table_len = rng.pick(&[63, 64, 64, 65]) * FLAT_POINT;
                    let number = compare.place_lent(&other, picture, segment, table_len).0;
                    meant(compare, number, 13);
                    cases += 1;
                }
            }
        }
    }
    cases
}

/// A point that is still to be placed.
#[derive(Clone, Copy)]
pub struct Loose {
    pub picture: i32,
    pub segment: u16,
    pub record: [i32; FLAT],
}

impl Loose {
    pub fn made(rng: &mut Rng, picture: i32) -> Loose {
        Loose {
            picture,
            segment: segment(rng),
            record: flat(&point_record(rng)),
        }
    }

    /// Another point at the same picture.
    pub fn other(&self, rng: &mut Rng, records: bool, segments: bool) -> Loose {
        let mut other = *self;
        while records && other.record == self.record {
            other.record = flat(&point_record(rng));
        }
        if segments {
            other.segment = other_segment(rng, self.segment);
        }
        other
    }
}

/// The track of the points of all these lists, the last one's where several hold the
/// number, written by hand; or none if there are more than 64 numbers.
pub fn in_one(lists: &[&[Loose]]) -> Option<Track> {
    let mut points: BTreeMap<i32, &Loose> = BTreeMap::new();
    for point in lists.iter().copied().flatten() {
        points.insert(point.picture, point);
    }
    if points.len() > POINTS {
        return None;
    }
    let mut track = Track::empty();
    track.count = points.len();
    for (at, (&picture, point)) in points.iter().enumerate() {
        let segment = point.segment as i32;
        track.table.set(at, picture, segment, &point.record);
    }
    Some(track)
}

/// In what the points of two lists differ at the numbers that both hold.
fn differ(a: &[Loose], b: &[Loose]) -> Differ {
    let mut records = false;
    let mut segments = false;
    for point in a {
        for other in b.iter().filter(|other| other.picture == point.picture) {
            records |= other.record != point.record;
            segments |= other.segment != point.segment;
        }
    }
    Differ::of(records, segments)
}

/// Joins the tracks of two lists both ways, and gives the join if it fits: both answers
/// are those of the lists, and alike or not as their points are.
pub fn swapping(
    compare: &mut Compare,
    (a, b): (&Track, &Track),
    (a_loose, b_loose): (&[Loose], &[Loose]),
) -> Option<Track> {
    let (number, joined) = compare.join(a, b);
    let (swapped_number, swapped) = compare.join(b, a);
    let differ = differ(a_loose, b_loose);
    let in_order = in_one(&[a_loose, b_loose]);
    let meant = if in_order.is_some() { 0 } else { 15 };
    let mut as_meant = number == meant
        && swapped_number == meant
        && joined == in_order
        && swapped == in_one(&[b_loose, a_loose]);
    if joined.is_some() {
        // "If a join fits, swapping its two tracks gives the same track exactly
        // when both hold equal records at every number that they share", which reads
        // number, record and segment since 02's request g.
        as_meant &= (joined == swapped) == (differ == Differ::Nothing);
        compare.count_swapped(differ);
    }
    if !as_meant {
        compare.fail(
            "both implementations join otherwise than the tracks were meant",
            &format!("{} points and {}", a.count, b.count),
            &format!("both: {}, swapped {}", number, swapped_number),
        );
    }
    joined
}

/// A track of these points, made by joining placed points, two and two.
pub fn build(compare: &mut Compare, rng: &mut Rng, loose: &[Loose]) -> Track {
    let mut order = loose.to_vec();
    if rng.one_in(2) {
        rng.shuffle(&mut order);
    }
    let mut tracks: Vec<Track> = Vec::new();
    for point in &order {
        let placed = compare.place(&point.record, point.picture, point.segment);
        tracks.push(placed.1.unwrap());
    }
    if tracks.is_empty() {
        let segment = segment(rng);
        return compare.place(&flat(&EMPTY), 0, segment).1.unwrap();
    }
    while tracks.len() > 1 {
        let mut joined = Vec::new();
        for pair in tracks.chunks(2) {
            joined.push(match pair {
                [a, b] => compare.join(a, b).1.unwrap(),
                _ => pair[0].clone(),
            });
        }
        tracks = joined;
    }
    tracks.pop().unwrap()
}

/// Lookups around a point, at the ends of i32, and anywhere.
pub fn look_around(compare: &mut Compare, rng: &mut Rng, track: &Track, times: usize) {
    for _ in 0..times {
        let near = if track.count > 0 && !rng.one_in(4) {
            let number = track.table.picture(rng.below(track.count));
            number.saturating_add(rng.from(-1, 1))
        } else {
            rng.next() as i32
        };
        let picture = match rng.below(8) {
            0 => i32::MIN,
            1 => i32::MAX,
            _ => near,
        };
        compare.lookup(&track.table, track.count, picture);
    }
}

/// Two tracks of a round: how many different numbers they hold together, and
/// how many both hold.
fn shape(rng: &mut Rng) -> (usize, usize, usize) {
    let total = match rng.below(10) {
        0..=3 => rng.from(60, 68) as usize,
        4 => 64,
        5 => 65,
        6..=7 => rng.below(24),
        _ => rng.below(129),
    };
    let a_least = total.saturating_sub(POINTS);
    let a_count = a_least + rng.below(total.min(POINTS) - a_least + 1);
    let only_b = total - a_count;
    let shared = rng.below(a_count.min(POINTS - only_b) + 1);
    (a_count, only_b, shared)
}

/// Joins and lookups until there are `at_least` of them. Gives the number of
/// pairs of tracks.
pub fn tracks(compare: &mut Compare, round: u64, at_least: u64) -> u64 {
    let mut rng = rng(0x600, round);
    let until = compare.joins_and_lookups() + at_least;
    let mut pairs = 0;
    while compare.joins_and_lookups() < until {
        compare.begin(format!("pair {} of tracks, round {}", pairs, round));
        pair_of_tracks(compare, &mut rng, pairs == 0);
        pairs += 1;
    }
    pairs
}

fn pair_of_tracks(compare: &mut Compare, rng: &mut Rng, forty: bool) {
    // "Two tracks of 40 that share 16 numbers fit." That pair comes first.
    let (a_count, only_b, shared) = if forty { (40, 24, 16) } else { shape(rng) };
    let numbers = pictures(rng, a_count + only_b);
    let mut places: Vec<usize> = (0..numbers.len()).collect();
    rng.shuffle(&mut places);
    let mut a_loose: Vec<Loose> = Vec::new();
    let mut b_loose: Vec<Loose> = Vec::new();
    let equal_records = rng.one_in(3);
    let equal_segments = rng.one_in(3);
    for (i, &place) in places.iter().enumerate() {
        let point = Loose::made(rng, numbers[place]);
        if i < a_count {
            a_loose.push(point);
        }
        if i >= a_count {
            b_loose.push(point);
        } else if i < shared {
            let other_record = !equal_records && rng.one_in(2);
            let other_segment = !equal_segments && rng.one_in(2);
            b_loose.push(point.other(rng, other_record, other_segment));
        }
    }
    a_loose.sort_unstable_by_key(|point| point.picture);
    b_loose.sort_unstable_by_key(|point| point.picture);
    let a = build(compare, rng, &a_loose);
    let b = build(compare, rng, &b_loose);
    let empty = Track::empty();

    let joined = swapping(compare, (&a, &b), (&a_loose, &b_loose));
    compare.join(&a, &a);
    compare.join(&a, &empty);
    compare.join(&empty, &b);

    look_around(compare, rng, &a, 12);
    look_around(compare, rng, &b, 4);
    look_around(compare, rng, &empty, 1);
    if let Some(joined) = &joined {
        look_around(compare, rng, joined, 24);
    }

    wrong_lengths(compare, rng, &a, &b);
    points_past_the_count(compare, rng, &a, &b);
    for _ in 0..4 {
        damaged(compare, rng, &a, &b);
    }
}

/// Arguments and tables of a wrong length, and counts above 64.
fn wrong_lengths(compare: &mut Compare, rng: &mut Rng, a: &Track, b: &Track) {
    let picture = rng.next() as i32;
    // The first point has no segment, which comes after the length.
    let mut worse = a.table.clone();
    worse.set_segment(0, no_segment(rng, 0));
    let point_len = rng.pick(&WRONG_POINT_LENGTHS);
    for (table, count) in [(&a.table, a.count), (&a.table, 65), (&worse, a.count)] {
        let number = compare.lookup_lent(table, count, picture, point_len);
        meant(compare, number, 13);
    }
    for table_len in WRONG_TABLE_LENGTHS {
        let number = compare
            .join_lent(&a.table, a.count, &b.table, b.count, table_len)
            .0;
        meant(compare, number, 13);
    }
    for _ in 0..3 {
        let table_len = if rng.one_in(8) {
            rng.pick(&[1, 32 * FLAT_POINT, 2 * FLAT_TABLE])
        } else {
            rng.pick(&WRONG_TABLE_LENGTHS)
        };
        let a_wrong = a.table.resized(table_len);
        let b_wrong = b.table.resized(table_len);
        let result_len = rng.pick(&[FLAT_TABLE, FLAT_TABLE, 63 * FLAT_POINT]);
        // The points that are there would be a track, or the count is above
        // 64; neither comes before the length.
        let entries = table_len / FLAT_POINT;
        let a_count = rng.pick(&[a.count.min(entries), a.count.min(entries), 65]);
        let b_count = rng.pick(&[b.count.min(entries), b.count.min(entries), 65]);
        let mut answers = vec![
            compare.lookup(&a_wrong, a_count, picture),
            compare.lookup_lent(&a_wrong, a_count, picture, point_len),
        ];
        for (first, first_count, second, second_count) in [
            (&a_wrong, a_count, &b.table, b.count),
            (&a.table, a.count, &b_wrong, b_count),
            (&a_wrong, a_count, &b_wrong, b_count),
            // The other track is none, and the length is still the first.
            (&a_wrong, a_count, &b.table, 65),
            (&a.table, 65, &b_wrong, b_count),
        ] {
            let answer = compare.join_lent(first, first_count, second, second_count, result_len);
            answers.push(answer.0);
        }
        for number in answers {
            meant(compare, number, 13);
        }
    }
    // A count above 64, over tables whose 64 points would be a track.
    let count = rng.pick(&[65, 66, 127, 128, 255, 256, 1 << 31, 1 << 32, usize::MAX]);
    for count in [65, usize::MAX, count, (1 << 32) + a.count] {
        let number = compare.lookup(&a.table, count, picture);
        meant(compare, number, 16);
        for (a_count, b_count) in [(count, b.count), (a.count, count)] {
            let number = compare
                .join_lent(&a.table, a_count, &b.table, b_count, FLAT_TABLE)
                .0;
            meant(compare, number, 16);
        }
    }
    // A count above 64 in a table that has as many entries.
    let longer = a.table.resized(65 * FLAT_POINT);
    let number = compare.lookup(&longer, 65, picture);
    meant(compare, number, 13);
}

/// The entries past the count are ignored, whatever they hold.
fn points_past_the_count(compare: &mut Compare, rng: &mut Rng, a: &Track, b: &Track) {
    let mut a_more = a.clone();
    let mut b_more = b.clone();
    for at in a.count..POINTS {
        if b.count > 0 {
            a_more.table.copy(at, &b.table, rng.below(b.count));
        }
    }
    for at in b.count..POINTS {
        if a.count > 0 {
            b_more.table.copy(at, &a.table, rng.below(a.count));
        }
    }
    compare.join(&a_more, &b_more);
    compare.join(&a_more, b);
    compare.join(a, &b_more);
    look_around(compare, rng, &a_more, 4);
    // The same tables with a smaller count: what was a point is past it now.
    a_more.count = rng.below(a.count + 1);
    compare.join(&a_more, &b_more);
    look_around(compare, rng, &a_more, 2);
    // With a larger count points follow that do not rise or are cleared.
    a_more.count = a.count + rng.below(POINTS - a.count + 1);
    compare.join(&a_more, &b_more);
    look_around(compare, rng, &a_more, 2);
}

/// Points out of order, twice the same number, a cleared entry or one without a segment
/// inside the count: not a track any more (unless the damage changes nothing).
fn damaged(compare: &mut Compare, rng: &mut Rng, a: &Track, b: &Track) {
    if a.count == 0 {
        return;
    }
    let mut worse = a.clone();
    let at = match rng.below(4) {
        0 => 0,
        1 => a.count - 1,
        _ => rng.below(a.count),
    };
    let zero_rises = (0..a.count)
        .position(|i| a.table.picture(i) >= 0)
        .unwrap_or(a.count - 1);
    match rng.below(6) {
        0 => {
            let other = rng.below(a.count);
            worse.table.swap(at, other);
        }
        1 => {
            let neighbour = if at > 0 { at - 1 } else { a.count - 1 };
            worse.table.copy_within(at, neighbour);
        }
        2 if b.count > 0 => worse.table.copy(at, &b.table, rng.below(b.count)),
        // Where picture 0 keeps the numbers rising, only the record is wrong.
        3 => worse.table.clear(zero_rises),
        4 => worse.table.set_segment(at, no_segment(rng, 0)),
        _ => worse.table.clear(at),
    }
    look_around(compare, rng, &worse, 2);
    compare.join(&worse, b);
    compare.join(b, &worse);
    // The length of the result table comes before the damage.
    let number = compare
        .join_lent(
            &worse.table,
            worse.count,
            &b.table,
            b.count,
            63 * FLAT_POINT,
        )
        .0;
    meant(compare, number, 13);
    // Before the damage it is a track still, if the count ends there.
    worse.count = at;
    look_around(compare, rng, &worse, 1);
    worse.count = at + 1;
    look_around(compare, rng, &worse, 1);
}

/// All entries of a table filled, none left over: a track of 64 points, joined
/// with one more, one equal and one different number.
pub fn full_tracks(compare: &mut Compare, round: u64) {
    compare.begin(format!("tracks of 64 points, round {}", round));
    let mut rng = rng(0x700, round);
    for first in [-300, -640, 10, i32::MIN] {
        let mut numbers: Vec<i32> = (0..POINTS as i32).map(|i| first + 10 * i).collect();
        if first == i32::MIN {
            numbers[POINTS - 1] = i32::MAX;
        }
        let loose: Vec<Loose> = numbers
            .iter()
            .map(|&number| Loose::made(&mut rng, number))
            .collect();
        let full = build(compare, &mut rng, &loose);
        let last = numbers[POINTS - 1];
        for extra in [
            i32::MIN,
            first,
            first + 1,
            -5,
            0,
            5,
            last - 1,
            last,
            i32::MAX,
        ] {
            let record = flat(&point_record(&mut rng));
            let segment = segment(&mut rng);
            let one = compare.place(&record, extra, segment).1.unwrap();
            compare.join(&full, &one);
            compare.join(&one, &full);
            compare.lookup(&full.table, full.count, extra);
        }
        compare.join(&full, &full);
        for number in &numbers {
            for picture in [number.saturating_sub(1), *number, number.saturating_add(1)] {
                compare.lookup(&full.table, full.count, picture);
            }
        }
        // Picture 0 of a cleared entry keeps the numbers rising at the end of
        // the second track and at the beginning of the third.
        for at in [0, POINTS - 1] {
            let mut cleared: Table = full.table.clone();
            cleared.clear(at);
            for count in [at, at + 1, POINTS] {
                compare.lookup(&cleared, count, i32::MAX);
                compare.join_lent(&cleared, count, &full.table, 0, FLAT_TABLE);
                compare.join_lent(&full.table, 0, &cleared, count, FLAT_TABLE);
            }
        }
    }
}

/// A track of these numbers, its points written by hand.
fn by_hand(rng: &mut Rng, numbers: &[i32]) -> Track {
    let mut track = Track::empty();
    for (at, &number) in numbers.iter().enumerate() {
        let record = flat(&point_record(rng));
        track.table.set(at, number, segment(rng) as i32, &record);
    }
    track.count = numbers.len();
    track
}

/// Tables that hold flat records of every kind, inside the count and past it.
/// A flat record that names no record, is not valid or has the flag 0 makes the
/// table no track if it stands inside the count; past the count it is ignored,
/// and a join copies nothing of it. Gives the number of tables.
pub fn flat_points(compare: &mut Compare, round: u64) -> u64 {
    let mut tables = 0;
    for (part, &kind) in FLAT_KINDS.iter().enumerate() {
        compare.begin(format!("points of kind {:?}, round {}", kind, round));
        let mut rng = rng(0x800 + part as u64, round);
        for i in 0..32 {
            let a_count = match i % 4 {
                0 => 1,
                1 => POINTS,
                _ => rng.from(1, 40) as usize,
            };
            let b_count = rng.below(POINTS + 1 - a_count.min(40));
            let (a, b) = two_by_hand(&mut rng, a_count, b_count);
            let at = match i / 4 % 4 {
                0 => 0,
                1 => a_count - 1,
                _ => rng.below(a_count),
            };
            let record = if i == 0 {
                flat(&EMPTY)
            } else {
                flat_record(kind, &mut rng)
            };
            let mut worse = a.clone();
            worse.table.set_record(at, &record);
            // A record with the flag 0 stands at no point, valid or not.
            let is_track = if record[0] == 0 {
                Some(false)
            } else {
                kind.certain()
            };
            inside_the_count(compare, &mut rng, (&a, &b), at, &worse, is_track);
            past_the_count(compare, &mut rng, &a, &b, kind);
            tables += 1;
        }
    }
    tables
}

/// Two tracks without a number that both hold, written by hand.
pub fn two_by_hand(rng: &mut Rng, a_count: usize, b_count: usize) -> (Track, Track) {
    let numbers = pictures(rng, a_count + b_count);
    let mut places: Vec<usize> = (0..numbers.len()).collect();
    rng.shuffle(&mut places);
    places[..a_count].sort_unstable();
    places[a_count..].sort_unstable();
    let numbers: Vec<i32> = places.iter().map(|&place| numbers[place]).collect();
    let a = by_hand(rng, &numbers[..a_count]);
    let b = by_hand(rng, &numbers[a_count..]);
    (a, b)
}

/// The first track with another record or segment at a point. Whether it is a track
/// still may be known. Gives the numbers of lookups and joins that are refused if not.
pub fn inside_the_count(
    compare: &mut Compare,
    rng: &mut Rng,
    (a, b): (&Track, &Track),
    at: usize,
    worse: &Track,
    is_track: Option<bool>,
) -> (u64, u64) {
    let number = a.table.picture(at);
    let mut answers = Vec::new();
    for picture in [i32::MIN, number.saturating_sub(1), number, i32::MAX] {
        answers.push(compare.lookup(&worse.table, worse.count, picture));
    }
    let lookups = answers.len() as u64;
    let empty = Track::empty();
    for other in [b, a, worse, &empty] {
        answers.push(compare.join(worse, other).0);
        answers.push(compare.join(other, worse).0);
    }
    let joins = answers.len() as u64 - lookups;
    if is_track == Some(false) {
        for number in answers {
            meant(compare, number, 16);
        }
    } else if is_track == Some(true) && answers.contains(&16) {
        meant(compare, 16, 0);
    }
    // Where the count ends before it, it is ignored.
    let mut shorter = a.clone();
    let mut worse = worse.clone();
    shorter.count = at;
    worse.count = at;
    same_answers(compare, rng, (&shorter, b), (&worse, b));
    (lookups, joins)
}

/// Records of the kind, and numbers at random, stand past the counts.
fn past_the_count(compare: &mut Compare, rng: &mut Rng, a: &Track, b: &Track, kind: FlatKind) {
    let mut more = [a.clone(), b.clone()];
    for track in more.iter_mut() {
        let any_number = rng.one_in(4);
        for at in track.count..POINTS {
            let mut record = flat_record(kind, rng);
            if any_number {
                for number in record.iter_mut() {
                    *number = rng.next() as i32;
                }
            }
            // The next number in order, one that is there, or any.
            let picture = match rng.below(3) {
                0 if at > 0 => track.table.picture(at - 1).saturating_add(1),
                1 => a.table.picture(rng.below(a.count)),
                _ => rng.next() as i32,
            };
            let segment = match rng.below(4) {
                0 => segment(rng) as i32,
                1 => no_segment(rng, 0),
                _ => rng.next() as i32,
            };
            track.table.set(at, picture, segment, &record);
        }
    }
    same_answers(compare, rng, (a, b), (&more[0], &more[1]));
}

/// The same tracks, the second pair with other entries past the counts: both
/// pairs must give the same answers, tables and points.
pub fn same_answers(
    compare: &mut Compare,
    rng: &mut Rng,
    (a, b): (&Track, &Track),
    (a_more, b_more): (&Track, &Track),
) {
    let mut same = true;
    for (plain, more) in [((a, b), (a_more, b_more)), ((b, a), (b_more, a_more))] {
        let first = compare.join(plain.0, plain.1);
        let second = compare.join(more.0, more.1);
        same &= first.0 == second.0 && first.0 != 16;
        if let (Some(first), Some(second)) = (first.1, second.1) {
            same &= first == second;
        }
    }
    let mut asked = vec![i32::MIN, i32::MAX, rng.next() as i32];
    if a.count > 0 {
        asked.push(a.table.picture(rng.below(a.count)));
        asked.push(a.table.picture(a.count - 1));
    }
    if a_more.count < POINTS {
        asked.push(a_more.table.picture(a_more.count));
    }
    for picture in asked {
        let first = compare.lookup(&a.table, a.count, picture);
        let found = compare.single();
        let point = compare.in_force().to_vec();
        let second = compare.lookup(&a_more.table, a_more.count, picture);
        same &= first == 0 && second == 0 && found == compare.single();
        // Zeros where nothing is in force.
        same &= point == compare.in_force();
    }
    if !same {
        compare.fail(
            "both implementations look at what stands past the count",
            "",
            "",
        );
    }
}
