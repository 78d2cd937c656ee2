//! Calls both implementations, and for a reading the reader for speed too, with
//! the same arguments and compares everything: the result number, every element
//! of every lent array, the elements around it, and the arguments that are only
//! read; and of every refused payload the text that says why. The first difference
//! ends the program.
//!
//! Every array that is lent to be written is filled with a pattern first, and
//! lies between elements that are not lent; so does every single number. Both
//! implementations get the same pattern, so an element that one of them leaves
//! alone must be left alone by the other.

use crate::made::{point_record, Rng};
use crate::own::{self, facts_of, BITS, ELEMENT, HIGHEST, IN_WRAPPER, KIND, LOWEST};
use crate::own::{NO_VALUE, OFFSET, OTHER, RANGE, READING, SKIPPED, VALUE, VALUE_HIGH};
use crate::proved;
use crate::reader::{Refusal, WRAPPER};
use crate::record::{flat, FLAT, WRAPPED_BYTES};
use crate::track::{point_from_flat, FLAT_POINT, FLAT_TABLE, PICTURE, RECORD, SEGMENT};
use crate::why::{Element, ELEMENTS, MOST};
use crate::writer;

/// The functions of the interface.
#[derive(Clone, Copy, PartialEq, Eq)]
pub enum Function {
    ReadBare,
    ReadWrapped,
    ReadUnit,
    WhyWrapped,
    WriteBare,
    WriteWrapped,
    WriteUnit,
    Shader,
    Place,
    Lookup,
    Join,
}

/// The functions with their names and the answers that can occur: 0, the
/// refusals that 01 and 02 give them, and 13 for an argument of a wrong length.
/// A unit's message begins with the eight wrapper bytes, so it never gets 3. 8 was
/// for reserved levels, which are passed over since 02's request b.
pub const FUNCTIONS: [(Function, &str, &[u32]); 11] = [
    (
        Function::ReadBare,
        "read_bare",
        &[0, 1, 2, 4, 5, 6, 7, 9, 10, 11, 12, 13, 17, 18, 19],
    ),
    (
        Function::ReadWrapped,
        "read_wrapped",
        &[0, 1, 2, 3, 4, 5, 6, 7, 9, 10, 11, 12, 13, 17, 18, 19],
    ),
    (
        Function::ReadUnit,
        "read_unit",
        &[
            0, 1, 2, 4, 5, 6, 7, 9, 10, 11, 12, 13, 17, 18, 19, 30, 31, 32, 33,
        ],
    ),
    (Function::WhyWrapped, "why_wrapped", &[0, 13]),
    (Function::WriteBare, "write_bare", &[0, 13, 14]),
    (Function::WriteWrapped, "write_wrapped", &[0, 13, 14]),
    (Function::WriteUnit, "write_unit", &[0, 13, 14]),
    (Function::Shader, "shader", &[0, 13, 14]),
    (Function::Place, "place", &[0, 13, 14]),
    (Function::Lookup, "lookup", &[0, 13, 16]),
    (Function::Join, "join", &[0, 13, 15, 16]),
];

/// Where a refusal is of which that was known beforehand. In a unit it is known from
/// the reading of the message.
#[derive(Clone, Copy)]
pub enum Known {
    InData,
    InWrapper,
    InUnit,
}

impl Known {
    /// Of a payload, by its mark.
    pub fn marked(in_wrapper: bool) -> Known {
        if in_wrapper {
            Known::InWrapper
        } else {
            Known::InData
        }
    }
}

/// One more than the highest number that a function gives.
const NUMBERS: usize = 34;

/// The elements that each refusal of wrapped data can name. Every code and every field of
/// A/341 can be cut off, and so can a bit inside a block. metadata_refresh_flag and
/// dm_alignment_zero_bit cannot: the flag stands in the first byte, behind four bits that
/// are there, and zero bits to a byte boundary stand in a byte of which a bit was read.
const NAMED: [(u32, &[Element]); 14] = [
    (
        1,
        &[
            Element::AppIdentifier,
            Element::AppVersion,
            Element::NumExtBlocks,
            Element::ExtBlockLength,
            Element::ExtBlockLevel,
            Element::MinPq,
            Element::MaxPq,
            Element::AvgPq,
            Element::TargetMaxPq,
            Element::TrimSlope,
            Element::TrimOffset,
            Element::TrimPower,
            Element::TrimChromaWeight,
            Element::TrimSaturationGain,
            Element::MsWeight,
            Element::ActiveAreaLeftOffset,
            Element::ActiveAreaRightOffset,
            Element::ActiveAreaTopOffset,
            Element::ActiveAreaBottomOffset,
            Element::ExtDmAlignmentZeroBit,
            Element::Wrapper,
        ],
    ),
    (
        2,
        &[
            Element::AppIdentifier,
            Element::AppVersion,
            Element::NumExtBlocks,
            Element::ExtBlockLength,
        ],
    ),
    (3, &[Element::Wrapper]),
    (4, &[Element::AppIdentifier]),
    (5, &[Element::AppVersion]),
    (6, &[Element::NumExtBlocks]),
    (
        7,
        &[Element::DmAlignmentZeroBit, Element::ExtDmAlignmentZeroBit],
    ),
    (9, &[Element::ExtBlockLength]),
    (10, &[Element::AvgPq]),
    (11, &[Element::TargetMaxPq]),
    (12, &[Element::End]),
    (17, &[Element::ExtBlockLevel]),
    (18, &[Element::ExtBlockLevel]),
    (19, &[Element::ExtBlockLevel]),
];

type IsForm = fn(number: u32, facts: &[u32; READING]) -> bool;

/// A bit to the byte boundary that is a one, at one of these offsets.
fn one_at(number: u32, facts: &[u32; READING], offsets: std::ops::Range<u32>) -> bool {
    number == 7
        && facts[ELEMENT] == Element::DmAlignmentZeroBit as u32
        && offsets.contains(&facts[OFFSET])
}

/// A value of ten digits.
fn ten_digits(facts: &[u32; READING]) -> bool {
    facts[VALUE] >= 1_000_000_000
}

/// Forms that the text of one number and one element can have. Without blocks the bits
/// to the boundary are some of 5 to 7. Before the first block they are 10 to 15 or later
/// ones, and behind the blocks 17 or later ones.
const FORMS: [(&str, IsForm); 17] = [
    ("7 without blocks", |n, f| one_at(n, f, 0..8)),
    ("7 before the blocks", |n, f| one_at(n, f, 10..16)),
    ("7 behind the blocks", |n, f| one_at(n, f, 24..u32::MAX)),
    ("9 of level 1", |n, f| n == 9 && f[LOWEST] == 5),
    ("9 of level 2", |n, f| n == 9 && f[LOWEST] == 11),
    ("9 of level 5", |n, f| n == 9 && f[LOWEST] == 7),
    ("9 of a reserved level", |n, f| n == 9 && f[LOWEST] == 0),
    ("10 with min above max", |n, f| {
        n == 10 && f[LOWEST] > f[HIGHEST]
    }),
    ("10 with min and max equal", |n, f| {
        n == 10 && f[LOWEST] == f[HIGHEST]
    }),
    ("10 with avg below min", |n, f| {
        n == 10 && f[LOWEST] < f[HIGHEST] && f[VALUE] < f[LOWEST]
    }),
    ("10 with avg above max", |n, f| {
        n == 10 && f[LOWEST] < f[HIGHEST] && f[VALUE] > f[HIGHEST]
    }),
    ("12 with one byte", |n, f| n == 12 && f[VALUE] == 1),
    ("12 with more", |n, f| n == 12 && f[VALUE] > 1),
    ("4 of ten digits", |n, f| n == 4 && ten_digits(f)),
    ("5 of ten digits", |n, f| n == 5 && ten_digits(f)),
    ("6 of ten digits", |n, f| n == 6 && ten_digits(f)),
    ("9 of ten digits", |n, f| n == 9 && ten_digits(f)),
];

/// In which of two points that stand at one number they differ.
#[derive(Clone, Copy, PartialEq, Eq)]
pub enum Differ {
    Nothing,
    Segments,
    Records,
    Both,
}

impl Differ {
    pub fn of(records: bool, segments: bool) -> Differ {
        match (records, segments) {
            (false, false) => Differ::Nothing,
            (false, true) => Differ::Segments,
            (true, false) => Differ::Records,
            (true, true) => Differ::Both,
        }
    }
}

/// A table as it crosses the interface: for each point its picture, its segment,
/// then its flat record. It can have any number of numbers; only 64 points are right.
#[derive(Clone, PartialEq, Eq)]
pub struct Table {
    pub numbers: Vec<i32>,
}

fn point_at(i: usize) -> std::ops::Range<usize> {
    FLAT_POINT * i..FLAT_POINT * (i + 1)
}

impl Table {
    /// 64 points of picture 0 and segment 0 with the empty record.
    pub fn cleared() -> Table {
        Table {
            numbers: vec![0; FLAT_TABLE],
        }
    }

    pub fn picture(&self, at: usize) -> i32 {
        self.numbers[FLAT_POINT * at + PICTURE]
    }

    pub fn segment(&self, at: usize) -> i32 {
        self.numbers[FLAT_POINT * at + SEGMENT]
    }

    /// All numbers of a point.
    pub fn row(&self, at: usize) -> &[i32] {
        &self.numbers[point_at(at)]
    }

    /// The segment is any number, for a table can hold one that is no segment's.
    pub fn set(&mut self, at: usize, picture: i32, segment: i32, record: &[i32; FLAT]) {
        self.set_picture(at, picture);
        self.set_segment(at, segment);
        self.set_record(at, record);
    }

    /// The same point at another picture.
    pub fn set_picture(&mut self, at: usize, picture: i32) {
        self.numbers[FLAT_POINT * at + PICTURE] = picture;
    }

    /// Another segment at the same picture.
    pub fn set_segment(&mut self, at: usize, segment: i32) {
        self.numbers[FLAT_POINT * at + SEGMENT] = segment;
    }

    /// Another record at the same picture.
    pub fn set_record(&mut self, at: usize, record: &[i32; FLAT]) {
        self.numbers[point_at(at)][RECORD..].copy_from_slice(record);
    }

    pub fn copy(&mut self, to: usize, other: &Table, from: usize) {
        self.numbers[point_at(to)].copy_from_slice(&other.numbers[point_at(from)]);
    }

    pub fn copy_within(&mut self, to: usize, from: usize) {
        self.numbers.copy_within(point_at(from), FLAT_POINT * to);
    }

    pub fn swap(&mut self, i: usize, j: usize) {
        for k in 0..FLAT_POINT {
            self.numbers.swap(FLAT_POINT * i + k, FLAT_POINT * j + k);
        }
    }

    pub fn clear(&mut self, at: usize) {
        self.numbers[point_at(at)].fill(0);
    }

    /// The first n numbers, or all of them and copies of the last point.
    pub fn resized(&self, n: usize) -> Table {
        let mut numbers = self.numbers.clone();
        while numbers.len() < n {
            numbers.extend_from_within(numbers.len() - FLAT_POINT..);
        }
        numbers.truncate(n);
        Table { numbers }
    }
}

#[derive(Clone, PartialEq, Eq)]
pub struct Track {
    pub table: Table,
    pub count: usize,
}

impl Track {
    pub fn empty() -> Track {
        Track {
            table: Table::cleared(),
            count: 0,
        }
    }
}

/// Elements around a lent array that are not lent.
const AROUND: usize = 4;
/// Room for the longest flat record that is lent.
const RECORD_ROOM: usize = 2 * FLAT + 2 * AROUND;
/// Room for the longest flat point that is lent.
const POINT_ROOM: usize = 2 * FLAT_POINT + 2 * AROUND;
/// Room for the most facts of a reading that are lent.
const READING_ROOM: usize = 2 * READING + 2 * AROUND;
/// Room for the longest output that is lent.
const OUTPUT: usize = 512;
const OUTPUT_ROOM: usize = OUTPUT + 2 * AROUND;
/// Room for the longest text that says why.
const TEXT_ROOM: usize = MOST + 2 * AROUND;
/// Room for a single number, between others that are not lent.
const SINGLE_ROOM: usize = 4;
/// Numbers around a result table that are not lent: a point on each side.
const AROUND_TABLE: usize = FLAT_POINT;
/// Room for the longest result table that is lent.
const TABLE_ROOM: usize = FLAT_TABLE + FLAT_POINT + 2 * AROUND_TABLE;

pub struct Compare {
    /// How often each function gave each number.
    counts: [[u64; NUMBERS]; FUNCTIONS.len()],
    /// Answers 0 of a lookup: nothing, a point.
    found: [u64; 2],
    /// The segments of the points that lookups gave: 0, 65,535, another.
    found_segments: [u64; 3],
    /// Answers 0 of a placing: the empty track, a track of one point.
    placed: [u64; 2],
    /// The segments of the points that were placed, in the same way, and empty tracks
    /// that were placed with a segment other than 0.
    placed_segments: [u64; 4],
    /// Numbers that both tracks of a done join hold, by `Differ`.
    shared: [u64; 4],
    /// Lookups that gave a point of the second track where the first had one with an
    /// equal record and another segment.
    found_of_second: [u64; 1],
    /// Joins whose swapping gave the same track, another by a record at least, and
    /// another by segments alone.
    swapped: [u64; 3],
    /// Three tracks whose two groupings gave the same track, and were refused.
    grouped: [u64; 2],
    /// Lookups and joins refused with 16 because of a number that is no segment's, and
    /// for nothing else.
    no_segment: [u64; 2],
    /// Round trips that came back: from bytes to the same bytes, from a record
    /// to the same record, and from a unit by the one that is written of its
    /// record to the same record.
    round_trips: [u64; 3],
    /// Readings with reserved blocks whose record, written, was read back to the
    /// same record with none skipped: payloads, and units.
    rewritten: [u64; 2],
    /// Refusals of which it was known beforehand where and why, by `Known`.
    known: [u64; 3],
    /// Texts, by the number and the element that they name.
    named: [[u64; ELEMENTS.len() + 1]; NUMBERS],
    /// Texts of each of FORMS.
    forms: [u64; FORMS.len()],
    /// Texts that name a byte of the wrapper, missing and wrong.
    wrapper_bytes: [[u64; WRAPPER.len()]; 2],
    /// Texts of accepted inputs.
    accepted_texts: u64,
    /// The part of the run and the case in it, for a failure's report.
    part: String,
    case: u64,
    pattern: u32,
    own_record: [i32; RECORD_ROOM],
    proved_record: [i32; RECORD_ROOM],
    rival_record: [i32; RECORD_ROOM],
    own_point: [i32; POINT_ROOM],
    proved_point: [i32; POINT_ROOM],
    own_reading: [u32; READING_ROOM],
    proved_reading: [u32; READING_ROOM],
    rival_reading: [u32; READING_ROOM],
    own_output: [u8; OUTPUT_ROOM],
    proved_output: [u8; OUTPUT_ROOM],
    own_single: [u32; SINGLE_ROOM],
    proved_single: [u32; SINGLE_ROOM],
    own_text: [u8; TEXT_ROOM],
    proved_text: [u8; TEXT_ROOM],
    /// The wrapped input of a text.
    text_input: Vec<u8>,
    /// The text of what is read now was compared already.
    told: bool,
    /// Copies of what is lent for reading.
    lent_bytes: Vec<u8>,
    lent_record: Vec<i32>,
    lent_a: Vec<i32>,
    lent_b: Vec<i32>,
    /// What result tables hold before a call: points, or any numbers.
    before: [Vec<i32>; 2],
    /// Which of the two it is in this call.
    before_at: usize,
    own_table: Vec<i32>,
    proved_table: Vec<i32>,
}

/// The most bytes of an input that a report prints. A longer one, of long
/// reserved blocks, can be made again from its part and its call.
const PRINTED: usize = 5_000;

pub fn hex(bytes: &[u8]) -> String {
    let mut text = String::new();
    for byte in bytes.iter().take(PRINTED) {
        text.push_str(&format!("{:02X} ", byte));
    }
    if bytes.len() > PRINTED {
        text.push_str(&format!("and {} more", bytes.len() - PRINTED));
    }
    text.trim_end().to_string()
}

fn read_function(wrapped: bool) -> Function {
    if wrapped {
        Function::ReadWrapped
    } else {
        Function::ReadBare
    }
}

/// The facts that an answer has: an accepted reading its bits and blocks passed over,
/// a refused one its place and its element, and but for 1 and 2 what is told of the
/// value. 13 and the unit's own refusals have none.
fn facts_given(number: u32) -> &'static [usize] {
    match number {
        0 => &[BITS, SKIPPED],
        13 | 30..=33 => &[],
        1 | 2 => &[OFFSET, IN_WRAPPER, ELEMENT],
        11 | 17..=19 => &[OFFSET, IN_WRAPPER, ELEMENT, KIND, VALUE],
        _ => &[OFFSET, IN_WRAPPER, ELEMENT, KIND, VALUE, LOWEST, HIGHEST],
    }
}

/// The n bits of the data from this one on, or none where they are not all there.
fn bits_at(data: &[u8], at: usize, n: usize) -> Option<u32> {
    let mut number = 0;
    for bit in at..at + n {
        let byte = data.get(bit / 8)?;
        number = 2 * number + (byte >> (7 - bit % 8) & 1) as u32;
    }
    Some(number)
}

/// The number of the code that begins there, and its bits, or none where there is no
/// whole one.
fn code_at(data: &[u8], at: usize) -> Option<(u32, usize)> {
    let mut zeros = 0;
    while bits_at(data, at + zeros, 1)? == 0 {
        zeros += 1;
        if zeros > 31 {
            return None;
        }
    }
    let number = (1 << zeros) - 1 + bits_at(data, at + zeros + 1, zeros)?;
    Some((number, 2 * zeros + 1))
}

/// The most bits of an element that can be cut off, of others 0.
fn most_bits(element: u32) -> i64 {
    match element {
        // app_identifier, app_version, num_ext_blocks, ext_block_length
        1 | 2 | 4 | 6 => 63,
        // ext_block_level
        7 => 8,
        // The fields of levels 1 and 2 but for ms_weight
        8..=16 => 12,
        // ms_weight, and the fields of level 5
        17..=21 => 13,
        // ext_dm_alignment_zero_bit
        22 => 1,
        _ => 0,
    }
}

/// What must be so where a refusal stands, by its number: all of it in the wrapper, and
/// in the data as far as it can be said without a reading of what comes before. The
/// value that the facts tell is looked up there. The data of a unit is not at hand.
fn reason_fits(function: Function, input: &[u8], number: u32, facts: &[u32; READING]) -> bool {
    let data = match function {
        Function::ReadUnit => None,
        Function::ReadWrapped => {
            let differs = (0..WRAPPER.len()).find(|&i| input.get(i) != Some(&WRAPPER[i]));
            if let Some(place) = differs {
                let refusal = match input.get(place) {
                    Some(&byte) => Refusal::wrapper_byte(place, byte),
                    None => Refusal::wrapper_cut(place),
                };
                return number == refusal.number && *facts == facts_of(&refusal);
            }
            Some(&input[WRAPPER.len()..])
        }
        _ => Some(input),
    };
    let at = facts[OFFSET] as usize;
    let element = facts[ELEMENT];
    let value = facts[VALUE];
    let allowed = (facts[LOWEST], facts[HIGHEST]);
    let left = data.map(|data| 8 * data.len() as i64 - at as i64);
    let bits_are = |at, n, bits| data.map_or(true, |data| bits_at(data, at, n) == Some(bits));
    let is_the_code = || {
        data.map_or(true, |data| {
            code_at(data, at).map(|code| code.0) == Some(value)
        })
    };
    let is = |name: Element| element == name as u32;
    let kind = match number {
        1 | 2 | 30..=33 => NO_VALUE,
        11 | 17..=19 => OTHER,
        _ => RANGE,
    };
    facts[IN_WRAPPER] == 0
        && facts[KIND] == kind
        && facts[VALUE_HIGH] == 0
        && match number {
            // One of the element's bits at least is missing.
            1 => {
                let is_place = match element {
                    1 => at == 0,
                    2 => at == 3,
                    4 => at == 5,
                    _ => at >= 8,
                };
                let most = most_bits(element);
                is_place && most > 0 && left.map_or(true, |left| (0..most).contains(&left))
            }
            2 => most_bits(element) == 63 && bits_are(at, 32, 0),
            4 => is(Element::AppIdentifier) && at == 0 && allowed == (1, 1) && is_the_code(),
            5 => is(Element::AppVersion) && at == 3 && allowed == (0, 0) && is_the_code(),
            6 => is(Element::NumExtBlocks) && at == 5 && allowed == (0, 254) && is_the_code(),
            7 => {
                (is(Element::DmAlignmentZeroBit) || is(Element::ExtDmAlignmentZeroBit))
                    && value == 1
                    && allowed == (0, 0)
                    && bits_are(at, 1, 1)
            }
            // A length and the level behind it.
            9 => {
                let of_level = |level| match level {
                    1 => (5, 5),
                    2 => (11, 11),
                    5 => (7, 7),
                    _ => (0, 1023),
                };
                let by_level = data.map_or(true, |data| match code_at(data, at) {
                    Some((length, bits)) => {
                        let level = bits_at(data, at + bits, 8);
                        length == value && level.map(of_level) == Some(allowed)
                    }
                    None => false,
                });
                is(Element::ExtBlockLength) && at >= 8 && by_level && value != allowed.0
            }
            // A length and a level, which in a known block are these, then its fields.
            10 => {
                is(Element::AvgPq)
                    && at >= 8
                    && bits_are(at, 13, 0b00110_00000001)
                    && bits_are(at + 13, 12, allowed.0)
                    && bits_are(at + 25, 12, allowed.1)
                    && bits_are(at + 37, 12, value)
                    && (value < allowed.0 || value > allowed.1)
            }
            11 => {
                is(Element::TargetMaxPq)
                    && at >= 8
                    && bits_are(at, 15, 0b0001100_00000010)
                    && bits_are(at + 15, 12, value)
            }
            17 => {
                is(Element::ExtBlockLevel)
                    && value == 1
                    && at >= 8
                    && bits_are(at, 13, 0b00110_00000001)
            }
            18 => {
                is(Element::ExtBlockLevel)
                    && value == 5
                    && at >= 8
                    && bits_are(at, 15, 0b0001000_00000101)
            }
            19 => {
                is(Element::ExtBlockLevel)
                    && value == 2
                    && at >= 8
                    && bits_are(at, 15, 0b0001100_00000010)
            }
            12 => {
                is(Element::End)
                    && at % 8 == 0
                    && allowed == (0, 0)
                    && value >= 1
                    && left.map_or(true, |left| left == 8 * value as i64)
            }
            30..=33 => at == 0 && element == 0,
            _ => false,
        }
}

/// Numbers as they are and as hex words, without the zeros at the end.
fn numbers(list: &[i32]) -> String {
    let used = list
        .iter()
        .rposition(|&n| n != 0)
        .map_or(0, |last| last + 1);
    let mut text = format!("{} numbers:", list.len());
    for number in &list[..used] {
        text.push_str(&format!(" {}", number));
    }
    text.push_str("\n    as hex:");
    for number in &list[..used] {
        text.push_str(&format!(" {:08X}", number));
    }
    if used < list.len() {
        text.push_str(" and zeros");
    }
    text
}

/// A point: the picture, the segment and the record's bare payload, or the flat
/// record if the numbers name no point or the record is not valid.
fn point(numbers_of_it: &[i32]) -> String {
    let mut payload = [0; crate::record::BARE_BYTES];
    let picture = numbers_of_it[PICTURE];
    let segment = numbers_of_it[SEGMENT];
    if let Some(point) = point_from_flat(numbers_of_it) {
        if let Ok(n) = writer::write_bare(&point.record, &mut payload) {
            return format!(
                "{:>11} segment {:>5} {}",
                picture,
                segment,
                hex(&payload[..n])
            );
        }
    }
    format!(
        "{:>11} segment {:>5} no point or no valid record, {}",
        picture,
        segment,
        numbers(&numbers_of_it[RECORD..])
    )
}

/// The points of a table up to the count.
fn points(table: &[i32], count: usize) -> String {
    let mut text = format!("{} numbers, count {}", table.len(), count);
    for entry in table.chunks_exact(FLAT_POINT).take(count) {
        text.push_str(&format!("\n    {}", point(entry)));
    }
    text
}

/// The facts of a reading with their names.
pub fn in_words(facts: &[u32]) -> String {
    let element = match facts[ELEMENT] as usize {
        0 => "none",
        n => ELEMENTS
            .get(n - 1)
            .map_or("of no name", |element| element.1),
    };
    format!(
        "{} bits, {} skipped, offset {}, in the wrapper {}, element {} ({}), kind {}, value {} \
         (upper half {}), allowed {} to {}",
        facts[BITS],
        facts[SKIPPED],
        facts[OFFSET],
        facts[IN_WRAPPER],
        facts[ELEMENT],
        element,
        facts[KIND],
        facts[VALUE],
        facts[VALUE_HIGH],
        facts[LOWEST],
        facts[HIGHEST]
    )
}

fn first_difference<T: PartialEq + std::fmt::Debug>(
    what: &str,
    around: usize,
    own: &[T],
    proved: &[T],
) -> String {
    for i in 0..own.len() {
        if own[i] != proved[i] {
            return format!(
                "  {}[{}]: own {:?}, proved {:?}\n",
                what,
                i as i64 - around as i64,
                own[i],
                proved[i]
            );
        }
    }
    String::new()
}

/// Where the counts have a segment: 0, 65,535, another.
fn which_segment(segment: i32) -> usize {
    match segment {
        0 => 0,
        65_535 => 1,
        _ => 2,
    }
}

/// Says so if what was lent for reading only is not as it was.
fn changed<T: PartialEq>(what: &str, before: &[T], after: &[T]) -> String {
    if before == after {
        return String::new();
    }
    format!("  proved changed what was lent for reading: {}\n", what)
}

impl Compare {
    pub fn new() -> Compare {
        let mut compare = Compare {
            counts: [[0; NUMBERS]; FUNCTIONS.len()],
            found: [0; 2],
            found_segments: [0; 3],
            placed: [0; 2],
            placed_segments: [0; 4],
            shared: [0; 4],
            found_of_second: [0; 1],
            swapped: [0; 3],
            grouped: [0; 2],
            no_segment: [0; 2],
            round_trips: [0; 3],
            rewritten: [0; 2],
            known: [0; 3],
            named: [[0; ELEMENTS.len() + 1]; NUMBERS],
            forms: [0; FORMS.len()],
            wrapper_bytes: [[0; WRAPPER.len()]; 2],
            accepted_texts: 0,
            part: String::new(),
            case: 0,
            pattern: 1,
            own_record: [0; RECORD_ROOM],
            proved_record: [0; RECORD_ROOM],
            rival_record: [0; RECORD_ROOM],
            own_point: [0; POINT_ROOM],
            proved_point: [0; POINT_ROOM],
            own_reading: [0; READING_ROOM],
            proved_reading: [0; READING_ROOM],
            rival_reading: [0; READING_ROOM],
            own_output: [0; OUTPUT_ROOM],
            proved_output: [0; OUTPUT_ROOM],
            own_single: [0; SINGLE_ROOM],
            proved_single: [0; SINGLE_ROOM],
            own_text: [0; TEXT_ROOM],
            proved_text: [0; TEXT_ROOM],
            text_input: Vec::new(),
            told: false,
            lent_bytes: Vec::new(),
            lent_record: Vec::new(),
            lent_a: Vec::new(),
            lent_b: Vec::new(),
            before: [Vec::new(), Vec::new()],
            before_at: 0,
            own_table: vec![0; TABLE_ROOM],
            proved_table: vec![0; TABLE_ROOM],
        };
        let mut rng = Rng::new(0x0B5E_55ED);
        for i in 0..TABLE_ROOM / FLAT_POINT {
            compare.before[0].push(7 * i as i32 - 1000);
            // Never 0, so that an entry that keeps it is not taken for a cleared one.
            compare.before[0].push(rng.from(1, 65_535));
            compare.before[0].extend_from_slice(&flat(&point_record(&mut rng)));
        }
        for _ in 0..TABLE_ROOM {
            compare.before[1].push(rng.next() as i32);
        }
        compare
    }

    pub fn begin(&mut self, part: String) {
        self.part = part;
        self.case = 0;
    }

    fn next_case(&mut self) {
        self.case += 1;
        self.pattern = self
            .pattern
            .wrapping_mul(1_664_525)
            .wrapping_add(1_013_904_223);
        let mut value = self.pattern | 0x4000_0000;
        for i in 0..SINGLE_ROOM {
            value = value.wrapping_add(0x9E37_79B9);
            self.own_single[i] = value;
        }
        self.proved_single = self.own_single;
    }

    fn fill_records(&mut self) {
        let mut value = self.pattern;
        for number in self.own_record.iter_mut() {
            value = value.wrapping_add(0x9E37_79B9);
            *number = value as i32;
        }
        self.proved_record = self.own_record;
        self.rival_record = self.own_record;
    }

    fn fill_points(&mut self) {
        let mut value = self.pattern;
        for number in self.own_point.iter_mut() {
            value = value.wrapping_add(0x9E37_79B9);
            *number = value as i32;
        }
        self.proved_point = self.own_point;
    }

    fn fill_readings(&mut self) {
        let mut value = self.pattern ^ 0x0FAC_7500;
        for number in self.own_reading.iter_mut() {
            value = value.wrapping_add(0x9E37_79B9);
            *number = value;
        }
        self.proved_reading = self.own_reading;
        self.rival_reading = self.own_reading;
    }

    fn fill_outputs(&mut self, n: usize) {
        let mut value = self.pattern;
        for byte in self.own_output[..n + 2 * AROUND].iter_mut() {
            value = value.wrapping_add(0x9E37_79B9);
            *byte = (value >> 24) as u8;
        }
        self.proved_output[..n + 2 * AROUND].copy_from_slice(&self.own_output[..n + 2 * AROUND]);
    }

    pub fn count_known(&mut self, place: Known) {
        self.known[place as usize] += 1;
    }

    /// A join and the one with its tracks swapped, whose points differ in this at some
    /// number that both hold.
    pub fn count_swapped(&mut self, differ: Differ) {
        let at = match differ {
            Differ::Nothing => 0,
            Differ::Records | Differ::Both => 1,
            Differ::Segments => 2,
        };
        self.swapped[at] += 1;
    }

    /// Both groupings of three tracks.
    pub fn count_grouped(&mut self, refused: bool) {
        self.grouped[refused as usize] += 1;
    }

    /// A lookup that gave a point of the second track, see `found_of_second`.
    pub fn count_found_of_second(&mut self) {
        self.found_of_second[0] += 1;
    }

    /// Lookups and joins that were refused because of a segment alone.
    pub fn count_no_segment(&mut self, lookups: u64, joins: u64) {
        self.no_segment[0] += lookups;
        self.no_segment[1] += joins;
    }

    fn count(&mut self, function: Function, number: u32) {
        self.counts[function as usize][number as usize] += 1;
    }

    /// Reports a difference and ends the program.
    pub fn fail(&self, what: &str, case: &str, answers: &str) -> ! {
        println!("DIFFERENT: {}", what);
        println!("in {}, call {}", self.part, self.case);
        println!("{}", case.trim_end());
        println!("{}", answers.trim_end());
        std::process::exit(1);
    }

    // ------------------------------------------------------------- reading

    /// Reads, and writes what was read: back to the same bytes where nothing was
    /// skipped, "otherwise the rewritten payload reads to the same record with none
    /// skipped" (02, b). The lent facts and record are those of the input again.
    pub fn read(&mut self, wrapped: bool, input: &[u8]) -> u32 {
        let number = self.read_lent(wrapped, input, FLAT, READING);
        if number == 0 {
            let mut record = [0; FLAT];
            record.copy_from_slice(self.record());
            let facts = self.own_reading;
            if self.skipped() == 0 {
                let answer = self.write_lent(wrapped, &record, input.len());
                if answer != 0 || self.own_output[AROUND..AROUND + input.len()] != *input {
                    self.fail(
                        "what was read is not written back to the same bytes",
                        &format!("input: {}", hex(input)),
                        &format!("written: result {}", answer),
                    );
                }
                self.round_trips[0] += 1;
            } else {
                // A reserved block has nine bits at least, so that the payload
                // without it is shorter.
                let answer = self.write_lent(wrapped, &record, WRAPPED_BYTES);
                let written = self.single() as usize;
                if answer != 0 || written >= input.len() {
                    self.fail(
                        "what was read is not written to a shorter payload",
                        &format!("input: {}", hex(input)),
                        &format!("written: result {}, {} bytes", answer, written),
                    );
                }
                self.read_back(read_function(wrapped), &record, answer);
                self.rewritten[0] += 1;
                self.own_record[AROUND..AROUND + FLAT].copy_from_slice(&record);
                self.own_reading = facts;
            }
        }
        number
    }

    /// Reads data behind the wrapper that was just read bare, and so has had its text.
    pub fn read_behind_wrapper(&mut self, data: &[u8]) -> u32 {
        self.told = true;
        let number = self.read(true, &[&WRAPPER[..], data].concat());
        self.told = false;
        number
    }

    /// Reads into a record and into facts of any length.
    pub fn read_lent(
        &mut self,
        wrapped: bool,
        input: &[u8],
        record_len: usize,
        reading_len: usize,
    ) -> u32 {
        self.read_by(read_function(wrapped), input, record_len, reading_len)
    }

    /// Reads a unit. What was read is written as a unit, which is read back to
    /// the same record, with none skipped. The lent facts and record are those of
    /// the input again.
    pub fn read_unit(&mut self, unit: &[u8]) -> u32 {
        let number = self.read_unit_lent(unit, FLAT, READING);
        if number == 0 {
            let (bits, skipped) = (self.bits(), self.skipped());
            let facts = self.own_reading;
            let mut record = [0; FLAT];
            record.copy_from_slice(self.record());
            let answer = self.write_unit(&record, OUTPUT);
            // What is left out has nine bits at least.
            let same_data = self.bits() == bits;
            let less_data = self.bits() + 8 <= bits;
            if answer != 0 || !(if skipped == 0 { same_data } else { less_data }) {
                self.fail(
                    "what was read is not written to a unit of the same data",
                    &format!("unit: {}", hex(unit)),
                    &format!("written: result {}", answer),
                );
            }
            if skipped == 0 {
                self.round_trips[2] += 1;
            } else {
                self.rewritten[1] += 1;
                self.own_reading = facts;
            }
        }
        number
    }

    /// Reads a unit into a record and into facts of any length.
    pub fn read_unit_lent(&mut self, unit: &[u8], record_len: usize, reading_len: usize) -> u32 {
        self.read_by(Function::ReadUnit, unit, record_len, reading_len)
    }

    fn read_by(
        &mut self,
        function: Function,
        input: &[u8],
        record_len: usize,
        reading_len: usize,
    ) -> u32 {
        self.next_case();
        self.fill_records();
        self.fill_readings();
        let facts_before = self.own_reading;
        self.lent_bytes.clear();
        self.lent_bytes.extend_from_slice(input);
        let lent = AROUND..AROUND + record_len;
        let lent_facts = AROUND..AROUND + reading_len;
        let own_record = &mut self.own_record[lent.clone()];
        let own_facts = &mut self.own_reading[lent_facts.clone()];
        let proved_record = &mut self.proved_record[lent];
        let proved_facts = &mut self.proved_reading[lent_facts.clone()];
        let (own_number, proved_number) = match function {
            Function::ReadUnit => (
                own::read_unit(input, own_record, own_facts),
                proved::read_unit(&self.lent_bytes, proved_record, proved_facts),
            ),
            Function::ReadWrapped => (
                own::read_wrapped(input, own_record, own_facts),
                proved::read_wrapped(&self.lent_bytes, proved_record, proved_facts),
            ),
            _ => (
                own::read_bare(input, own_record, own_facts),
                proved::read_bare(&self.lent_bytes, proved_record, proved_facts),
            ),
        };
        // The reader for speed is held to the plain one.
        let rival_number = self.read_by_rival(function, input, record_len, reading_len);
        // What the header says of the facts, whoever is asked: as they were where they
        // have not their length, and otherwise zeros but for those that the answer has.
        let mut facts_after = facts_before;
        if reading_len == READING {
            facts_after[lent_facts].fill(0);
            for &given in facts_given(own_number) {
                facts_after[AROUND + given] = self.own_reading[AROUND + given];
            }
        }
        let fits = own_number == 0
            || own_number == 13
            || reason_fits(function, input, own_number, &self.all_facts());
        if own_number != proved_number
            || self.own_record != self.proved_record
            || self.own_reading != self.proved_reading
            || own_number != rival_number
            || self.own_record != self.rival_record
            || self.own_reading != self.rival_reading
            || self.own_reading != facts_after
            || !fits
            || self.own_single != self.proved_single
            || self.lent_bytes != input
        {
            self.fail(
                FUNCTIONS[function as usize].1,
                &format!(
                    "input ({} bytes): {}\nrecord lent with length {}, facts with length {}",
                    input.len(),
                    hex(input),
                    record_len,
                    reading_len
                ),
                &(self.answers(own_number, proved_number)
                    + &format!("  rival: result {}\n", rival_number)
                    + &first_difference(
                        "record, with the rival's for the proved",
                        AROUND,
                        &self.own_record,
                        &self.rival_record,
                    )
                    + &first_difference(
                        "facts, with the rival's for the proved",
                        AROUND,
                        &self.own_reading,
                        &self.rival_reading,
                    )
                    + &self.facts(&facts_after, fits)
                    + &changed("the input", input, &self.lent_bytes)),
            );
        }
        self.count(function, own_number);
        if function != Function::ReadUnit && own_number != 13 && !self.told {
            self.why(function, input, own_number);
        }
        own_number
    }

    /// The text that says why, of every refused input, a bare one behind the wrapper, and
    /// of some accepted ones. Its facts are those of the last reading.
    fn why(&mut self, function: Function, input: &[u8], number: u32) {
        if number == 0 && self.case % 16 != 0 {
            return;
        }
        self.text_input.clear();
        if function == Function::ReadBare {
            self.text_input.extend_from_slice(&WRAPPER);
        }
        self.text_input.extend_from_slice(input);
        let written = match self.why_lent(MOST) {
            (0, written) => written as usize,
            answer => self.fail_why(MOST, &format!("{:?}: a longest text does not fit", answer)),
        };
        let first_line = format!("result={}\n", number);
        if !self.own_text[AROUND..].starts_with(first_line.as_bytes()) {
            self.fail_why(MOST, "the text is of another number than the reading");
        }
        // Too short by a byte, by more, and of the very length.
        match self.case % 32 {
            0 => self.why_short(written - 1),
            11 => self.why_short(self.pattern as usize % written),
            22 => self.why_exact(written),
            _ => {}
        }
        self.count_text(number);
    }

    /// The text of wrapped data, in which both agree.
    pub fn text(&mut self, input: &[u8]) -> String {
        self.text_input.clear();
        self.text_input.extend_from_slice(input);
        let written = self.why_lent(MOST).1 as usize;
        String::from_utf8_lossy(&self.own_text[AROUND..AROUND + written]).into_owned()
    }

    fn why_short(&mut self, out_len: usize) {
        if self.why_lent(out_len).0 != 13 {
            self.fail_why(out_len, "the text is longer, and not refused with 13");
        }
    }

    fn why_exact(&mut self, out_len: usize) {
        if self.why_lent(out_len) != (0, out_len as u32) {
            self.fail_why(out_len, "the text does not fit into its own length");
        }
    }

    /// Both texts in an output of this length, and the number of the bytes written.
    fn why_lent(&mut self, out_len: usize) -> (u32, u32) {
        let mut value = self.pattern;
        for byte in self.own_text.iter_mut() {
            value = value.wrapping_add(0x9E37_79B9);
            *byte = (value >> 24) as u8;
        }
        self.proved_text = self.own_text;
        let mut own_written = [!self.pattern; 3];
        let mut proved_written = own_written;
        self.lent_bytes.clear();
        self.lent_bytes.extend_from_slice(&self.text_input);
        let lent = AROUND..AROUND + out_len;
        let own_number = own::why_wrapped(
            &self.text_input,
            &mut self.own_text[lent.clone()],
            &mut own_written[1],
        );
        let proved_number = proved::why_wrapped(
            &self.lent_bytes,
            &mut self.proved_text[lent],
            &mut proved_written[1],
        );
        if own_number != proved_number
            || self.own_text != self.proved_text
            || own_written != proved_written
            || self.lent_bytes != self.text_input
        {
            self.fail_why(
                out_len,
                &format!(
                    "own: result {}, written {:?}; proved: result {}, written {:?}\n{}{}",
                    own_number,
                    own_written,
                    proved_number,
                    proved_written,
                    first_difference("output", AROUND, &self.own_text, &self.proved_text),
                    changed("the input", &self.text_input, &self.lent_bytes)
                ),
            );
        }
        self.count(Function::WhyWrapped, own_number);
        (own_number, own_written[1])
    }

    /// Reports a difference in a text and ends the program.
    fn fail_why(&self, out_len: usize, answers: &str) -> ! {
        let shown = |text: &[u8; TEXT_ROOM]| {
            String::from_utf8_lossy(&text[AROUND..AROUND + out_len]).into_owned()
        };
        self.fail(
            FUNCTIONS[Function::WhyWrapped as usize].1,
            &format!(
                "input ({} bytes): {}\noutput of {} bytes",
                self.text_input.len(),
                hex(&self.text_input),
                out_len
            ),
            &format!(
                "{}\nown:\n{:?}\nproved:\n{:?}",
                answers,
                shown(&self.own_text),
                shown(&self.proved_text)
            ),
        )
    }

    /// What the text named, by the facts of the last reading.
    fn count_text(&mut self, number: u32) {
        if number == 0 {
            self.accepted_texts += 1;
            return;
        }
        let facts = self.all_facts();
        self.named[number as usize][facts[ELEMENT] as usize] += 1;
        for (i, (_, is_form)) in FORMS.iter().enumerate() {
            self.forms[i] += is_form(number, &facts) as u64;
        }
        if facts[IN_WRAPPER] == 1 {
            self.wrapper_bytes[(number == 3) as usize][facts[OFFSET] as usize] += 1;
        }
    }

    /// The same reading by the reader for speed.
    fn read_by_rival(
        &mut self,
        function: Function,
        input: &[u8],
        record_len: usize,
        reading_len: usize,
    ) -> u32 {
        let record = &mut self.rival_record[AROUND..AROUND + record_len];
        let facts = &mut self.rival_reading[AROUND..AROUND + reading_len];
        match function {
            Function::ReadWrapped => own::rival_read_wrapped(input, record, facts),
            Function::ReadUnit => own::rival_read_unit(input, record, facts),
            _ => own::rival_read_bare(input, record, facts),
        }
    }

    /// What the facts of a reading hold, for a failure's report.
    fn facts(&self, after: &[u32; READING_ROOM], fits: bool) -> String {
        let mut text = String::new();
        for (name, facts) in [
            ("own", &self.own_reading),
            ("proved", &self.proved_reading),
            ("rival", &self.rival_reading),
        ] {
            let lent = &facts[AROUND..AROUND + READING];
            text.push_str(&format!("  facts of {}: {}\n", name, in_words(lent)));
        }
        if self.own_reading != *after {
            text.push_str("  a fact that this answer does not give is not 0, or was not lent\n");
        }
        if !fits {
            text.push_str("  what stands at the offset cannot get this number for this reason\n");
        }
        text.push_str(&first_difference(
            "facts",
            AROUND,
            &self.own_reading,
            &self.proved_reading,
        ));
        text
    }

    /// The flat record of the last reading that gave one.
    pub fn record(&self) -> &[i32] {
        &self.own_record[AROUND..AROUND + FLAT]
    }

    /// The flat point of the last lookup, zeros if it found nothing.
    pub fn in_force(&self) -> &[i32] {
        &self.own_point[AROUND..AROUND + FLAT_POINT]
    }

    /// The bits read of the last reading.
    pub fn bits(&self) -> u32 {
        self.own_reading[AROUND + BITS]
    }

    /// The number of blocks that the last reading passed over.
    pub fn skipped(&self) -> u32 {
        self.own_reading[AROUND + SKIPPED]
    }

    /// The facts of the last reading, with their names.
    pub fn facts_text(&self) -> String {
        in_words(&self.all_facts())
    }

    /// The facts of the last reading.
    pub fn all_facts(&self) -> [u32; READING] {
        let mut facts = [0; READING];
        facts.copy_from_slice(&self.own_reading[AROUND..AROUND + READING]);
        facts
    }

    /// The single number of the last call that gave one.
    pub fn single(&self) -> u32 {
        self.own_single[1]
    }

    /// The answers of a reading.
    fn answers(&self, own_number: u32, proved_number: u32) -> String {
        let mut text = format!("own:    result {}\n", own_number);
        if own_number == 0 {
            text.push_str(&format!("    record: {}\n", numbers(self.record())));
        }
        text.push_str(&format!("proved: result {}\n", proved_number));
        if proved_number == 0 {
            let record = &self.proved_record[AROUND..AROUND + FLAT];
            text.push_str(&format!("    record: {}\n", numbers(record)));
        }
        text.push_str("first different element of each lent array, places counted from 0:\n");
        text.push_str(&first_difference(
            "record",
            AROUND,
            &self.own_record,
            &self.proved_record,
        ));
        text.push_str(&first_difference(
            "single number",
            1,
            &self.own_single,
            &self.proved_single,
        ));
        text.push_str(&first_difference(
            "output",
            AROUND,
            &self.own_output,
            &self.proved_output,
        ));
        text
    }

    // ------------------------------------------------------------- writing

    /// Writes, and reads what was written back to the same record.
    pub fn write(&mut self, wrapped: bool, record: &[i32], out_len: usize) -> u32 {
        let number = self.write_lent(wrapped, record, out_len);
        self.read_back(read_function(wrapped), record, number);
        number
    }

    /// Writes a unit, and reads it back to the same record.
    pub fn write_unit(&mut self, record: &[i32], out_len: usize) -> u32 {
        let number = self.write_unit_lent(record, out_len);
        self.read_back(Function::ReadUnit, record, number);
        number
    }

    /// Reads what the last call wrote, if it did, back to the same record. No
    /// reserved block is ever written.
    fn read_back(&mut self, read: Function, record: &[i32], number: u32) {
        if number == 0 {
            let written = self.single() as usize;
            let mut payload = [0; OUTPUT];
            payload[..written].copy_from_slice(&self.own_output[AROUND..AROUND + written]);
            let answer = self.read_by(read, &payload[..written], FLAT, READING);
            if answer != 0 || self.record() != record || self.skipped() != 0 {
                self.fail(
                    "what was written is not read back to the same record",
                    &format!("record: {}", numbers(record)),
                    &format!(
                        "written: {}\nread: result {}, {} skipped",
                        hex(&payload[..written]),
                        answer,
                        self.skipped()
                    ),
                );
            }
            self.round_trips[1] += 1;
        }
    }

    /// Writes a record of any length into an output of any length.
    pub fn write_lent(&mut self, wrapped: bool, record: &[i32], out_len: usize) -> u32 {
        let function = if wrapped {
            Function::WriteWrapped
        } else {
            Function::WriteBare
        };
        self.write_by(function, record, out_len)
    }

    /// Writes a record of any length as a unit into an output of any length.
    pub fn write_unit_lent(&mut self, record: &[i32], out_len: usize) -> u32 {
        self.write_by(Function::WriteUnit, record, out_len)
    }

    /// The bytes of the last write that was done.
    pub fn written(&self) -> &[u8] {
        &self.own_output[AROUND..AROUND + self.single() as usize]
    }

    fn write_by(&mut self, function: Function, record: &[i32], out_len: usize) -> u32 {
        self.next_case();
        self.fill_outputs(out_len);
        self.lent_record.clear();
        self.lent_record.extend_from_slice(record);
        let lent = AROUND..AROUND + out_len;
        let room = out_len + 2 * AROUND;
        let own_output = &mut self.own_output[lent.clone()];
        let own_single = &mut self.own_single[1];
        let proved_output = &mut self.proved_output[lent];
        let proved_single = &mut self.proved_single[1];
        let (own_number, proved_number) = match function {
            Function::WriteUnit => (
                own::write_unit(record, own_output, own_single),
                proved::write_unit(&self.lent_record, proved_output, proved_single),
            ),
            Function::WriteWrapped => (
                own::write_wrapped(record, own_output, own_single),
                proved::write_wrapped(&self.lent_record, proved_output, proved_single),
            ),
            _ => (
                own::write_bare(record, own_output, own_single),
                proved::write_bare(&self.lent_record, proved_output, proved_single),
            ),
        };
        if own_number != proved_number
            || self.own_output[..room] != self.proved_output[..room]
            || self.own_single != self.proved_single
            || self.lent_record != record
        {
            let mut answers = format!(
                "own:    result {}, single number {}, output {}\n",
                own_number,
                self.own_single[1],
                hex(&self.own_output[AROUND..AROUND + out_len])
            );
            answers.push_str(&format!(
                "proved: result {}, single number {}, output {}\n",
                proved_number,
                self.proved_single[1],
                hex(&self.proved_output[AROUND..AROUND + out_len])
            ));
            answers.push_str(&first_difference(
                "output",
                AROUND,
                &self.own_output[..room],
                &self.proved_output[..room],
            ));
            answers.push_str(&first_difference(
                "single number",
                1,
                &self.own_single,
                &self.proved_single,
            ));
            answers.push_str(&changed("the record", record, &self.lent_record));
            self.fail(
                FUNCTIONS[function as usize].1,
                &format!("record: {}\noutput of {} bytes", numbers(record), out_len),
                &answers,
            );
        }
        self.count(function, own_number);
        own_number
    }

    // -------------------------------------------------------------- shader

    /// Converts a flat block of any length into numbers of any count up to 8.
    pub fn shader(&mut self, block: &[i32], bits_len: usize) -> (u32, [u32; 7]) {
        self.next_case();
        let mut own_bits = [0; 8 + 2 * AROUND];
        let mut value = self.pattern;
        for number in own_bits.iter_mut() {
            value = value.wrapping_add(0x9E37_79B9);
            *number = value;
        }
        let mut proved_bits = own_bits;
        let lent = AROUND..AROUND + bits_len;
        let copy = block.to_vec();
        let own_number = own::shader(block, &mut own_bits[lent.clone()]);
        let proved_number = proved::shader(&copy, &mut proved_bits[lent]);
        if own_number != proved_number || own_bits != proved_bits || copy != block {
            self.fail(
                FUNCTIONS[Function::Shader as usize].1,
                &format!(
                    "block: {}\n{} numbers lent for the bits",
                    numbers(block),
                    bits_len
                ),
                &format!(
                    "own:    result {}, bits {:08X?}\nproved: result {}, bits {:08X?}\n{}{}",
                    own_number,
                    &own_bits[AROUND..AROUND + bits_len],
                    proved_number,
                    &proved_bits[AROUND..AROUND + bits_len],
                    first_difference("bits", AROUND, &own_bits, &proved_bits),
                    changed("the block", block, &copy)
                ),
            );
        }
        self.count(Function::Shader, own_number);
        let mut seven = [0; 7];
        seven.copy_from_slice(&own_bits[AROUND..AROUND + 7]);
        (own_number, seven)
    }

    // -------------------------------------------------------------- tracks

    /// Compares the result tables after a placing or a join, number by number,
    /// and the numbers around them; says what differs. A refusal leaves all of
    /// them as they were, and 0 leaves zeros past the count.
    fn result_differs(&self, number: u32) -> Option<String> {
        let mut text = String::new();
        if self.own_table != self.proved_table {
            text.push_str(&first_difference(
                "table",
                AROUND_TABLE,
                &self.own_table,
                &self.proved_table,
            ));
            let at = (0..TABLE_ROOM).find(|&i| self.own_table[i] != self.proved_table[i]);
            let entry = at.unwrap_or(0) / FLAT_POINT;
            text.push_str(&format!(
                "  that is in entry {}, counted from 0 (-1: before the table)\n\
                 own    {}\nproved {}\n",
                entry as i64 - 1,
                point(&self.own_table[point_at(entry)]),
                point(&self.proved_table[point_at(entry)])
            ));
        }
        if number != 0 {
            if self.proved_table != self.before[self.before_at] {
                text.push_str("  the call is refused, and the result table is not as it was\n");
            }
        } else {
            let past = FLAT_POINT * self.single() as usize..FLAT_TABLE;
            let table = &self.proved_table[AROUND_TABLE..AROUND_TABLE + FLAT_TABLE];
            if table[past].iter().any(|&number| number != 0) {
                text.push_str("  a number past the count is not 0\n");
            }
        }
        if text.is_empty() {
            None
        } else {
            Some(text)
        }
    }

    fn table_answers(
        &self,
        own_number: u32,
        proved_number: u32,
        difference: Option<String>,
    ) -> String {
        let mut text = format!(
            "own:    result {}, count {}\nproved: result {}, count {}\n",
            own_number, self.own_single[1], proved_number, self.proved_single[1]
        );
        if own_number != 0 || proved_number != 0 {
            text.push_str("  (a refused call leaves the count as it was)\n");
        }
        text.push_str(&first_difference(
            "count",
            1,
            &self.own_single,
            &self.proved_single,
        ));
        text.push_str(&difference.unwrap_or_default());
        text
    }

    fn fill_results(&mut self) {
        self.before_at = (self.pattern >> 16) as usize % 2;
        let before = &self.before[self.before_at];
        self.own_table.copy_from_slice(before);
        self.proved_table.copy_from_slice(before);
    }

    fn result_track(&self) -> Track {
        Track {
            table: Table {
                numbers: self.own_table[AROUND_TABLE..AROUND_TABLE + FLAT_TABLE].to_vec(),
            },
            count: self.single() as usize,
        }
    }

    /// Whether a done placing left the point in the first entry, as it was given, or
    /// with the flag 0 none.
    fn is_placed(&self, record: &[i32], picture: i32, segment: u16) -> bool {
        let point = &self.own_table[AROUND_TABLE..AROUND_TABLE + FLAT_POINT];
        match self.single() {
            0 => record[0] == 0,
            1 => {
                record[0] == 1
                    && point[PICTURE] == picture
                    && point[SEGMENT] == segment as i32
                    && point[RECORD..] == *record
            }
            _ => false,
        }
    }

    /// Places a record of any length at a picture, in a table of any length.
    pub fn place_lent(
        &mut self,
        record: &[i32],
        picture: i32,
        segment: u16,
        table_len: usize,
    ) -> (u32, Option<Track>) {
        self.next_case();
        self.fill_results();
        self.lent_record.clear();
        self.lent_record.extend_from_slice(record);
        let lent = AROUND_TABLE..AROUND_TABLE + table_len;
        let own_number = own::place(
            record,
            picture,
            segment,
            &mut self.own_table[lent.clone()],
            &mut self.own_single[1],
        );
        let proved_number = proved::place(
            &self.lent_record,
            picture,
            segment,
            &mut self.proved_table[lent],
            &mut self.proved_single[1],
        );
        let mut difference = None;
        if own_number == proved_number && self.own_single == self.proved_single {
            difference = self.result_differs(own_number);
            if own_number == 0 && !self.is_placed(record, picture, segment) {
                let text = "  the first entry is not the point that was placed\n";
                difference = Some(difference.unwrap_or_default() + text);
            }
        }
        if own_number != proved_number
            || self.own_single != self.proved_single
            || difference.is_some()
            || self.lent_record != record
        {
            self.fail(
                FUNCTIONS[Function::Place as usize].1,
                &format!(
                    "record: {}\npicture {}, segment {}, table of {} numbers",
                    numbers(record),
                    picture,
                    segment,
                    table_len
                ),
                &(self.table_answers(own_number, proved_number, difference)
                    + &changed("the record", record, &self.lent_record)),
            );
        }
        self.count(Function::Place, own_number);
        if own_number != 0 {
            return (own_number, None);
        }
        let has_point = self.single() == 1;
        self.placed[has_point as usize] += 1;
        if has_point {
            self.placed_segments[which_segment(segment as i32)] += 1;
        } else if segment != 0 {
            self.placed_segments[3] += 1;
        }
        (0, Some(self.result_track()))
    }

    pub fn place(&mut self, record: &[i32], picture: i32, segment: u16) -> (u32, Option<Track>) {
        self.place_lent(record, picture, segment, FLAT_TABLE)
    }

    pub fn lookup(&mut self, table: &Table, count: usize, picture: i32) -> u32 {
        self.lookup_lent(table, count, picture, FLAT_POINT)
    }

    /// Looks up in a table of any length, into a point of any length.
    pub fn lookup_lent(
        &mut self,
        table: &Table,
        count: usize,
        picture: i32,
        point_len: usize,
    ) -> u32 {
        self.next_case();
        self.fill_points();
        let mut point_after = self.own_point;
        self.lent_a.clear();
        self.lent_a.extend_from_slice(&table.numbers);
        let lent = AROUND..AROUND + point_len;
        let own_number = own::lookup(
            &table.numbers,
            count,
            picture,
            &mut self.own_point[lent.clone()],
            &mut self.own_single[1],
        );
        let proved_number = proved::lookup(
            &self.lent_a,
            count,
            picture,
            &mut self.proved_point[lent.clone()],
            &mut self.proved_single[1],
        );
        // What the point must hold, whoever is asked: the numbers that stand in the
        // table, zeros where nothing is in force, and after a refusal what it held.
        let mut found = self.single();
        if own_number == 0 {
            let at = (0..count).rev().find(|&i| table.picture(i) <= picture);
            found = at.is_some() as u32;
            match at {
                Some(at) => point_after[lent].copy_from_slice(table.row(at)),
                None => point_after[lent].fill(0),
            }
        }
        if own_number != proved_number
            || self.own_point != self.proved_point
            || self.own_point != point_after
            || self.own_single != self.proved_single
            || self.single() != found
            || self.lent_a != table.numbers
        {
            self.fail(
                FUNCTIONS[Function::Lookup as usize].1,
                &format!(
                    "picture {}, point lent with length {}\ntable: {}",
                    picture,
                    point_len,
                    points(&table.numbers, count)
                ),
                &(self.lookup_answers(own_number, proved_number, &point_after)
                    + &changed("the table", &table.numbers, &self.lent_a)),
            );
        }
        self.count(Function::Lookup, own_number);
        if own_number == 0 {
            self.found[found as usize] += 1;
        }
        if own_number == 0 && found == 1 {
            self.found_segments[which_segment(self.in_force()[SEGMENT])] += 1;
        }
        own_number
    }

    fn lookup_answers(
        &self,
        own_number: u32,
        proved_number: u32,
        after: &[i32; POINT_ROOM],
    ) -> String {
        let mut text = String::new();
        for (name, number, single, lent) in [
            ("own:   ", own_number, self.own_single, &self.own_point),
            (
                "proved:",
                proved_number,
                self.proved_single,
                &self.proved_point,
            ),
        ] {
            text.push_str(&format!("{} result {}", name, number));
            if number == 0 {
                let lent = &lent[AROUND..AROUND + FLAT_POINT];
                text.push_str(&format!(", found {}, point {}", single[1], point(lent)));
            }
            text.push('\n');
        }
        if self.own_point != *after {
            text.push_str("  the point is not the one in force, zeros, or as it was\n");
        }
        text.push_str(&first_difference(
            "point",
            AROUND,
            &self.own_point,
            &self.proved_point,
        ));
        text.push_str(&first_difference(
            "found",
            1,
            &self.own_single,
            &self.proved_single,
        ));
        text
    }

    /// The numbers that both tracks of a done join hold, by `Differ`, or none where its
    /// points are not theirs: each the next of the first or of the second, whole, and
    /// the second's where both have it.
    fn shared_of_join(
        &self,
        (a, a_count): (&Table, usize),
        (b, b_count): (&Table, usize),
    ) -> Option<[u64; 4]> {
        let result = &self.own_table[AROUND_TABLE..AROUND_TABLE + FLAT_TABLE];
        let count = self.single() as usize;
        let mut shared = [0; 4];
        let (mut of_a, mut of_b) = (0, 0);
        let mut last = None;
        for row in result.chunks_exact(FLAT_POINT).take(count) {
            let picture = row[PICTURE];
            let in_a = of_a < a_count && a.picture(of_a) == picture;
            let in_b = of_b < b_count && b.picture(of_b) == picture;
            let from = match (in_a, in_b) {
                (_, true) => b.row(of_b),
                (true, false) => a.row(of_a),
                (false, false) => return None,
            };
            if *row != *from || last >= Some(picture) {
                return None;
            }
            if in_a && in_b {
                let records = a.row(of_a)[RECORD..] != b.row(of_b)[RECORD..];
                let segments = a.segment(of_a) != b.segment(of_b);
                shared[Differ::of(records, segments) as usize] += 1;
            }
            of_a += in_a as usize;
            of_b += in_b as usize;
            last = Some(picture);
        }
        if of_a == a_count && of_b == b_count {
            Some(shared)
        } else {
            None
        }
    }

    pub fn join(&mut self, a: &Track, b: &Track) -> (u32, Option<Track>) {
        self.join_lent(&a.table, a.count, &b.table, b.count, FLAT_TABLE)
    }

    /// Joins tables of any length, with any counts, into a table of any length.
    pub fn join_lent(
        &mut self,
        a: &Table,
        a_count: usize,
        b: &Table,
        b_count: usize,
        table_len: usize,
    ) -> (u32, Option<Track>) {
        self.next_case();
        self.fill_results();
        self.lent_a.clear();
        self.lent_a.extend_from_slice(&a.numbers);
        self.lent_b.clear();
        self.lent_b.extend_from_slice(&b.numbers);
        let lent = AROUND_TABLE..AROUND_TABLE + table_len;
        let own_number = own::join(
            &a.numbers,
            a_count,
            &b.numbers,
            b_count,
            &mut self.own_table[lent.clone()],
            &mut self.own_single[1],
        );
        let proved_number = proved::join(
            &self.lent_a,
            a_count,
            &self.lent_b,
            b_count,
            &mut self.proved_table[lent],
            &mut self.proved_single[1],
        );
        let mut difference = None;
        let mut shared = [0; 4];
        if own_number == proved_number && self.own_single == self.proved_single {
            difference = self.result_differs(own_number);
            if own_number == 0 {
                match self.shared_of_join((a, a_count), (b, b_count)) {
                    Some(numbers) => shared = numbers,
                    None => {
                        let text = "  the points are not those of the two tracks\n";
                        difference = Some(difference.unwrap_or_default() + text);
                    }
                }
            }
        }
        if own_number != proved_number
            || self.own_single != self.proved_single
            || difference.is_some()
            || self.lent_a != a.numbers
            || self.lent_b != b.numbers
        {
            self.fail(
                FUNCTIONS[Function::Join as usize].1,
                &format!(
                    "first: {}\nsecond: {}\nresult table of {} numbers",
                    points(&a.numbers, a_count),
                    points(&b.numbers, b_count),
                    table_len
                ),
                &(self.table_answers(own_number, proved_number, difference)
                    + &changed("the first table", &a.numbers, &self.lent_a)
                    + &changed("the second table", &b.numbers, &self.lent_b)),
            );
        }
        self.count(Function::Join, own_number);
        if own_number != 0 {
            return (own_number, None);
        }
        for (count, numbers) in self.shared.iter_mut().zip(shared) {
            *count += numbers;
        }
        (0, Some(self.result_track()))
    }

    // -------------------------------------------------------------- counts

    pub fn joins_and_lookups(&self) -> u64 {
        let joins: u64 = self.counts[Function::Join as usize].iter().sum();
        let lookups: u64 = self.counts[Function::Lookup as usize].iter().sum();
        joins + lookups
    }

    /// Prints how often each function gave each number. Fails if one that can
    /// occur did not.
    pub fn report(&self) -> bool {
        let mut complete = true;
        println!("how often each function gave each number:");
        for (function, name, possible) in FUNCTIONS {
            let counts = &self.counts[function as usize];
            let mut text = String::new();
            for (number, &times) in counts.iter().enumerate() {
                let can_occur = possible.contains(&(number as u32));
                if can_occur || times > 0 {
                    text.push_str(&format!("  {}:{}", number, times));
                }
                if can_occur && times == 0 {
                    complete = false;
                }
            }
            println!("  {:<14}{}", name, text);
        }
        println!(
            "  lookups with answer 0: {} nothing, {} a point",
            self.found[0], self.found[1]
        );
        println!(
            "  placings with answer 0: {} the empty track, {} one point",
            self.placed[0], self.placed[1]
        );
        println!(
            "  round trips: {} from bytes, {} from records, {} from units",
            self.round_trips[0], self.round_trips[1], self.round_trips[2]
        );
        println!(
            "  rewritten without their reserved blocks: {} payloads, {} units",
            self.rewritten[0], self.rewritten[1]
        );
        println!(
            "  refusals of which it was known where and why: {} in the data, {} in the wrapper, \
             {} in units",
            self.known[0], self.known[1], self.known[2]
        );
        self.report_segments();
        for count in [
            &self.found[..],
            &self.found_segments,
            &self.placed,
            &self.placed_segments,
            &self.shared,
            &self.found_of_second,
            &self.swapped,
            &self.grouped,
            &self.no_segment,
            &self.round_trips,
            &self.rewritten,
            &self.known,
        ] {
            if count.contains(&0) {
                complete = false;
            }
        }
        complete & self.report_texts()
    }

    /// Prints how often segments were given and met, and what they decided.
    fn report_segments(&self) {
        println!(
            "  segments of placed points: {} 0, {} 65,535, {} others; {} empty tracks with \
             another than 0",
            self.placed_segments[0],
            self.placed_segments[1],
            self.placed_segments[2],
            self.placed_segments[3]
        );
        println!(
            "  segments that lookups gave: {} 0, {} 65,535, {} others",
            self.found_segments[0], self.found_segments[1], self.found_segments[2]
        );
        println!(
            "  numbers that both tracks of a join held: {} with equal points, {} with equal \
             records and other segments, {} with other records and equal segments, {} with \
             both other",
            self.shared[0], self.shared[1], self.shared[2], self.shared[3]
        );
        println!(
            "  lookups there that gave the second's segment, where the records were equal: {}",
            self.found_of_second[0]
        );
        println!(
            "  joins and their swappings: {} the same track, {} another by a record, {} another \
             by segments alone",
            self.swapped[0], self.swapped[1], self.swapped[2]
        );
        println!(
            "  groupings of three tracks: {} the same track both ways, {} refused both ways",
            self.grouped[0], self.grouped[1]
        );
        println!(
            "  refused with 16 because of a segment alone: {} lookups, {} joins",
            self.no_segment[0], self.no_segment[1]
        );
    }

    /// Prints how often the texts named each element, and how often they had each form.
    /// Fails if one that can occur did not, or one did that cannot.
    fn report_texts(&self) -> bool {
        let mut complete = self.accepted_texts > 0;
        println!("how often a text named each element, by the refusal's number:");
        println!("  0: {} texts of accepted inputs", self.accepted_texts);
        for (number, counts) in self.named.iter().enumerate() {
            let possible: Vec<usize> = NAMED
                .iter()
                .filter(|(its_number, _)| *its_number as usize == number)
                .flat_map(|(_, elements)| elements.iter().map(|&element| element as usize))
                .collect();
            let mut text = String::new();
            for (element, &times) in counts.iter().enumerate() {
                if possible.contains(&element) != (times > 0) {
                    complete = false;
                }
                if possible.contains(&element) || times > 0 {
                    let name = element.checked_sub(1).map_or("none", |i| ELEMENTS[i].1);
                    text.push_str(&format!("  {}:{}", name, times));
                }
            }
            if !text.is_empty() {
                println!("  {}:{}", number, text);
            }
        }
        println!("how often a text had each form:");
        for ((name, _), times) in FORMS.iter().zip(self.forms) {
            println!("  {}: {}", name, times);
        }
        for (name, counts) in ["missing", "wrong"].iter().zip(&self.wrapper_bytes) {
            println!(
                "  {} bytes of the wrapper, from its first: {:?}",
                name, counts
            );
        }
        complete && !self.forms.contains(&0) && !self.wrapper_bytes.concat().contains(&0)
    }
}
