//! Made SEI units, and which of them are compared.
//!
//! A unit is made from a plan: its header, its messages, and what stands behind
//! them. The plan chains its numbers and escapes its bytes by itself, for it has
//! to make what `unit.rs` must never write. What a unit must get follows from
//! its plan and from the faults that were put into it, not from reading it.

use crate::compare::{in_words, Compare, Known};
use crate::made::{blocks, flat_record, holding, payload, random_bytes, FlatKind, Kind, Rng};
use crate::made::{FLAT_KINDS, KINDS};
use crate::own::READING;
use crate::reader::WRAPPER;
use crate::record::{flat, from_flat, valid, Block, FLAT, LEVEL_2_BLOCKS, WRAPPED_BYTES};
use crate::runs::{meant, rng, WRONG_READ_LENGTHS, WRONG_RECORD_LENGTHS};
use crate::unit::UNIT_LIMIT;
use crate::writer::write_wrapped;

/// That many bytes always suffice for a unit that is written: the header, 235
/// bytes, and a byte more for each two of these.
pub const UNIT_BYTES: usize = 354;

/// The header of every unit that is written.
const WRITTEN: [u8; 2] = [0x4E, 0x01];

/// The end of a unit.
const END: u8 = 0x80;

// ------------------------------------------------------------------- plans

#[derive(Clone)]
pub struct Message {
    payload_type: usize,
    content: Vec<u8>,
}

pub fn message(payload_type: usize, content: &[u8]) -> Message {
    Message {
        payload_type,
        content: content.to_vec(),
    }
}

/// The message of type 4 that holds this data behind the wrapper.
pub fn ours(data: &[u8]) -> Message {
    Message {
        payload_type: 4,
        content: [&WRAPPER[..], data].concat(),
    }
}

fn is_ours(message: &Message) -> bool {
    message.payload_type == 4 && message.content.starts_with(&WRAPPER)
}

#[derive(Clone)]
pub struct Plan {
    header: [u8; 2],
    pub messages: Vec<Message>,
    /// What stands behind the messages.
    end: Vec<u8>,
}

/// A whole unit that holds these messages.
pub fn plan(messages: &[Message]) -> Plan {
    Plan {
        header: WRITTEN,
        messages: messages.to_vec(),
        end: vec![END],
    }
}

/// What a unit must get.
enum Meant {
    /// One of the unit's own refusals, which have no offset.
    Number(u32),
    /// What the wrapped reader gives to these bytes, its offset too.
    AsWrapped(Vec<u8>),
    /// Not known from the way in which it was made.
    Unknown,
}

/// A type or a size.
fn chain(number: usize) -> Vec<u8> {
    let mut bytes = vec![0xFF; number / 255];
    bytes.push((number % 255) as u8);
    bytes
}

/// The unit of these bytes, a 03 put in wherever two zeros come before a byte
/// up to 03.
fn with_emulation(header: [u8; 2], bytes: &[u8]) -> Vec<u8> {
    let mut unit = header.to_vec();
    let mut zeros = 0;
    for &byte in bytes {
        if zeros == 2 && byte < 4 {
            unit.push(3);
            zeros = 0;
        }
        zeros = if byte == 0 { zeros + 1 } else { 0 };
        unit.push(byte);
    }
    unit
}

impl Plan {
    /// What stands behind the header, without emulation prevention.
    fn bytes(&self) -> Vec<u8> {
        let mut bytes = Vec::new();
        for message in &self.messages {
            bytes.extend(chain(message.payload_type));
            bytes.extend(chain(message.content.len()));
            bytes.extend_from_slice(&message.content);
        }
        bytes.extend_from_slice(&self.end);
        bytes
    }

    pub fn unit(&self) -> Vec<u8> {
        with_emulation(self.header, &self.bytes())
    }

    /// What the unit must get while no fault was put into it: "The first message
    /// of type 4 that begins with our eight wrapper bytes goes to the existing
    /// reader, whose answer stands".
    fn meant(&self) -> Meant {
        match self.messages.iter().find(|message| is_ours(message)) {
            Some(message) => Meant::AsWrapped(message.content.clone()),
            None => Meant::Number(33),
        }
    }
}

/// Reads the unit and holds the answer to what it must be.
fn read(compare: &mut Compare, unit: &[u8], expected: &Meant) {
    let number = compare.read_unit(unit);
    let facts = compare.all_facts();
    let as_meant = match expected {
        Meant::Unknown => true,
        Meant::Number(refusal) => number == *refusal,
        Meant::AsWrapped(content) => {
            let record = compare.record().to_vec();
            let wrapped = compare.read_lent(true, content, FLAT, READING);
            if number != 0 {
                compare.count_known(Known::InUnit);
            }
            number == wrapped
                && facts == compare.all_facts()
                && (number != 0 || compare.record() == record)
        }
    };
    if !as_meant {
        compare.fail(
            "both implementations answer otherwise than the made unit was meant",
            &format!("unit of {} bytes: {:02X?}", unit.len(), unit),
            &match expected {
                Meant::AsWrapped(content) => format!(
                    "meant: as wrapped {:02X?}\nboth: {}, {}\nwrapped: {}",
                    content,
                    number,
                    in_words(&facts),
                    compare.facts_text()
                ),
                Meant::Number(refusal) => format!("meant: {}, both: {}", refusal, number),
                Meant::Unknown => String::new(),
            },
        );
    }
}

/// Reads the unit of a plan without faults, which may have become too long.
fn read_plan(compare: &mut Compare, made: &Plan) {
    let unit = made.unit();
    if unit.len() > UNIT_LIMIT {
        read(compare, &unit, &Meant::Number(30));
    } else {
        read(compare, &unit, &made.meant());
    }
}

// ------------------------------------------------------------------- parts

/// Type 39 or 40, any layer, any temporal id plus one but 0.
fn any_header(rng: &mut Rng) -> [u8; 2] {
    let unit_type = rng.pick(&[39, 40]);
    let any = any_byte(rng) % 64;
    let layer = rng.pick(&[0, 0, 1, 31, 32, 63, any]);
    let temporal = rng.from(1, 7) as u8;
    [unit_type << 1 | layer >> 5, layer << 3 | temporal]
}

fn any_byte(rng: &mut Rng) -> u8 {
    rng.next() as u8
}

/// Bytes among which two zeros and a byte up to 03 come often.
fn rich_in_zeros(rng: &mut Rng, n: usize) -> Vec<u8> {
    (0..n)
        .map(|_| rng.pick(&[0, 0, 0, 0, 0, 1, 2, 3, 3, 4, 0x80, 0xFF]))
        .collect()
}

fn any_content(rng: &mut Rng) -> Vec<u8> {
    let n = match rng.below(24) {
        0 => rng.below(600),
        1 => rng.pick(&[253, 254, 255, 256, 509, 510, 511]),
        2..=7 => 0,
        _ => rng.below(20) + 1,
    };
    match rng.below(4) {
        0 => vec![0; n],
        1 => random_bytes(rng, n),
        _ => rich_in_zeros(rng, n),
    }
}

/// A record most of whose fields are 0 or small, so that its payload needs many
/// emulation prevention bytes.
fn quiet_record(rng: &mut Rng) -> [i32; FLAT] {
    let with_1 = rng.one_in(2);
    let with_5 = rng.one_in(2);
    let level_2_blocks = match rng.below(4) {
        0 => LEVEL_2_BLOCKS,
        _ => rng.below(4),
    };
    let mut list = blocks(rng, with_1, level_2_blocks, with_5);
    for (i, block) in list.iter_mut().enumerate() {
        let mut small = || match rng.below(8) {
            0 => rng.pick(&[1, 2, 3, 16, 256, 4095]),
            _ => 0,
        };
        *block = match *block {
            Block::Level1 { .. } => Block::Level1 {
                min_pq: 0,
                max_pq: small(),
                avg_pq: 0,
            },
            Block::Level2 { .. } => Block::Level2 {
                target_max_pq: i as u16,
                trim_slope: small(),
                trim_offset: small(),
                trim_power: small(),
                trim_chroma_weight: small(),
                trim_saturation_gain: small(),
                ms_weight: small() as i16,
            },
            _ => Block::Level5 {
                left: small(),
                right: small(),
                top: small(),
                bottom: small(),
            },
        };
    }
    flat(&holding(&list))
}

/// The wrapped payload of a valid flat record.
fn wrapped_payload(record: &[i32; FLAT]) -> Vec<u8> {
    let mut bytes = vec![0; WRAPPED_BYTES];
    let named = from_flat(record).unwrap();
    let n = write_wrapped(&named, &mut bytes).unwrap();
    bytes.truncate(n);
    bytes
}

/// A message that is ours, with data of any kind.
fn any_of_ours(rng: &mut Rng) -> Message {
    match rng.below(4) {
        0 => message(4, &wrapped_payload(&quiet_record(rng))),
        1 => ours(&payload(Kind::Valid, rng).bytes),
        _ => {
            let kind = rng.pick(&KINDS);
            ours(&payload(kind, rng).bytes)
        }
    }
}

/// A message that is not ours, and perhaps looks like it.
fn other(rng: &mut Rng) -> Message {
    let payload_type = match rng.below(8) {
        0..=1 => rng.below(4),
        2 => 4,
        3 => rng.pick(&[5, 132, 136, 137, 144]),
        4 => rng.pick(&[127, 128, 129, 254, 255, 256, 258, 259, 260, 510, 514, 1024]),
        5 => rng.pick(&[0, 4, 259]),
        _ => rng.below(256),
    };
    let content = match rng.below(8) {
        0 => any_of_ours(rng).content,
        1 => WRAPPER[..rng.below(WRAPPER.len())].to_vec(),
        2 => {
            let mut content = any_of_ours(rng).content;
            content[rng.below(WRAPPER.len())] ^= 1 << rng.below(8);
            content
        }
        3 => [&[any_byte(rng)][..], &any_of_ours(rng).content].concat(),
        _ => any_content(rng),
    };
    let mut made = Message {
        payload_type,
        content,
    };
    if is_ours(&made) {
        match rng.below(3) {
            0 => made.payload_type = rng.pick(&[0, 3, 5, 128, 132, 259]),
            1 => made.content.truncate(rng.below(WRAPPER.len())),
            _ => made.content[rng.below(WRAPPER.len())] ^= 1 << rng.below(8),
        }
    }
    made
}

/// Whole, of a middling length; one of the messages is ours.
fn middling(rng: &mut Rng) -> Plan {
    loop {
        let mut made = plan(&[]);
        made.header = any_header(rng);
        for _ in 0..rng.below(4) {
            made.messages.push(other(rng));
        }
        let data = match rng.below(4) {
            0 => payload(Kind::Valid, rng).bytes,
            1 => payload(Kind::Reserved, rng).bytes,
            _ => wrapped_payload(&quiet_record(rng)).split_off(WRAPPER.len()),
        };
        let at = rng.below(made.messages.len() + 1);
        made.messages.insert(at, ours(&data));
        if made.bytes().len() < 200 {
            return made;
        }
    }
}

// ------------------------------------------------------------------ faults

/// The faults of a made unit, in the order in which they are checked.
#[derive(Clone, Copy, Debug)]
struct Faults {
    header: bool,
    emulation: bool,
    messages: bool,
    none_of_ours: bool,
}

fn made_unit(rng: &mut Rng, faults: Faults) -> (Vec<u8>, Meant) {
    loop {
        let mut made = plan(&[]);
        made.header = any_header(rng);
        let before = match rng.below(8) {
            0..=2 => 0,
            3 => rng.below(40),
            _ => rng.below(4),
        };
        for _ in 0..before {
            made.messages.push(other(rng));
        }
        if !faults.none_of_ours {
            made.messages.push(any_of_ours(rng));
        }
        if rng.one_in(3) {
            for _ in 0..rng.below(4) + 1 {
                let more = if faults.none_of_ours || rng.one_in(2) {
                    other(rng)
                } else {
                    any_of_ours(rng)
                };
                made.messages.push(more);
            }
        }
        if made.messages.is_empty() {
            made.messages.push(other(rng));
        }
        let mut expected = made.meant();
        let mut bytes = made.bytes();
        if faults.messages {
            bytes = with_wrong_messages(rng, made.clone());
            expected = Meant::Number(32);
        }
        let mut unit = with_emulation(made.header, &bytes);
        if faults.emulation {
            spoil_emulation(rng, &mut unit);
            expected = Meant::Number(31);
        }
        if unit.len() > UNIT_LIMIT {
            continue;
        }
        if faults.header {
            spoil_header(rng, &mut unit);
            expected = Meant::Number(30);
        }
        return (unit, expected);
    }
}

/// 30: "unit shorter than two bytes or above 4,096, first header bit set,
/// temporal id plus one of 0, or another type"
fn spoil_header(rng: &mut Rng, unit: &mut Vec<u8>) {
    match rng.below(6) {
        0 => unit[0] |= 0x80,
        1 => unit[1] &= 0xF8,
        2 => {
            let mut unit_type = 39;
            while unit_type == 39 || unit_type == 40 {
                unit_type = match rng.below(2) {
                    0 => rng.pick(&[0, 1, 7, 32, 33, 34, 35, 38, 41, 48, 63]),
                    _ => any_byte(rng) % 64,
                };
            }
            unit[0] = (unit[0] & 0x81) | unit_type << 1;
        }
        3 => unit.truncate(rng.below(2)),
        4 => {
            let more = UNIT_LIMIT + 1 + rng.below(40) - unit.len();
            unit.extend(rich_in_zeros(rng, more));
        }
        _ => {
            unit[0] |= 0x80;
            unit[1] &= 0xF8;
        }
    }
}

/// 31: "two zero bytes followed by 00, 01 or 02, or by 03 and then a byte above
/// 03", at any place behind the header; sometimes the unit ends there.
fn spoil_emulation(rng: &mut Rng, unit: &mut Vec<u8>) {
    let at = 2 + rng.below(unit.len() - 1);
    let mut fault = vec![0, 0, rng.pick(&[0, 1, 1, 2, 3, 3])];
    if fault[2] == 3 {
        fault.push(rng.pick(&[4, 4, 5, 0x80, 0xFF]));
    }
    let rest = unit.split_off(at);
    unit.extend(fault);
    if !rng.one_in(4) {
        unit.extend(rest);
    }
}

/// 32: "no message at all, a type, size or content that runs past the end, or
/// an end that is not the single byte 80 after a whole message"
fn with_wrong_messages(rng: &mut Rng, mut made: Plan) -> Vec<u8> {
    match rng.below(9) {
        0 => made.end.clear(),
        1 => made.end = vec![rng.pick(&[0, 1, 4, 0x40, 0x7F, 0x81, 0xC0, 0xFF])],
        // A type of 128, and no size behind it, no content, or no end.
        2 => made.end.push(any_byte(rng)),
        3 => made.end.extend([0, rng.pick(&[0, 3, 4, 0x40, 0x81, 0xFF])]),
        4 => {
            let last = made.messages.pop().unwrap();
            let more = match rng.below(3) {
                0 => 1,
                1 => 2,
                _ => rng.below(300) + 1,
            };
            made.end = chain(last.payload_type);
            made.end.extend(chain(last.content.len() + more));
            made.end.extend(last.content);
            made.end.push(END);
        }
        5 => {
            // Cut anywhere. The type 128 would make an end where it begins.
            made.messages.retain(|message| message.payload_type != 128);
            let mut bytes = made.bytes();
            bytes.truncate(rng.below(bytes.len()));
            return bytes;
        }
        6 => {
            let n = rng.below(8);
            made.messages.clear();
            made.end = match rng.below(5) {
                0 => vec![],
                1 => vec![END],
                2 => vec![0xFF; n],
                3 => vec![any_byte(rng)],
                _ => vec![4, n as u8 + 1],
            };
        }
        7 => made.end = vec![0xFF; rng.below(300) + 1],
        // No room for the content that is announced.
        _ => made.end = [chain(4), chain(rng.below(600) + 2), vec![END]].concat(),
    }
    made.bytes()
}

/// Units with every set of faults: the first that is checked decides. Gives the
/// number of units.
pub fn made_units(compare: &mut Compare, round: u64) -> u64 {
    let mut cases = 0;
    for set in 0..16u64 {
        let faults = Faults {
            header: set & 8 != 0,
            emulation: set & 4 != 0,
            messages: set & 2 != 0,
            none_of_ours: set & 1 != 0,
        };
        compare.begin(format!("units with {:?}, round {}", faults, round));
        let mut rng = rng(0x900 + set, round);
        let units = match set {
            0 => 30_000,
            1 | 2 | 4 => 10_000,
            _ => 2_000,
        };
        for i in 0..units {
            let (unit, expected) = made_unit(&mut rng, faults);
            read(compare, &unit, &expected);
            cases += 1;
            if i % 256 == 0 {
                // The wrong lengths come before everything else.
                for (length, facts) in WRONG_READ_LENGTHS {
                    let number = compare.read_unit_lent(&unit, length, facts);
                    meant(compare, number, 13);
                    cases += 1;
                }
            }
        }
    }
    cases
}

// ------------------------------------------------------- units of one shape

/// 01's example for show, and data with many zeros.
const EXAMPLE: [u8; 8] = [0x5A, 0x30, 0x08, 0x00, 0x60, 0x02, 0x00, 0x00];
const ZEROS: [u8; 8] = [0x5A, 0x30, 0x08, 0x00, 0x00, 0x00, 0x00, 0x00];

/// Every pair of header bytes before a message of ours; then every row of up to
/// five bytes that a unit's reader could take for something. Gives the number of
/// units.
pub fn small_units(compare: &mut Compare) -> u64 {
    compare.begin("all header bytes".to_string());
    let whole = plan(&[ours(&EXAMPLE)]);
    let mut unit = whole.unit();
    let mut cases = 0;
    for value in 0..=0xFFFFu16 {
        unit[..2].copy_from_slice(&value.to_be_bytes());
        // One bit, six bits of the type, six of the layer, three at the end.
        let unit_type = value >> 9;
        let expected = if (unit_type == 39 || unit_type == 40) && value & 7 != 0 {
            whole.meant()
        } else {
            Meant::Number(30)
        };
        read(compare, &unit, &expected);
        cases += 1;
    }
    compare.begin("all units of few bytes".to_string());
    let letters = [0, 1, 2, 3, 4, 5, END, 0xFF];
    for n in 0..6 {
        for mut value in 0..letters.len().pow(n) {
            let mut unit = WRITTEN.to_vec();
            for _ in 0..n {
                unit.push(letters[value % letters.len()]);
                value /= letters.len();
            }
            read(compare, &unit, &Meant::Unknown);
            cases += 1;
        }
    }
    cases
}

/// Two zeros and what may follow them, at every place of what stands before
/// ours, in it and behind it: escaped, where the answer stays, and not.
fn zeros_at_every_place(compare: &mut Compare) -> u64 {
    compare.begin("two zeros at every place".to_string());
    let mut cases = 0;
    let data = [&EXAMPLE[..], &[0x55; 6]].concat();
    let messages = [message(5, &[0x55; 9]), ours(&data), message(6, &[0x55; 9])];
    for (which, one) in messages.iter().enumerate() {
        // The eight bytes of ours have to stay.
        let first = if which == 1 { WRAPPER.len() } else { 0 };
        for at in first..one.content.len() {
            for third in 0..5 {
                for fourth in 0..6 {
                    let mut made = plan(&messages);
                    let content = &mut made.messages[which].content;
                    for (place, byte) in [0, 0, third, fourth].iter().enumerate() {
                        if at + place < content.len() {
                            content[at + place] = *byte;
                        }
                    }
                    read(compare, &made.unit(), &made.meant());
                    // The same without emulation prevention.
                    let unit = [&WRITTEN[..], &made.bytes()].concat();
                    let expected = match third {
                        _ if at + 3 > one.content.len() => Meant::Unknown,
                        0..=2 => Meant::Number(31),
                        3 if at + 4 <= one.content.len() && fourth > 3 => Meant::Number(31),
                        _ => Meant::Unknown,
                    };
                    read(compare, &unit, &expected);
                    cases += 2;
                }
            }
        }
    }
    cases
}

/// Zeros that run from one message into the next: through types, sizes and
/// contents, before ours and behind it.
fn zeros_across_messages(compare: &mut Compare) -> u64 {
    compare.begin("zeros across messages".to_string());
    let mut cases = 0;
    for zeros in 0..4 {
        let mut ends_in_zeros = vec![0x55; 3];
        ends_in_zeros.extend(vec![0; zeros]);
        for payload_type in 0..5 {
            for size in 0..5 {
                for byte in 0..4 {
                    let small = message(payload_type, &vec![byte; size]);
                    for data in [EXAMPLE, ZEROS] {
                        let filled = message(5, &ends_in_zeros);
                        let one = ours(&data);
                        for messages in [
                            &[filled.clone(), small.clone(), one.clone()][..],
                            &[one.clone(), small.clone()],
                            &[small.clone(), one.clone(), small.clone(), small.clone()],
                            &[filled.clone(), small.clone(), small.clone()],
                        ] {
                            let made = plan(messages);
                            read(compare, &made.unit(), &made.meant());
                            cases += 1;
                        }
                    }
                }
            }
        }
    }
    cases
}

/// Long chains of FF in a type and in a size, whole and running past the end.
fn chains(compare: &mut Compare) -> u64 {
    compare.begin("chains of FF".to_string());
    let mut cases = 0;
    let lasts = [0, 1, 3, 4, 5, 0x7F, 0x80, 0xFE];
    let mut links: Vec<usize> = (0..20).collect();
    links.extend([64, 255, 256, 257, 1000, 4000]);
    for &n in &links {
        for last in lasts {
            let number = 255 * n + last;
            // The content of ours under another type, then ours.
            let lookalike = message(number, &ours(&ZEROS).content);
            let one = ours(&EXAMPLE);
            let mut made = plan(&[lookalike, one.clone()]);
            read_plan(compare, &made);
            made.messages.truncate(1);
            read_plan(compare, &made);
            // A size with as many links, which the unit has not.
            made = plan(&[one.clone()]);
            made.end = [vec![5], chain(number + 2), vec![END]].concat();
            read(compare, &made.unit(), &Meant::Number(32));
            // A chain that has no last byte, as a type and as a size.
            for first in [&[][..], &[5]] {
                made.end = [first, &vec![0xFF; n + 1]].concat();
                read(compare, &made.unit(), &Meant::Number(32));
            }
            cases += 5;
            if n < 15 {
                let long = message(5, &vec![0x55; number]);
                for messages in [&[long.clone(), one.clone()][..], &[one.clone(), long]] {
                    read_plan(compare, &plan(messages));
                    cases += 1;
                }
                // Ours with as many bytes behind its data: 12, or 0 with none.
                let data = [&EXAMPLE[..], &vec![0; number]].concat();
                read_plan(compare, &plan(&[ours(&data)]));
                cases += 1;
            }
        }
    }
    cases
}

/// A byte put in, left out or changed at every place of some units, every
/// single-bit flip of them, and every cut.
fn edits(compare: &mut Compare, round: u64) -> u64 {
    let mut cases = 0;
    let mut rng = rng(0xA00, round);
    for i in 0..32 {
        compare.begin(format!("edits of unit {}, round {}", i, round));
        let made = middling(&mut rng);
        let unit = made.unit();
        read(compare, &unit, &made.meant());
        for at in 2..=unit.len() {
            for byte in [0, 1, 2, 3, END, 0xFF] {
                let mut longer = unit.clone();
                longer.insert(at, byte);
                read(compare, &longer, &Meant::Unknown);
                cases += 1;
            }
        }
        for at in 0..unit.len() {
            let mut shorter = unit.clone();
            let byte = shorter.remove(at);
            // Without its 03 a pair of zeros stands before the byte behind it.
            let uncovers = at > 3 && byte == 3 && unit[at - 2..at] == [0, 0] && unit[at + 1] < 3;
            let expected = if uncovers {
                Meant::Number(31)
            } else {
                Meant::Unknown
            };
            read(compare, &shorter, &expected);
            cases += 1;
            for byte in [0, 3, END, 0xFF] {
                let mut other = unit.clone();
                other[at] = byte;
                read(compare, &other, &Meant::Unknown);
                cases += 1;
            }
        }
        for bit in 0..8 * unit.len() {
            let mut other = unit.clone();
            other[bit / 8] ^= 0x80 >> (bit % 8);
            read(compare, &other, &Meant::Unknown);
            cases += 1;
        }
        // A type of 128 makes an end where it begins.
        let sure = made.messages.iter().all(|one| one.payload_type != 128);
        for n in 0..unit.len() {
            let expected = match n {
                0 | 1 => Meant::Number(30),
                _ if sure => Meant::Number(32),
                _ => Meant::Unknown,
            };
            read(compare, &unit[..n], &expected);
            cases += 1;
        }
    }
    cases
}

// -------------------------------------------------------------- long units

/// How the room of a long unit is filled.
#[derive(Clone, Copy, PartialEq, Eq, Debug)]
enum Filling {
    OneBefore,
    OneBehind,
    Zeros,
    RichInZeros,
    EmptyMessages,
    ZeroMessages,
    LongType,
    DataGoesOn,
    ManyOfOurs,
    Others,
}

const FILLINGS: [Filling; 10] = [
    Filling::OneBefore,
    Filling::OneBehind,
    Filling::Zeros,
    Filling::RichInZeros,
    Filling::EmptyMessages,
    Filling::ZeroMessages,
    Filling::LongType,
    Filling::DataGoesOn,
    Filling::ManyOfOurs,
    Filling::Others,
];

/// A whole unit of exactly so many bytes, as it arrives.
fn long_unit(rng: &mut Rng, filling: Filling, bytes: usize) -> Plan {
    let one = any_of_ours(rng);
    let mut made = plan(&[]);
    made.header = any_header(rng);
    // Some bytes fewer than are wanted, then a message that takes what is left.
    let nearly = bytes - 60 - rng.below(60);
    let mut n = nearly;
    while made.messages.is_empty() || made.unit().len() > nearly {
        let filler = rich_in_zeros(rng, n);
        made.messages = match filling {
            Filling::OneBefore => vec![message(5, &vec![0x55; n]), one.clone()],
            Filling::OneBehind => vec![one.clone(), message(5, &filler)],
            Filling::Zeros => vec![message(4, &vec![0; n]), one.clone()],
            Filling::RichInZeros => vec![message(5, &filler), one.clone()],
            Filling::EmptyMessages => vec![message(1, &[]); n / 2],
            Filling::ZeroMessages => vec![message(0, &[]); n / 2],
            Filling::LongType => vec![message(255 * n + 4, &one.content)],
            Filling::DataGoesOn => {
                vec![ours(&[&EXAMPLE[..], &filler].concat())]
            }
            Filling::ManyOfOurs => vec![one.clone(); n / (one.content.len() + 2)],
            Filling::Others => (0..n / 30).map(|_| other(rng)).collect(),
        };
        if filling == Filling::EmptyMessages || filling == Filling::ZeroMessages {
            made.messages.push(one.clone());
        }
        n -= (n / 20).max(1);
    }
    // Messages of fewer than 255 bytes, none of which is 0: as many bytes as they
    // have come to the unit.
    while made.unit().len() < bytes {
        let left = bytes - made.unit().len() - 2;
        let n = if left > 200 { 150 } else { left };
        made.messages.push(message(6, &vec![0x55; n]));
    }
    made
}

/// Units of 4,093 to 4,099 bytes, filled in many ways; then faults at the end of
/// units of 4,096.
fn long_units(compare: &mut Compare, round: u64) -> u64 {
    let mut cases = 0;
    for (part, &filling) in FILLINGS.iter().enumerate() {
        compare.begin(format!("long units with {:?}, round {}", filling, round));
        let mut rng = rng(0xB00 + part as u64, round);
        for i in 0..42 {
            let wanted = UNIT_LIMIT - 3 + i % 7;
            let made = long_unit(&mut rng, filling, wanted);
            read_plan(compare, &made);
            cases += 1;
            // One byte more or fewer at the end, and its last bytes changed.
            let unit = made.unit();
            let n = unit.len();
            assert_eq!(n, wanted);
            let mut longer = unit.clone();
            longer.push(rng.pick(&[0, 3, END]));
            let expected = if n < UNIT_LIMIT { 32 } else { 30 };
            read(compare, &longer, &Meant::Number(expected));
            let expected = if n <= UNIT_LIMIT + 1 { 32 } else { 30 };
            read(compare, &unit[..n - 1], &Meant::Number(expected));
            let expected = if n <= UNIT_LIMIT { 31 } else { 30 };
            let mut other = unit.clone();
            other[n - 3..].copy_from_slice(&[0, 0, rng.below(3) as u8]);
            read(compare, &other, &Meant::Number(expected));
            let expected = if n <= UNIT_LIMIT { 32 } else { 30 };
            other[n - 4..].copy_from_slice(&[1, 0, 0, 3]);
            read(compare, &other, &Meant::Number(expected));
            cases += 4;
            for _ in 0..8 {
                let mut other = unit.clone();
                let bit = rng.below(8 * n);
                other[bit / 8] ^= 0x80 >> (bit % 8);
                read(compare, &other, &Meant::Unknown);
                cases += 1;
            }
        }
    }
    cases
}

/// The units of one shape. Gives their number.
pub fn shaped_units(compare: &mut Compare, round: u64) -> u64 {
    zeros_at_every_place(compare)
        + zeros_across_messages(compare)
        + chains(compare)
        + edits(compare, round)
        + long_units(compare, round)
}

// ----------------------------------------------------------------- writing

/// The unit that must be written of a valid record, or none.
fn unit_of(record: &[i32; FLAT]) -> Option<Vec<u8>> {
    let named = from_flat(record)?;
    if !valid(&named) {
        return None;
    }
    let content = wrapped_payload(record);
    Some(plan(&[message(4, &content)]).unit())
}

/// Flat records by kind, and many with zeros, written as units into outputs of
/// many lengths. Gives the number of writes.
pub fn unit_writes(compare: &mut Compare, round: u64) -> u64 {
    let mut cases = 0;
    let quiet = FLAT_KINDS.len();
    for part in 0..=quiet {
        let kind = *FLAT_KINDS.get(part).unwrap_or(&FlatKind::Valid);
        compare.begin(format!(
            "units of flat records, {:?} {}, round {}",
            kind, part, round
        ));
        let mut rng = rng(0xC00 + part as u64, round);
        let records = match kind {
            FlatKind::Valid => 4_000,
            FlatKind::AnyNumber => 4_000,
            _ => 300,
        };
        for i in 0..records {
            let record = if part == quiet {
                quiet_record(&mut rng)
            } else if kind == FlatKind::Valid && i % 64 == 0 {
                flat(&holding(&blocks(&mut rng, true, LEVEL_2_BLOCKS, true)))
            } else {
                flat_record(kind, &mut rng)
            };
            let expected = unit_of(&record);
            let needed = expected.as_ref().map_or(40, Vec::len);
            let out_len = match rng.below(8) {
                0 => rng.below(UNIT_BYTES),
                1 => needed - 1,
                2 => needed + 1,
                3 => UNIT_BYTES,
                _ => needed,
            };
            write(compare, &record, out_len, &expected);
            cases += 1;
            if kind
                .certain()
                .map_or(false, |sure| sure != expected.is_some())
                || needed > UNIT_BYTES
            {
                compare.fail(
                    "a made record is not what it was meant, or its unit is too long",
                    &format!("record: {:?}", record),
                    "",
                );
            }
            if i % 64 == 0 {
                for length in WRONG_RECORD_LENGTHS {
                    let mut other = [record, record].concat();
                    other.truncate(length);
                    let number = compare.write_unit_lent(&other, UNIT_BYTES);
                    meant(compare, number, 13);
                    cases += 1;
                }
            }
            if i % 256 == 0 && expected.is_some() {
                // Every length up to some bytes more than are needed.
                for out_len in 0..needed + 10 {
                    write(compare, &record, out_len, &expected);
                    cases += 1;
                }
            }
        }
    }
    cases
}

/// Writes the unit, and holds the answer and the bytes to what they must be.
fn write(compare: &mut Compare, record: &[i32; FLAT], out_len: usize, expected: &Option<Vec<u8>>) {
    let number = compare.write_unit_lent(record, out_len);
    let as_meant = match expected {
        None => number == 14,
        Some(unit) if out_len < unit.len() => number == 13,
        Some(unit) => number == 0 && compare.written() == unit,
    };
    if !as_meant {
        compare.fail(
            "both implementations write otherwise than the unit was meant",
            &format!("record: {:?}\noutput of {} bytes", record, out_len),
            &format!("meant: {:02X?}, both: {}", expected, number),
        );
    }
    if number == 0 {
        compare.write_unit(record, out_len);
    }
}
