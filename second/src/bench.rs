//! One operation many times, for an instruction counter, and the stack that
//! one call uses.
//!
//! All implementations are called through the same interface with the same
//! prepared arguments, so flat records and flat tables are made and taken apart
//! on every side.

use crate::compare::Track;
use crate::made::Rng;
use crate::own::{self, BITS, READING, SKIPPED};
use crate::proved;
use crate::reader::WRAPPER;
use crate::record::{block_to_flat, flat, Block, Record, BARE_BYTES, EMPTY, FLAT, WRAPPED_BYTES};
use crate::track::{Point, FLAT_POINT, FLAT_TABLE, POINTS, RECORD, SEGMENT};
use crate::unit::UNIT_LIMIT;
use crate::units::{message, ours, plan, UNIT_BYTES};
use std::io::Write as _;
use std::mem::MaybeUninit;

/// The operations of `bench`.
pub const OPERATIONS: [&str; 16] = [
    "read8",
    "read44",
    "read224",
    "write8",
    "write44",
    "write224",
    "lookup40",
    "join40",
    "unit4096",
    "unitsmall",
    "writeunit",
    "skip0",
    "skip511",
    "skip1022",
    "skip1023",
    "skiptwo",
];

/// The operations of `stack`.
pub const STACK_OPERATIONS: [&str; 11] = [
    "read8",
    "read224",
    "read232",
    "write224",
    "write232",
    "shader",
    "place",
    "lookup40",
    "join40",
    "unit4096",
    "writeunit",
];

/// Whose functions are called.
#[derive(Clone, Copy, PartialEq, Eq)]
pub enum Implementation {
    Own,
    Proved,
    /// The readers for speed; it has no other functions.
    Rival,
}

// The functions of the implementations.
type Read = fn(&[u8], &mut [i32], &mut [u32]) -> u32;
type Write = fn(&[i32], &mut [u8], &mut u32) -> u32;
type Shader = fn(&[i32], &mut [u32]) -> u32;
type Place = fn(&[i32], i32, u16, &mut [i32], &mut u32) -> u32;
type Lookup = fn(&[i32], usize, i32, &mut [i32], &mut u32) -> u32;
type Join = fn(&[i32], usize, &[i32], usize, &mut [i32], &mut u32) -> u32;

fn level_1(n: u16) -> Block {
    Block::Level1 {
        min_pq: n,
        max_pq: 3072,
        avg_pq: 1024,
    }
}

fn level_2(n: u16) -> Block {
    Block::Level2 {
        target_max_pq: 200 * n,
        trim_slope: 2048,
        trim_offset: 2048 + n,
        trim_power: 2048,
        trim_chroma_weight: 2048,
        trim_saturation_gain: 2048 - n,
        ms_weight: -1,
    }
}

const LEVEL_5: Block = Block::Level5 {
    left: 0,
    right: 0,
    top: 276,
    bottom: 276,
};

fn holding(blocks: &[Block]) -> Record {
    let mut record = EMPTY;
    record.refresh = true;
    record.count = blocks.len() as u8;
    record.places[..blocks.len()].copy_from_slice(blocks);
    record
}

/// The record of the operations of 8, 44 and 224 bytes: 01's example; level 1,
/// two level 2, level 5; level 1, sixteen level 2, level 5.
fn record(bytes: usize, n: u16) -> Record {
    match bytes {
        8 => holding(&[level_1(n)]),
        44 => holding(&[level_1(n), level_2(1), level_2(2), LEVEL_5]),
        _ => {
            let mut blocks = vec![level_1(n)];
            for i in 1..17 {
                blocks.push(level_2(i));
            }
            blocks.push(LEVEL_5);
            holding(&blocks)
        }
    }
}

/// A track of 40 points that begins at a picture; the records are those of
/// 44 bytes, and all have one segment.
fn forty(first: i32, segment: i32) -> Track {
    let mut made = Track::empty();
    for i in 0..40 {
        let record = flat(&record(44, i as u16));
        made.table.set(i, first + i as i32, segment, &record);
    }
    made.count = 40;
    made
}

/// The payload of a record, and its flat record.
fn payload(bytes: usize) -> (Vec<u8>, [i32; FLAT]) {
    let numbers = flat(&record(bytes, 0));
    let mut payload = vec![0; BARE_BYTES];
    let mut written = 0;
    let answer = own::write_bare(&numbers, &mut payload, &mut written);
    assert_eq!((answer, written as usize), (0, bytes));
    payload.truncate(bytes);
    (payload, numbers)
}

/// A payload with one or two reserved blocks, of level 3, whose content is so many
/// bytes of ones. It is put together by hand, because the preparation of an
/// operation is counted instruction by instruction.
fn reserved(count: usize, length: usize) -> Vec<u8> {
    let mut zeros = 0;
    while length + 1 >= 2 << zeros {
        zeros += 1;
    }
    // The length's code is zeros and then length + 1; the level follows.
    let width = 2 * zeros + 1 + 8;
    let head = (length + 1) << 8 | 3;
    let bits = 8 + count * (width + 8 * length);
    let mut payload = vec![0xFF; (bits + 7) / 8];
    payload[0] = if count == 1 { 0x5A } else { 0x5B };
    for block in 0..count {
        let start = 8 + block * (width + 8 * length);
        for i in start..start + width {
            if (head >> (start + width - 1 - i)) & 1 == 0 {
                payload[i / 8] &= !(0x80 >> (i % 8));
            }
        }
    }
    let last = payload.len() - 1;
    payload[last] &= 0xFF << (8 * payload.len() - bits);
    payload
}

/// A unit of 4,096 bytes with as many messages as it can hold: each but the last
/// has two bytes, its type and the size 0, and is of the type of ours, so that its
/// content is looked at. No two zero bytes meet. It is put together by hand,
/// because the preparation of an operation is counted instruction by instruction.
fn small_messages() -> Vec<u8> {
    let alone = plan(&[ours(&payload(8).0)]).unit();
    let left = UNIT_LIMIT - alone.len();
    let mut unit = alone[..2].to_vec();
    if left % 2 == 1 {
        // One message more than two bytes long, where their number is odd.
        unit.extend([4, 1, 0x55]);
    }
    while unit.len() - 2 < left {
        unit.extend([4, 0]);
    }
    unit.extend(&alone[2..]);
    assert_eq!(unit.len(), UNIT_LIMIT);
    unit
}

/// A unit of 4,096 bytes. Its last message is 01's example; before it stand
/// messages such as a film has, some of them with emulation prevention.
fn long_unit() -> Vec<u8> {
    // A mastering display, whose lowest luminance begins with three zero bytes.
    let display = [
        0x33, 0xC2, 0x86, 0xC4, 0x1D, 0x4C, 0x0B, 0xB8, 0x84, 0xD0, 0x3E, 0x80, 0x3D, 0x13, 0x40,
        0x42, 0x00, 0x98, 0x96, 0x80, 0x00, 0x00, 0x00, 0x32,
    ];
    let mut rng = Rng::new(UNIT_LIMIT as u64);
    let mut any = |first: &[u8], n: usize| {
        let mut content = first.to_vec();
        content.extend((0..n).map(|_| rng.next() as u8));
        content
    };
    // Captions, whose wrapper is ours up to the type code, mostly empty.
    let mut captions = [&WRAPPER[..7], &[0x03]].concat();
    for _ in 0..16 {
        captions.extend([0xFA, 0x00, 0x00]);
    }
    let films = [
        message(1, &[0x00, 0x00, 0x01, 0x00, 0x00, 0x00, 0x02]),
        message(137, &display),
        message(144, &[0x03, 0xE8, 0x01, 0x90]),
        message(4, &captions),
        message(4, &any(&[0xB5, 0x00, 0x3C, 0x00, 0x01, 0x04, 0x01], 60)),
        message(5, &any(&[], 216)),
        message(132, &any(&[0x00], 16)),
    ];
    let mut made = plan(&[ours(&payload(8).0)]);
    for one in films.iter().cycle() {
        let at = made.messages.len() - 1;
        made.messages.insert(at, one.clone());
        if made.unit().len() + 300 > UNIT_LIMIT {
            break;
        }
    }
    // No zeros, so as many bytes as are left.
    while made.unit().len() < UNIT_LIMIT {
        let left = UNIT_LIMIT - made.unit().len() - 2;
        let n = if left > 200 { 150 } else { left };
        let at = made.messages.len() - 1;
        made.messages.insert(at, message(5, &vec![0x55; n]));
    }
    let unit = made.unit();
    assert_eq!(unit.len(), UNIT_LIMIT);
    unit
}

/// The bytes of the payloads of an operation.
fn bytes_of(operation: &str) -> usize {
    let digits = operation.trim_start_matches(|c: char| !c.is_ascii_digit());
    digits.parse().unwrap_or(0)
}

/// Takes the value where the compiler cannot see what it is.
fn hidden<T: Copy>(value: T) -> T {
    unsafe { std::ptr::read_volatile(&value) }
}

fn mix(sum: u64, number: u64) -> u64 {
    (sum ^ number).wrapping_mul(0x0000_0100_0000_01B3)
}

/// Prints a checksum at the same cost whatever it is: what one call costs is the
/// difference of two runs, whose checksums differ.
pub fn print(sum: u64) {
    let mut line = *b"0123456789ABCDEF\n";
    for (i, place) in line[..16].iter_mut().enumerate() {
        let digit = (sum >> (60 - 4 * i)) as u8 & 15;
        *place = digit + b'0' + 7 * (digit / 10);
    }
    std::io::stdout().write_all(&line).unwrap();
}

fn reader_of(whose: Implementation) -> Read {
    match whose {
        Implementation::Own => own::read_bare,
        Implementation::Proved => proved::read_bare,
        Implementation::Rival => own::rival_read_bare,
    }
}

/// Runs the operation n times and gives a checksum, which depends on every
/// call.
pub fn bench(operation: &str, whose: Implementation, n: u64) -> Option<u64> {
    let mut sum = 0;
    let reads = operation.starts_with("read") || operation.starts_with("skip");
    if whose == Implementation::Rival && !reads {
        return None;
    }
    let own_one = whose == Implementation::Own;
    match operation {
        "read8" | "read44" | "read224" | "skip0" | "skip511" | "skip1022" | "skip1023"
        | "skiptwo" => {
            let read = hidden(reader_of(whose));
            let payload = match operation {
                "read8" | "read44" | "read224" => payload(bytes_of(operation)).0,
                "skiptwo" => reserved(2, 1023),
                _ => reserved(1, bytes_of(operation)),
            };
            let mut record = [0; FLAT];
            let mut facts = [0; READING];
            for _ in 0..n {
                let number = read(&payload, &mut record, &mut facts);
                let all = number + facts[BITS] + facts[SKIPPED];
                sum = mix(sum, all as u64 + record[5] as u64);
            }
        }
        "write8" | "write44" | "write224" => {
            let write: Write = hidden(if own_one {
                own::write_bare
            } else {
                proved::write_bare
            });
            let (_, record) = payload(bytes_of(operation));
            let mut output = [0; BARE_BYTES];
            let mut written = 0;
            for _ in 0..n {
                let number = write(&record, &mut output, &mut written);
                sum = mix(sum, (number + written) as u64 + output[6] as u64);
            }
        }
        "unit4096" | "unitsmall" => {
            let read: Read = hidden(if own_one {
                own::read_unit
            } else {
                proved::read_unit
            });
            let unit = if operation == "unit4096" {
                long_unit()
            } else {
                small_messages()
            };
            let mut record = [0; FLAT];
            let mut facts = [0; READING];
            for _ in 0..n {
                let number = read(&unit, &mut record, &mut facts);
                let all = number + facts[BITS] + facts[SKIPPED];
                sum = mix(sum, all as u64 + record[5] as u64);
            }
        }
        "writeunit" => {
            let write: Write = hidden(if own_one {
                own::write_unit
            } else {
                proved::write_unit
            });
            let (_, record) = payload(224);
            let mut output = [0; UNIT_BYTES];
            let mut written = 0;
            for _ in 0..n {
                let number = write(&record, &mut output, &mut written);
                sum = mix(sum, (number + written) as u64 + output[30] as u64);
            }
        }
        "lookup40" => {
            let lookup: Lookup = hidden(if own_one { own::lookup } else { proved::lookup });
            // The last point: the record in force is found at the end.
            let made = forty(1000, 1);
            let mut point = [0; FLAT_POINT];
            let mut found = 0;
            for _ in 0..n {
                let table = &made.table.numbers;
                let number = lookup(table, made.count, 1000 + 39, &mut point, &mut found);
                let numbers = point[SEGMENT] as u64 + point[RECORD + 3] as u64;
                sum = mix(sum, (number + found) as u64 + numbers);
            }
        }
        "join40" => {
            let join: Join = hidden(if own_one { own::join } else { proved::join });
            // 40 and 40 that share 16 make 64.
            let a = forty(1000, 1);
            let b = forty(1024, 2);
            let mut table = vec![0; FLAT_TABLE];
            let mut count = 0;
            for _ in 0..n {
                let number = join(
                    &a.table.numbers,
                    a.count,
                    &b.table.numbers,
                    b.count,
                    &mut table,
                    &mut count,
                );
                sum = mix(sum, (number + count) as u64);
            }
        }
        _ => return None,
    }
    Some(sum)
}

// ------------------------------------------------------------------- stack

/// The painted words of the stack, 64 KiB.
const PAINTED: usize = 8 * 1024;
const PAINT: u64 = 0x5EA1_C0DE_0DD5_7ACC;

/// Paints the stack below the caller and gives the address of the lowest
/// painted word.
#[inline(never)]
fn paint() -> usize {
    let mut words = MaybeUninit::<[u64; PAINTED]>::uninit();
    let first = words.as_mut_ptr() as *mut u64;
    for i in 0..PAINTED {
        unsafe { first.add(i).write_volatile(PAINT) };
    }
    hidden(first) as usize
}

/// The lowest address at which the paint is gone.
#[inline(never)]
fn lowest(painted: usize) -> usize {
    let first = hidden(painted) as *const u64;
    for i in 0..PAINTED {
        // The words lie below this function's frame, where nothing runs now.
        let address = unsafe { first.add(i) };
        if unsafe { address.read_volatile() } != PAINT {
            assert!(i > 0, "the call used all of the painted stack");
            return address as usize;
        }
    }
    panic!("the call wrote nothing");
}

/// Calls from a place that lies surely within the painted words.
#[inline(never)]
fn deeper(call: &mut dyn FnMut()) {
    let mut room = MaybeUninit::<[u64; 128]>::uninit();
    hidden(room.as_mut_ptr());
    call();
    hidden(room.as_mut_ptr());
}

#[inline(never)]
fn reached(call: &mut dyn FnMut()) -> usize {
    let painted = paint();
    deeper(call);
    lowest(painted)
}

/// The bytes of the stack that a call uses, its return address with them: how
/// much further down it writes than the same call of a function that does
/// nothing, which on x86-64 leaves the 8 bytes of its return address and no
/// more. What `proved.rs` puts between is a jump. The first call of all is not
/// looked at.
fn used<F: Copy>(function: F, nothing: F, mut call: impl FnMut(F)) -> usize {
    let mut addresses = [0; 3];
    for (i, &one) in [function, nothing, function].iter().enumerate() {
        let one = hidden(one);
        addresses[i] = reached(&mut || call(one));
    }
    addresses[1] + 8 - addresses[2]
}

/// The bytes of this implementation's record, point and table.
pub fn sizes() -> String {
    let point = std::mem::size_of::<Point>();
    format!(
        "{} {} {}",
        std::mem::size_of::<Record>(),
        point,
        POINTS * point
    )
}

/// The bytes of stack that one call uses.
pub fn stack(operation: &str, whose: Implementation) -> Option<usize> {
    if whose == Implementation::Rival && operation != "read8" && operation != "read224" {
        return None;
    }
    let own_one = whose == Implementation::Own;
    let mut number = 0;
    let bytes = match operation {
        "read8" | "read224" => {
            let (payload, _) = payload(bytes_of(operation));
            let mut record = [0; FLAT];
            used(
                reader_of(whose),
                |_, _, _| 0,
                |read| number |= read(&payload, &mut record, &mut [0; READING]),
            )
        }
        "read232" => {
            let (data, _) = payload(224);
            let input = [&WRAPPER[..], &data].concat();
            let mut record = [0; FLAT];
            let function: Read = if own_one {
                own::read_wrapped
            } else {
                proved::read_wrapped
            };
            used(
                function,
                |_, _, _| 0,
                |read| number |= read(&input, &mut record, &mut [0; READING]),
            )
        }
        "write232" => {
            let (_, record) = payload(224);
            let mut output = [0; WRAPPED_BYTES];
            let function: Write = if own_one {
                own::write_wrapped
            } else {
                proved::write_wrapped
            };
            used(
                function,
                |_, _, _| 0,
                |write| number |= write(&record, &mut output, &mut 0),
            )
        }
        "write224" => {
            let (_, record) = payload(224);
            let mut output = [0; BARE_BYTES];
            let function: Write = if own_one {
                own::write_bare
            } else {
                proved::write_bare
            };
            used(
                function,
                |_, _, _| 0,
                |write| number |= write(&record, &mut output, &mut 0),
            )
        }
        "unit4096" => {
            let unit = long_unit();
            let mut record = [0; FLAT];
            let function: Read = if own_one {
                own::read_unit
            } else {
                proved::read_unit
            };
            used(
                function,
                |_, _, _| 0,
                |read| number |= read(&unit, &mut record, &mut [0; READING]),
            )
        }
        "writeunit" => {
            let (_, record) = payload(224);
            let mut output = [0; UNIT_BYTES];
            let function: Write = if own_one {
                own::write_unit
            } else {
                proved::write_unit
            };
            used(
                function,
                |_, _, _| 0,
                |write| number |= write(&record, &mut output, &mut 0),
            )
        }
        "shader" => {
            let block = block_to_flat(&level_2(1));
            let mut bits = [0; 7];
            let function: Shader = if own_one { own::shader } else { proved::shader };
            used(
                function,
                |_, _| 0,
                |shader| number |= shader(&block, &mut bits),
            )
        }
        "place" => {
            let (_, record) = payload(224);
            let mut table = vec![0; FLAT_TABLE];
            let function: Place = if own_one { own::place } else { proved::place };
            used(
                function,
                |_, _, _, _, _| 0,
                |place| number |= place(&record, 1000, 1, &mut table, &mut 0),
            )
        }
        "lookup40" => {
            let made = forty(1000, 1);
            let mut point = [0; FLAT_POINT];
            let function: Lookup = if own_one { own::lookup } else { proved::lookup };
            used(
                function,
                |_, _, _, _, _| 0,
                |lookup| {
                    let table = &made.table.numbers;
                    number |= lookup(table, made.count, 1000 + 39, &mut point, &mut 0);
                },
            )
        }
        "join40" => {
            let a = forty(1000, 1);
            let b = forty(1024, 2);
            let mut table = vec![0; FLAT_TABLE];
            let function: Join = if own_one { own::join } else { proved::join };
            used(
                function,
                |_, _, _, _, _, _| 0,
                |join| {
                    number |= join(
                        &a.table.numbers,
                        a.count,
                        &b.table.numbers,
                        b.count,
                        &mut table,
                        &mut 0,
                    )
                },
            )
        }
        _ => return None,
    };
    assert_eq!(number, 0);
    Some(bytes)
}
