//! Numbers of ue(v) codes, small and big, at each of the four places that have one:
//! 02's request d. What a payload must get follows from the place and the number,
//! and what a cut of it must get from where the cut is. Every refusal stands where
//! the code begins.

use crate::compare::Compare;
use crate::made::{blocks, holding, random_bytes, reserved_level, Rng};
use crate::plan::{block_plan, own_length, plan, plan_with, reserved, too_many, ue};
use crate::plan::{wrong_length, Answer, BlockPlan, Code, Plan, LARGEST};
use crate::reader::Refusal;
use crate::record::{Block, Record};
use crate::reserved::{accepted, bits_before, refused};
use crate::runs::{expect, rng};
use crate::why::Element;

/// Both ends of each place's range and the numbers beside them, the ends of 8, 16,
/// 31 and 32 bits, and numbers that end in 8, 16 or 31 bits like one that is allowed.
const NUMBERS: [u32; 36] = [
    0,
    1,
    2,
    4,
    5,
    6,
    7,
    8,
    10,
    11,
    12,
    253,
    254,
    255,
    256,
    257,
    261,
    1022,
    1023,
    1024,
    32_766,
    32_767,
    65_533,
    65_534,
    65_535,
    65_536,
    65_537,
    65_541,
    65_543,
    65_547,
    (1 << 31) - 2,
    (1 << 31) - 1,
    1 << 31,
    (1 << 31) + 5,
    LARGEST - 1,
    LARGEST,
];

/// Numbers of zeros of which the 32nd is one too many.
const TOO_MANY: [u32; 6] = [32, 33, 39, 40, 63, 64];

#[derive(Clone, Copy, Debug)]
enum Place {
    AppIdentifier,
    AppVersion,
    NumExtBlocks,
    /// Of a block of this level, which begins at this bit of a byte.
    ExtBlockLength(u32, usize),
}

/// A payload, the element whose code is in question, the bits at which it begins and
/// ends, and what follows from it: the refusal and how many bits decide it, or the record
/// and the number of blocks passed over.
struct Made {
    plan: Plan,
    element: Element,
    begins: usize,
    ends: usize,
    outcome: Result<(Record, usize), (Refusal, usize)>,
}

fn of_level(rng: &mut Rng, level: u32) -> Option<Block> {
    match level {
        1 => blocks(rng, true, 0, false).pop(),
        2 => blocks(rng, false, 1, false).pop(),
        5 => blocks(rng, false, 0, true).pop(),
        _ => None,
    }
}

/// The payload with this code at this place; its number, if it has one.
fn made(rng: &mut Rng, place: Place, code: Code, number: Option<u32>) -> Made {
    let list: Vec<Block> = of_level(rng, 1).into_iter().collect();
    let mut plan = plan(&list);
    let mut record = holding(&list);
    let mut skipped = 0;
    let (element, begins, wrong) = match place {
        Place::AppIdentifier => {
            plan.app_identifier = code;
            let element = Element::AppIdentifier;
            let refusal = |n: u32| Refusal::outside(4, element, 0, n as u64, (1, 1));
            (element, 0, number.filter(|&n| n != 1).map(refusal))
        }
        Place::AppVersion => {
            plan.app_version = code;
            let element = Element::AppVersion;
            let refusal = |n: u32| Refusal::outside(5, element, 3, n as u64, (0, 0));
            (element, 3, number.filter(|&n| n != 0).map(refusal))
        }
        Place::NumExtBlocks => {
            let few = number.filter(|&n| n <= 254);
            if let Some(n) = few {
                // As many as are announced, all but the first of them empty.
                let empty = reserved(reserved_level(rng), &[]);
                plan.blocks.truncate(n as usize);
                plan.blocks.resize(n as usize, empty);
                record = holding(&list[..list.len().min(n as usize)]);
                skipped = (n as usize).saturating_sub(1);
            }
            plan.num_ext_blocks = Some(code);
            let wrong = number.filter(|&n| n > 254).map(too_many);
            (Element::NumExtBlocks, 5, wrong)
        }
        Place::ExtBlockLength(level, bit) => {
            // An empty reserved block has nine bits, so that `bit` of them move
            // what follows to that bit of a byte.
            let mut planned = vec![reserved(reserved_level(rng), &[]); bit];
            skipped = bit;
            let (block, own, list): (BlockPlan, bool, Vec<Block>) = match of_level(rng, level) {
                Some(block) => {
                    let known = block_plan(&block);
                    (known, number == own_length(level), vec![block])
                }
                None => {
                    let bytes = number.filter(|&n| n <= 1023);
                    let content = random_bytes(rng, bytes.unwrap_or(0) as usize);
                    skipped += 1;
                    (reserved(level, &content), bytes.is_some(), Vec::new())
                }
            };
            planned.push(BlockPlan {
                length: code,
                ..block
            });
            plan = plan_with(planned);
            record = holding(&list);
            let begins = bits_before(&plan, bit);
            assert_eq!(begins % 8, bit);
            let refusal = |n| wrong_length(begins, n, level);
            let wrong = number.filter(|_| !own).map(refusal);
            (Element::ExtBlockLength, begins, wrong)
        }
    };
    let ends = begins + 2 * code.zeros as usize + 1;
    let outcome = match (number, wrong) {
        (None, _) => Err((Refusal::no_code(element, begins), begins + 32)),
        (Some(_), None) => Ok((record, skipped)),
        // A length is judged when its level is known.
        (Some(_), Some(refusal)) if refusal.number == 9 => Err((refusal, ends + 8)),
        (Some(_), Some(refusal)) => Err((refusal, ends)),
    };
    Made {
        plan,
        element,
        begins,
        ends,
        outcome,
    }
}

/// The payload, bare and wrapped, and every cut of it near the code: 1 before the
/// bits that decide are there, then what they decide.
fn compare_one(compare: &mut Compare, one: &Made) -> u64 {
    let payload = one.plan.payload();
    let data = &payload.bytes;
    let mut cases = match &one.outcome {
        Ok((record, skipped)) => accepted(compare, data, record, *skipped),
        Err((refusal, _)) => refused(compare, data, *refusal),
    };
    let from = one.begins / 8;
    for n in from..data.len().min(from + 20) {
        let answer = match one.outcome {
            Err((refusal, bits)) if bits <= 8 * n => Answer::Refused(refusal),
            _ if (one.begins..one.ends).contains(&(8 * n)) => {
                Answer::Refused(Refusal::cut(one.element, one.begins))
            }
            _ => payload.answer_of_cut(n),
        };
        let number = compare.read(false, &data[..n]);
        expect(compare, &data[..n], answer, number);
        cases += 1;
    }
    cases
}

/// Every number and every number of zeros at every place.
pub fn payloads(compare: &mut Compare, round: u64) -> u64 {
    let mut rng = rng(0xE00, round);
    let mut places = vec![Place::AppIdentifier, Place::AppVersion, Place::NumExtBlocks];
    for level in [1, 2, 5, reserved_level(&mut rng)] {
        for bit in 0..8 {
            places.push(Place::ExtBlockLength(level, bit));
        }
    }
    let mut cases = 0;
    for place in places {
        compare.begin(format!("numbers at {:?}, round {}", place, round));
        for number in NUMBERS {
            let one = made(&mut rng, place, ue(number), Some(number));
            cases += compare_one(compare, &one);
        }
        for zeros in TOO_MANY {
            let any = rng.next();
            let rest = rng.pick(&[0, any, u64::MAX]);
            let one = made(&mut rng, place, Code { zeros, rest }, None);
            cases += compare_one(compare, &one);
        }
    }
    cases
}
