//! Made payloads with reserved blocks, and which of them are compared: 02's
//! request b. What each must get follows from the way in which it is made.

use crate::compare::Compare;
use crate::made::{blocks, holding, plan_of, put_reserved, random_bytes, reserved_level};
use crate::made::{Kind, Rng};
use crate::plan::{block_plan, is_reserved, own_length, plan, plan_with, reserved, too_many, ue};
use crate::plan::{wrong_length, Answer, BlockPlan, Plan, MOST_ANNOUNCED, MOST_SKIPPED_BYTES};
use crate::reader::Refusal;
use crate::record::{flat, from_flat, Block, Record, LEVEL_2_BLOCKS};
use crate::runs::{expect, of_flip, rng};
use crate::why::Element;

/// The longest bare payload that is accepted: 24 bits up to the first block, then
/// 254 blocks of 1,023 bytes, each with 21 bits of its length and 8 of its level.
const LONGEST: usize = 260_766;

/// What stands in a reserved block.
#[derive(Clone, Copy, PartialEq, Eq, Debug)]
enum Content {
    Zeros,
    Ones,
    Any,
}

const CONTENTS: [Content; 3] = [Content::Zeros, Content::Ones, Content::Any];

impl Content {
    fn bytes(self, rng: &mut Rng, n: usize) -> Vec<u8> {
        match self {
            Content::Zeros => vec![0; n],
            Content::Ones => vec![0xFF; n],
            Content::Any => random_bytes(rng, n),
        }
    }
}

/// Reads bare and behind the wrapper: this answer.
fn both(compare: &mut Compare, data: &[u8], answer: Answer) -> u64 {
    let number = compare.read(false, data);
    expect(compare, data, answer, number);
    let number = compare.read_behind_wrapper(data);
    expect(compare, data, answer, number);
    2
}

/// The same: this refusal.
pub fn refused(compare: &mut Compare, data: &[u8], refusal: Refusal) -> u64 {
    both(compare, data, Answer::Refused(refusal))
}

/// Reads bare and behind the wrapper: this record, so many blocks passed over, and
/// every bit of the data read.
pub fn accepted(compare: &mut Compare, data: &[u8], record: &Record, skipped: usize) -> u64 {
    for is_wrapped in [false, true] {
        let number = if is_wrapped {
            compare.read_behind_wrapper(data)
        } else {
            compare.read(false, data)
        };
        let facts = (compare.bits() as usize, compare.skipped() as usize);
        expect(compare, data, Answer::Accepted, number);
        if facts != (8 * data.len(), skipped) || compare.record() != flat(record) {
            compare.fail(
                "both implementations read otherwise than the made payload was meant",
                &format!("data of {} bytes, wrapped {}", data.len(), is_wrapped),
                &format!(
                    "meant: {} bits, {} skipped; both: {} bits, {} skipped",
                    8 * data.len(),
                    skipped,
                    facts.0,
                    facts.1
                ),
            );
        }
    }
    2
}

/// A reserved block among known ones, its place, and the record of these. Blocks of
/// level 2 stand before it, each of 103 bits, one less than 13 bytes: by their number
/// it begins at each of the eight bits of a byte. One of level 1 and one of level 5
/// stand behind it.
fn at_position(rng: &mut Rng, position: usize, block: BlockPlan) -> (Plan, usize, Record) {
    let mut before = (8 - position) % 8;
    if rng.one_in(4) {
        before += 8;
    }
    let mut list = blocks(rng, false, before, false);
    let mut planned: Vec<BlockPlan> = list.iter().map(block_plan).collect();
    planned.push(block);
    let mut behind = blocks(rng, true, 0, true);
    rng.shuffle(&mut behind);
    planned.extend(behind.iter().map(block_plan));
    list.append(&mut behind);
    (plan_with(planned), before, holding(&list))
}

fn block_bits(block: &BlockPlan) -> usize {
    let fields: u32 = block.fields.iter().map(|field| field.1).sum();
    2 * block.length.zeros as usize + 1 + 8 + fields as usize + block.zeros
}

/// The bits of the plan before its block of this place.
pub fn bits_before(made: &Plan, at: usize) -> usize {
    let mut head = made.clone();
    head.blocks.clear();
    let blocks: usize = made.blocks[..at].iter().map(block_bits).sum();
    8 * head.payload().bytes.len() + blocks
}

/// Every level with every length up to 20, at all bit positions in turn; the
/// three kinds of content in turn. A known level with a length that is not its own
/// gets 9.
fn levels_and_lengths(compare: &mut Compare, round: u64) -> u64 {
    compare.begin(format!("all levels with short lengths, round {}", round));
    let mut rng = rng(0xD00, round);
    let mut cases = 0;
    for level in 0..256u32 {
        for length in 0..=20 {
            // Over the rounds each level meets each length at each position.
            let turn = level as usize + length / 8 + round as usize;
            let content = CONTENTS[(turn + length) % 3].bytes(&mut rng, length);
            let block = reserved(level, &content);
            let (made, at, record) = at_position(&mut rng, (turn + length) % 8, block);
            let data = made.payload().bytes;
            cases += match own_length(level) {
                None => accepted(compare, &data, &record, 1),
                Some(own) if own as usize != length => {
                    let refusal = wrong_length(bits_before(&made, at), length as u32, level);
                    refused(compare, &data, refusal)
                }
                Some(_) => 0,
            };
        }
    }
    cases
}

/// Every length up to 20 and those around 1,023, with every content, at every bit
/// position. Of the short ones every cut, and a byte more.
fn positions(compare: &mut Compare, round: u64) -> u64 {
    compare.begin(format!("reserved blocks at every bit, round {}", round));
    let mut rng = rng(0xD01, round);
    let mut cases = 0;
    for length in (0..=20).chain(1020..=1026) {
        for position in 0..8 {
            for content in CONTENTS {
                let level = reserved_level(&mut rng);
                let block = reserved(level, &content.bytes(&mut rng, length));
                let (made, at, record) = at_position(&mut rng, position, block);
                let begins = bits_before(&made, at);
                assert_eq!(begins % 8, position);
                let payload = made.payload();
                let data = &payload.bytes;
                if length as u32 > MOST_SKIPPED_BYTES {
                    let refusal = wrong_length(begins, length as u32, level);
                    cases += refused(compare, data, refusal);
                    // 9 before the content, which is not there.
                    let mut made = made.clone();
                    made.blocks.truncate(at + 1);
                    made.blocks[at].fields.clear();
                    cases += refused(compare, &made.payload().bytes, refusal);
                    continue;
                }
                cases += accepted(compare, data, &record, 1);
                let more = [&data[..], &[rng.pick(&[0, 0x80, 0xFF])]].concat();
                cases += refused(compare, &more, Refusal::left_over(8 * data.len(), 1));
                let cuts = if length > 20 {
                    vec![data.len() - 1, data.len() / 2, data.len() - 100]
                } else if content == CONTENTS[(length + position) % 3] {
                    (0..data.len()).collect()
                } else {
                    Vec::new()
                };
                for n in cuts {
                    cases += both(compare, &data[..n], payload.answer_of_cut(n));
                }
            }
        }
    }
    cases
}

/// Every single-bit flip of some payloads. One inside the content of a reserved
/// block changes no answer, and one of a zero bit makes that a one.
fn flips(compare: &mut Compare, round: u64) -> u64 {
    compare.begin(format!(
        "bit flips of payloads with reserved blocks, round {}",
        round
    ));
    let mut rng = rng(0xD02, round);
    let mut cases = 0;
    for i in 0..24 {
        let n = rng.below(12);
        let content = rng.pick(&CONTENTS).bytes(&mut rng, n);
        let block = reserved(reserved_level(&mut rng), &content);
        let (made, at, _) = at_position(&mut rng, i % 8, block);
        let end = bits_before(&made, at + 1);
        let payload = made.payload();
        let mut data = payload.bytes.clone();
        let number = compare.read(false, &data);
        expect(compare, &data, Answer::Accepted, number);
        let record = compare.record().to_vec();
        for bit in 0..8 * data.len() {
            data[bit / 8] ^= 0x80 >> (bit % 8);
            let number = compare.read(false, &data);
            let answer = if bit + 8 * n >= end && bit < end {
                Answer::Accepted
            } else {
                of_flip(&payload, bit)
            };
            expect(compare, &data, answer, number);
            if answer == Answer::Accepted && (compare.record() != record || compare.skipped() != 1)
            {
                compare.fail(
                    "a bit inside a reserved block changes what both implementations read",
                    &format!("input: {:02X?}", data),
                    &format!("bit {}", bit),
                );
            }
            cases += 1;
            data[bit / 8] ^= 0x80 >> (bit % 8);
        }
    }
    cases
}

/// The kinds whose fault, if there is one, stands in a known block, with reserved
/// blocks among theirs: the number stays, and the place moves with its block.
const AMONG: [Kind; 13] = [
    Kind::Valid,
    Kind::Largest,
    Kind::WrongLength,
    Kind::SecondLevel1,
    Kind::SecondLevel5,
    Kind::SeventeenthLevel2,
    Kind::TargetAgain,
    Kind::SeventeenthTargetAgain,
    Kind::Order,
    Kind::OrderOfASecondLevel1,
    Kind::BlockZeroBit,
    Kind::BlockZeroBitAndOrder,
    Kind::BlockZeroBitOfASecondLevel1,
];

fn among(compare: &mut Compare, round: u64) -> u64 {
    let mut cases = 0;
    for (part, &kind) in AMONG.iter().enumerate() {
        compare.begin(format!("{:?} among reserved blocks, round {}", kind, round));
        let mut rng = rng(0xD10 + part as u64, round);
        let payloads = match kind {
            Kind::Valid => 2_000,
            Kind::Largest | Kind::SeventeenthLevel2 | Kind::SeventeenthTargetAgain => 200,
            _ => 600,
        };
        for _ in 0..payloads {
            let mut made = plan_of(kind, &mut rng).unwrap();
            let known = made.payload();
            assert_eq!(known.answer.number(), kind.certain());
            let blocks = made.blocks.len();
            put_reserved(&mut rng, &mut made);
            let payload = made.payload();
            assert_eq!(payload.answer.number(), kind.certain());
            // The payload without them reads to the same record, or the same number.
            let number = compare.read(false, &known.bytes);
            expect(compare, &known.bytes, known.answer, number);
            cases += 1;
            if number != 0 {
                cases += both(compare, &payload.bytes, payload.answer);
                continue;
            }
            let record = from_flat(compare.record()).unwrap();
            let skipped = made.blocks.len() - blocks;
            cases += accepted(compare, &payload.bytes, &record, skipped);
            // Zero bits behind the blocks, then before them. Where there are none, none
            // is wrong.
            made.last_one = Some(rng.below(840));
            let wrong = made.payload();
            cases += both(compare, &wrong.bytes, wrong.answer);
            made.last_one = None;
            made.first_one = Some(rng.below(840));
            let wrong = made.payload();
            cases += both(compare, &wrong.bytes, wrong.answer);
        }
    }
    cases
}

/// Numbers of blocks up to 254 and above, all of them reserved and empty; then 254
/// with known ones among them, and repeats at their end.
fn counts(compare: &mut Compare, round: u64) -> u64 {
    compare.begin(format!("numbers of blocks, round {}", round));
    let mut rng = rng(0xD03, round);
    let mut cases = 0;
    let most = MOST_ANNOUNCED as usize;
    for n in 0..=most + 3 {
        let list: Vec<BlockPlan> = (0..n)
            .map(|_| reserved(reserved_level(&mut rng), &[]))
            .collect();
        let data = plan_with(list).payload().bytes;
        cases += if n > most {
            refused(compare, &data, too_many(n as u32))
        } else {
            accepted(compare, &data, &holding(&[]), n)
        };
        // As many announced, and nothing there.
        let mut made = plan(&[]);
        made.num_ext_blocks = Some(ue(n as u32));
        let data = made.payload().bytes;
        cases += match n {
            0 => 0,
            _ if n > most => refused(compare, &data, too_many(n as u32)),
            _ => {
                let refusal = Refusal::cut(Element::ExtBlockLength, 8 * data.len());
                refused(compare, &data, refusal)
            }
        };
    }
    for known in [0, 1, 2, 17, 18, 18, 18, 18] {
        let mut list = blocks(&mut rng, true, LEVEL_2_BLOCKS, true);
        list.truncate(known);
        let mut made = plan(&list);
        while made.blocks.len() < most {
            let n = rng.pick(&[0, 0, 0, 1, 3]);
            let block = reserved(reserved_level(&mut rng), &random_bytes(&mut rng, n));
            made.blocks.insert(rng.below(made.blocks.len() + 1), block);
        }
        made.num_ext_blocks = Some(ue(most as u32));
        let payload = made.payload();
        let data = &payload.bytes;
        let n = data.len();
        cases += accepted(compare, data, &holding(&list), most - known);
        cases += both(compare, &data[..n - 1], payload.answer_of_cut(n - 1));
        let more = rng.pick(&[1, 2, 300]);
        let longer = [&data[..], &vec![0; more]].concat();
        cases += refused(compare, &longer, Refusal::left_over(8 * n, more));
        // One announced less: what is left of it is no zero bits or more bytes.
        let mut fewer = made.clone();
        fewer.num_ext_blocks = Some(ue(most as u32 - 1));
        let payload = fewer.payload();
        cases += both(compare, &payload.bytes, payload.answer);
        // One more is too many, whatever is there.
        fewer.num_ext_blocks = Some(ue(most as u32 + 1));
        let refusal = too_many(most as u32 + 1);
        cases += refused(compare, &fewer.payload().bytes, refusal);
        if known == 18 {
            // With all the places full, the last of the 254 is one block more.
            let again = rng.pick(&list);
            let mut repeated = made.clone();
            let last = made
                .blocks
                .iter()
                .rposition(|one| is_reserved(one.level))
                .unwrap();
            repeated.blocks.remove(last);
            repeated.blocks.push(block_plan(&again));
            let begins = bits_before(&repeated, most - 1);
            let number = match again {
                Block::Level1 { .. } => 17,
                Block::Level5 { .. } => 18,
                // Its target_max_PQ was met too, and 19 comes first.
                _ => 19,
            };
            let refusal = Refusal::level(number, begins);
            cases += refused(compare, &repeated.payload().bytes, refusal);
            let other = Block::Level2 {
                target_max_pq: 4095 - (list.len() as u16),
                trim_slope: 0,
                trim_offset: 0,
                trim_power: 0,
                trim_chroma_weight: 0,
                trim_saturation_gain: 0,
                ms_weight: 0,
            };
            repeated.blocks.pop();
            repeated.blocks.push(block_plan(&other));
            let refusal = Refusal::level(19, begins);
            cases += refused(compare, &repeated.payload().bytes, refusal);
        }
    }
    cases
}

/// The longest payload that is accepted, of any content, cut and extended, and
/// with one block that is a byte longer.
fn longest(compare: &mut Compare, round: u64) -> u64 {
    compare.begin(format!("the longest payload, round {}", round));
    let mut rng = rng(0xD04, round);
    let content = CONTENTS[round as usize % 3].bytes(&mut rng, MOST_SKIPPED_BYTES as usize);
    let level = reserved_level(&mut rng);
    let list = vec![reserved(level, &content); MOST_ANNOUNCED as usize];
    let mut made = plan_with(list);
    let data = made.payload().bytes;
    assert_eq!(data.len(), LONGEST);
    let none = holding(&[]);
    let mut cases = accepted(compare, &data, &none, MOST_ANNOUNCED as usize);
    for n in [LONGEST - 1, LONGEST - 2, 65_536, 32_768, 8_192] {
        // All of them end inside a content.
        let refusal = Refusal::cut(Element::ExtDmAlignmentZeroBit, 8 * n);
        cases += refused(compare, &data[..n], refusal);
    }
    // This one two bits into the last level, which 253 blocks and a length precede.
    let level_begins = 24 + 253 * (21 + 8 + 8 * 1023) + 21;
    let refusal = Refusal::cut(Element::ExtBlockLevel, level_begins);
    cases += refused(compare, &data[..LONGEST - 1024], refusal);
    for more in [1, 100_000] {
        let longer = [&data[..], &vec![0; more]].concat();
        let refusal = Refusal::left_over(8 * LONGEST, more);
        cases += refused(compare, &longer, refusal);
    }
    // The last two bits are zero bits behind the blocks.
    let mut other = data.clone();
    other[LONGEST - 1] |= 1;
    let refusal = Refusal::one(Element::DmAlignmentZeroBit, 8 * LONGEST - 1);
    cases += refused(compare, &other, refusal);
    // Known blocks in place of the last ones.
    let known = blocks(&mut rng, true, LEVEL_2_BLOCKS, true);
    made.blocks.truncate(MOST_ANNOUNCED as usize - known.len());
    made.blocks.extend(known.iter().map(block_plan));
    let payload = made.payload();
    let data = &payload.bytes;
    let skipped = MOST_ANNOUNCED as usize - known.len();
    cases += accepted(compare, data, &holding(&known), skipped);
    let n = data.len() - 1;
    cases += both(compare, &data[..n], payload.answer_of_cut(n));
    // The last of the reserved ones a byte longer.
    made.blocks[skipped - 1].length = ue(MOST_SKIPPED_BYTES + 1);
    made.blocks[skipped - 1].fields.push((0, 8));
    let begins = bits_before(&made, skipped - 1);
    let refusal = wrong_length(begins, MOST_SKIPPED_BYTES + 1, level);
    cases += refused(compare, &made.payload().bytes, refusal);
    cases
}

/// The payloads with reserved blocks. Gives the number of inputs.
pub fn payloads(compare: &mut Compare, round: u64) -> u64 {
    levels_and_lengths(compare, round)
        + positions(compare, round)
        + flips(compare, round)
        + among(compare, round)
        + counts(compare, round)
        + longest(compare, round)
}
