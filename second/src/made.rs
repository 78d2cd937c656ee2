//! Made inputs. Everything comes from a seed, so a case can be made again.

use crate::plan::{is_reserved, own_length, plan, reserved, ue};
use crate::plan::{Answer, BlockPlan, Code, Payload, Plan, LARGEST};
use crate::reader::{Refusal, WRAPPER};
use crate::record::{flat, Block, Record, EMPTY, FLAT, FLAT_BLOCK, LEVEL_2_BLOCKS, PLACES};
use crate::why::Element;

/// splitmix64
pub struct Rng {
    state: u64,
}

impl Rng {
    pub fn new(seed: u64) -> Rng {
        Rng { state: seed }
    }

    pub fn next(&mut self) -> u64 {
        self.state = self.state.wrapping_add(0x9E37_79B9_7F4A_7C15);
        let mut z = self.state;
        z = (z ^ (z >> 30)).wrapping_mul(0xBF58_476D_1CE4_E5B9);
        z = (z ^ (z >> 27)).wrapping_mul(0x94D0_49BB_1331_11EB);
        z ^ (z >> 31)
    }

    /// From 0 up to n - 1.
    pub fn below(&mut self, n: usize) -> usize {
        (((self.next() >> 32) * n as u64) >> 32) as usize
    }

    /// From low to high, both included.
    pub fn from(&mut self, low: i32, high: i32) -> i32 {
        let span = (high as i64 - low as i64 + 1) as u64;
        (low as i64 + (((self.next() >> 32) * span) >> 32) as i64) as i32
    }

    pub fn one_in(&mut self, n: usize) -> bool {
        self.below(n) == 0
    }

    pub fn pick<T: Copy>(&mut self, list: &[T]) -> T {
        list[self.below(list.len())]
    }

    pub fn shuffle<T>(&mut self, list: &mut [T]) {
        for i in (1..list.len()).rev() {
            list.swap(i, self.below(i + 1));
        }
    }
}

// ---------------------------------------------------------------- records

/// A code of a field, the ends of its range more often than by chance.
fn code(rng: &mut Rng, most: u16) -> u16 {
    match rng.below(16) {
        0 => 0,
        1 => most,
        2 => 1,
        3 => most - 1,
        _ => rng.below(most as usize + 1) as u16,
    }
}

fn level_1(rng: &mut Rng) -> Block {
    let mut three = [code(rng, 4095), code(rng, 4095), code(rng, 4095)];
    match rng.below(8) {
        0 => three[1] = three[0],
        1 => three[2] = three[0],
        2 => three = [three[0]; 3],
        _ => {}
    }
    three.sort_unstable();
    Block::Level1 {
        min_pq: three[0],
        avg_pq: three[1],
        max_pq: three[2],
    }
}

/// A level 2 block whose target_max_PQ none of the blocks before it has.
fn level_2(rng: &mut Rng, before: &[Block]) -> Block {
    let mut target_max_pq = code(rng, 4095);
    while before
        .iter()
        .any(|block| target(block) == Some(target_max_pq))
    {
        target_max_pq = rng.below(4096) as u16;
    }
    Block::Level2 {
        target_max_pq,
        trim_slope: code(rng, 4095),
        trim_offset: code(rng, 4095),
        trim_power: code(rng, 4095),
        trim_chroma_weight: code(rng, 4095),
        trim_saturation_gain: code(rng, 4095),
        ms_weight: match rng.below(8) {
            0 => -1,
            1 => -4096,
            2 => 4095,
            3 => 0,
            _ => rng.from(-4096, 4095) as i16,
        },
    }
}

fn level_5(rng: &mut Rng) -> Block {
    Block::Level5 {
        left: code(rng, 8191),
        right: code(rng, 8191),
        top: code(rng, 8191),
        bottom: code(rng, 8191),
    }
}

fn target(block: &Block) -> Option<u16> {
    match *block {
        Block::Level2 { target_max_pq, .. } => Some(target_max_pq),
        _ => None,
    }
}

fn is_level_1(block: &Block) -> bool {
    matches!(block, Block::Level1 { .. })
}

fn is_level_2(block: &Block) -> bool {
    matches!(block, Block::Level2 { .. })
}

/// Valid blocks of the three levels, in any order: 01 asks for none.
pub fn blocks(rng: &mut Rng, with_1: bool, level_2_blocks: usize, with_5: bool) -> Vec<Block> {
    let mut list = Vec::new();
    if with_1 {
        list.push(level_1(rng));
    }
    for _ in 0..level_2_blocks {
        let block = level_2(rng, &list);
        list.push(block);
    }
    if with_5 {
        list.push(level_5(rng));
    }
    if rng.one_in(3) {
        rng.shuffle(&mut list);
    }
    list
}

/// Mostly few blocks, sometimes many.
fn any_blocks(rng: &mut Rng) -> Vec<Block> {
    let level_2_blocks = match rng.below(40) {
        0..=13 => 0,
        14..=24 => 1,
        25..=33 => 2,
        34..=37 => 3,
        38 => rng.below(LEVEL_2_BLOCKS) + 1,
        _ => LEVEL_2_BLOCKS - rng.below(2),
    };
    let with_1 = !rng.one_in(3);
    let with_5 = rng.one_in(3);
    blocks(rng, with_1, level_2_blocks, with_5)
}

/// At least one block.
fn some_blocks(rng: &mut Rng) -> Vec<Block> {
    loop {
        let list = any_blocks(rng);
        if !list.is_empty() {
            return list;
        }
    }
}

/// The record with the flag 1 that holds these blocks, at most 18.
pub fn holding(list: &[Block]) -> Record {
    let mut record = EMPTY;
    record.refresh = true;
    record.count = list.len() as u8;
    record.places[..list.len()].copy_from_slice(list);
    record
}

/// Any valid record; 1 in 16 has the flag 0.
pub fn record(rng: &mut Rng) -> Record {
    if rng.one_in(16) {
        return EMPTY;
    }
    holding(&any_blocks(rng))
}

/// A valid record with the flag 1 for a point of a track. Most are small, for
/// a track of 64 is judged whole by every call.
pub fn point_record(rng: &mut Rng) -> Record {
    let list = match rng.below(64) {
        0 => blocks(rng, true, LEVEL_2_BLOCKS, true),
        1..=3 => any_blocks(rng),
        4..=15 => Vec::new(),
        16..=39 => blocks(rng, true, 0, false),
        40..=47 => blocks(rng, false, 0, true),
        _ => blocks(rng, true, 1, false),
    };
    holding(&list)
}

// --------------------------------------------------------------- payloads

/// A code with a 32nd zero.
fn long_code(rng: &mut Rng) -> Code {
    Code {
        zeros: rng.pick(&[32, 32, 32, 33, 36, 40, 63, 64]),
        rest: rng.next(),
    }
}

/// A kind of made payload.
#[derive(Clone, Copy, PartialEq, Eq, Debug)]
pub enum Kind {
    Valid,
    Largest,
    Cut,
    Extended,
    WrongLength,
    WrongLengthThenEnd,
    ReservedLevel,
    ReservedLevelAndLength,
    Reserved,
    ReservedCut,
    ReservedTooLong,
    SecondLevel1,
    SecondLevel5,
    SeventeenthLevel2,
    TargetAgain,
    SeventeenthTargetAgain,
    Order,
    OrderOfASecondLevel1,
    FirstZeroBit,
    BlockZeroBit,
    BlockZeroBitAndOrder,
    BlockZeroBitOfASecondLevel1,
    LastZeroBit,
    LastZeroBitAndExtended,
    AppIdentifier,
    AppIdentifierAndVersion,
    AppVersion,
    TooManyBlocks,
    TooManyBlocksAndZeroBit,
    LongCode,
    LongCodeCut,
    BlockMissing,
    BlockTooMany,
    FlagCleared,
    LooseFields,
    SeveralFaults,
    RandomBytes,
}

pub const KINDS: [Kind; 37] = [
    Kind::Valid,
    Kind::Largest,
    Kind::Cut,
    Kind::Extended,
    Kind::WrongLength,
    Kind::WrongLengthThenEnd,
    Kind::ReservedLevel,
    Kind::ReservedLevelAndLength,
    Kind::Reserved,
    Kind::ReservedCut,
    Kind::ReservedTooLong,
    Kind::SecondLevel1,
    Kind::SecondLevel5,
    Kind::SeventeenthLevel2,
    Kind::TargetAgain,
    Kind::SeventeenthTargetAgain,
    Kind::Order,
    Kind::OrderOfASecondLevel1,
    Kind::FirstZeroBit,
    Kind::BlockZeroBit,
    Kind::BlockZeroBitAndOrder,
    Kind::BlockZeroBitOfASecondLevel1,
    Kind::LastZeroBit,
    Kind::LastZeroBitAndExtended,
    Kind::AppIdentifier,
    Kind::AppIdentifierAndVersion,
    Kind::AppVersion,
    Kind::TooManyBlocks,
    Kind::TooManyBlocksAndZeroBit,
    Kind::LongCode,
    Kind::LongCodeCut,
    Kind::BlockMissing,
    Kind::BlockTooMany,
    Kind::FlagCleared,
    Kind::LooseFields,
    Kind::SeveralFaults,
    Kind::RandomBytes,
];

impl Kind {
    /// What 01 and 02 answer to every payload of this kind, where one number is
    /// certain. Where it stands follows from the plan.
    pub fn certain(self) -> Option<u32> {
        match self {
            Kind::Valid | Kind::Largest => Some(0),
            Kind::ReservedLevel | Kind::Reserved => Some(0),
            Kind::Cut | Kind::ReservedCut | Kind::BlockMissing => Some(1),
            Kind::LongCode => Some(2),
            Kind::AppIdentifier | Kind::AppIdentifierAndVersion => Some(4),
            Kind::AppVersion => Some(5),
            Kind::TooManyBlocks | Kind::TooManyBlocksAndZeroBit => Some(6),
            Kind::FirstZeroBit
            | Kind::BlockZeroBit
            | Kind::BlockZeroBitAndOrder
            | Kind::BlockZeroBitOfASecondLevel1
            | Kind::LastZeroBit
            | Kind::LastZeroBitAndExtended => Some(7),
            Kind::WrongLength | Kind::WrongLengthThenEnd | Kind::ReservedTooLong => Some(9),
            Kind::Order | Kind::OrderOfASecondLevel1 => Some(10),
            Kind::TargetAgain => Some(11),
            Kind::Extended => Some(12),
            Kind::SecondLevel1 => Some(17),
            Kind::SecondLevel5 => Some(18),
            Kind::SeventeenthLevel2 | Kind::SeventeenthTargetAgain => Some(19),
            Kind::ReservedLevelAndLength
            | Kind::LongCodeCut
            | Kind::BlockTooMany
            | Kind::FlagCleared
            | Kind::LooseFields
            | Kind::SeveralFaults
            | Kind::RandomBytes => None,
        }
    }
}

/// A length that is not the level's. Lengths of the other levels, their
/// neighbours and the ends of the code come more often.
fn wrong_length(rng: &mut Rng, level: u32) -> u32 {
    let right = own_length(level).unwrap_or(7);
    loop {
        let length = match rng.below(4) {
            0 => rng.pick(&[5, 7, 11]),
            1 => rng.below(24) as u32,
            2 => rng.pick(&[
                0,
                right - 1,
                right + 1,
                255,
                256 + right,
                1023,
                65_534,
                65_536 + right,
                (1 << 31) + right,
                LARGEST,
            ]),
            _ => any_number(rng),
        };
        if length != right {
            return length;
        }
    }
}

/// A level that is not 1, 2 or 5.
pub fn reserved_level(rng: &mut Rng) -> u32 {
    loop {
        let level = match rng.below(3) {
            0 => rng.pick(&[0, 3, 4, 6, 7, 254, 255, 129, 130, 133]),
            _ => rng.below(256) as u32,
        };
        if is_reserved(level) {
            return level;
        }
    }
}

/// Any reserved block; most are small.
fn any_reserved(rng: &mut Rng) -> BlockPlan {
    let n = match rng.below(32) {
        0 => rng.below(301),
        1..=9 => 0,
        10..=13 => rng.pick(&[5, 7, 11]),
        _ => rng.below(21),
    };
    let content = match rng.below(4) {
        0 => vec![0; n],
        1 => vec![0xFF; n],
        _ => random_bytes(rng, n),
    };
    reserved(reserved_level(rng), &content)
}

/// Puts reserved blocks, at least one, at any places among the blocks of the
/// plan, announced with the others.
pub fn put_reserved(rng: &mut Rng, made: &mut Plan) {
    let more = match rng.below(16) {
        0 => rng.below(20) + 1,
        _ => rng.below(3) + 1,
    };
    for _ in 0..more {
        let block = any_reserved(rng);
        made.blocks.insert(rng.below(made.blocks.len() + 1), block);
    }
    made.num_ext_blocks = Some(ue(made.blocks.len() as u32));
}

/// Puts the three numbers of a level 1 block into a wrong order.
fn spoil_order(rng: &mut Rng, block: &mut BlockPlan) {
    // fields: min, max, avg
    loop {
        let mut three: Vec<u32> = block.fields.iter().map(|field| field.0).collect();
        match rng.below(6) {
            0 => three.swap(0, 1),
            1 => three.swap(1, 2),
            2 => three.swap(0, 2),
            3 => three[0] = three[2] + 1, // min just above avg
            4 => three[1] = three[2].wrapping_sub(1), // max just below avg
            _ => {
                for number in three.iter_mut() {
                    *number = rng.below(4096) as u32;
                }
            }
        }
        let fits = three.iter().all(|&number| number <= 4095);
        if fits && !(three[0] <= three[2] && three[2] <= three[1]) {
            for (field, number) in block.fields.iter_mut().zip(three) {
                field.0 = number;
            }
            return;
        }
    }
}

/// A number of ue(v) codes: small, one that ends like a small one, at the ends of
/// 8, 16, 31 and 32 bits, or of any width, up to LARGEST.
fn any_number(rng: &mut Rng) -> u32 {
    match rng.below(4) {
        0 => rng.below(8) as u32,
        1 => {
            let high = rng.pick(&[1 << 8, 1 << 16, 1 << 24, 1 << 31]);
            high + rng.below(12) as u32
        }
        2 => rng.pick(&[
            254,
            255,
            32_766,
            32_767,
            65_533,
            65_534,
            65_535,
            (1 << 31) - 2,
            (1 << 31) - 1,
            LARGEST - 1,
            LARGEST,
        ]),
        _ => (rng.next() as u32 >> rng.below(32)).min(LARGEST),
    }
}

fn wrong_number(rng: &mut Rng, right: u32) -> u32 {
    loop {
        let number = any_number(rng);
        if number != right {
            return number;
        }
    }
}

pub fn random_bytes(rng: &mut Rng, n: usize) -> Vec<u8> {
    (0..n).map(|_| rng.next() as u8).collect()
}

/// At least one byte: zeros, or any.
fn extension(rng: &mut Rng) -> Vec<u8> {
    let n = match rng.below(8) {
        0 => rng.below(300) + 1,
        _ => rng.below(3) + 1,
    };
    if rng.one_in(2) {
        vec![0; n]
    } else {
        random_bytes(rng, n)
    }
}

/// Blocks of which one at least is of level 1.
fn blocks_with_level_1(rng: &mut Rng) -> Vec<Block> {
    loop {
        let list = any_blocks(rng);
        if list.iter().any(is_level_1) {
            return list;
        }
    }
}

/// Blocks with two of level 1; gives the place of the second.
fn blocks_with_two_level_1(rng: &mut Rng) -> (Vec<Block>, usize) {
    let mut list = blocks_with_level_1(rng);
    if list.len() == PLACES {
        let last_level_2 = list.iter().rposition(is_level_2).unwrap();
        list.remove(last_level_2);
    }
    let first = list.iter().position(is_level_1).unwrap();
    let second = first + 1 + rng.below(list.len() - first);
    let block = if rng.one_in(2) {
        list[first]
    } else {
        level_1(rng)
    };
    list.insert(second, block);
    (list, second)
}

/// The plan of one of the kinds whose fault, if there is one, stands in a block of
/// a known level.
pub fn plan_of(kind: Kind, rng: &mut Rng) -> Option<Plan> {
    Some(match kind {
        Kind::Valid => plan(&any_blocks(rng)),
        Kind::Largest => plan(&blocks(rng, true, LEVEL_2_BLOCKS, true)),
        Kind::WrongLength => {
            let mut made = plan(&some_blocks(rng));
            let at = rng.below(made.blocks.len());
            spoil_length(rng, &mut made.blocks[at]);
            made
        }
        Kind::SecondLevel1 => plan(&blocks_with_two_level_1(rng).0),
        Kind::SecondLevel5 => plan(&two_level_5(rng)),
        Kind::SeventeenthLevel2 => plan(&seventeen_level_2(rng)),
        Kind::TargetAgain => plan(&target_again(rng)),
        Kind::SeventeenthTargetAgain => plan(&seventeenth_target_again(rng)),
        Kind::Order => {
            let list = blocks_with_level_1(rng);
            let at = list.iter().position(is_level_1).unwrap();
            let mut made = plan(&list);
            spoil_order(rng, &mut made.blocks[at]);
            made
        }
        Kind::OrderOfASecondLevel1 => {
            let (list, second) = blocks_with_two_level_1(rng);
            let mut made = plan(&list);
            spoil_order(rng, &mut made.blocks[second]);
            made
        }
        Kind::BlockZeroBit => {
            let mut made = plan(&some_blocks(rng));
            let at = rng.below(made.blocks.len());
            made.blocks[at].one = Some(rng.below(840));
            made
        }
        Kind::BlockZeroBitAndOrder => {
            let list = blocks_with_level_1(rng);
            let at = list.iter().position(is_level_1).unwrap();
            let mut made = plan(&list);
            spoil_order(rng, &mut made.blocks[at]);
            made.blocks[at].one = Some(rng.below(840));
            made
        }
        Kind::BlockZeroBitOfASecondLevel1 => {
            let (list, second) = blocks_with_two_level_1(rng);
            let mut made = plan(&list);
            made.blocks[second].one = Some(rng.below(840));
            made
        }
        _ => return None,
    })
}

/// Blocks with two of level 5.
fn two_level_5(rng: &mut Rng) -> Vec<Block> {
    let with_1 = rng.one_in(2);
    let level_2_blocks = rng.below(4);
    let mut list = blocks(rng, with_1, level_2_blocks, true);
    let first = list
        .iter()
        .position(|block| matches!(block, Block::Level5 { .. }))
        .unwrap();
    let second = first + 1 + rng.below(list.len() - first);
    let block = if rng.one_in(2) {
        list[first]
    } else {
        level_5(rng)
    };
    list.insert(second, block);
    list
}

/// A valid payload, sometimes with the flag 0.
fn valid_plan(rng: &mut Rng) -> Plan {
    let mut made = plan(&any_blocks(rng));
    if rng.one_in(32) {
        made = plan(&[]);
        made.refresh = false;
        made.num_ext_blocks = None;
    }
    made
}

/// A valid payload with reserved blocks.
fn reserved_plan(rng: &mut Rng) -> Plan {
    let mut made = plan(&any_blocks(rng));
    put_reserved(rng, &mut made);
    made
}

/// The payload without its last bytes, of which one at least is missing.
fn any_cut(rng: &mut Rng, made: Payload) -> Payload {
    let n = rng.below(made.bytes.len());
    made.cut(n)
}

/// A payload of the kind. What its plan says that it must get has to be what the kind
/// says.
pub fn payload(kind: Kind, rng: &mut Rng) -> Payload {
    let made = payload_of(kind, rng);
    if let Some(number) = kind.certain() {
        assert_eq!(made.answer.number(), Some(number), "{:?}", kind);
    }
    made
}

fn payload_of(kind: Kind, rng: &mut Rng) -> Payload {
    match kind {
        Kind::Valid => valid_plan(rng).payload(),
        Kind::Cut => {
            let made = valid_plan(rng).payload();
            any_cut(rng, made)
        }
        Kind::Extended => {
            let mut made = valid_plan(rng);
            made.rest = extension(rng);
            made.payload()
        }
        Kind::WrongLengthThenEnd => {
            // Ends within or just after the level's byte boundary: 9 comes
            // before the first field can be missing.
            let mut made = plan(&some_blocks(rng));
            let at = rng.below(made.blocks.len());
            spoil_length(rng, &mut made.blocks[at]);
            made.blocks.truncate(at + 1);
            made.blocks[at].fields.clear();
            made.blocks[at].zeros = 0;
            made.payload()
        }
        Kind::ReservedLevel => {
            // The fields of a known level behind a reserved one.
            let mut made = plan(&some_blocks(rng));
            let at = rng.below(made.blocks.len());
            made.blocks[at].level = reserved_level(rng);
            made.payload()
        }
        Kind::ReservedLevelAndLength => {
            // What follows begins inside or behind what stands there.
            let mut made = plan(&some_blocks(rng));
            let at = rng.below(made.blocks.len());
            spoil_length(rng, &mut made.blocks[at]);
            made.blocks[at].level = reserved_level(rng);
            if rng.one_in(4) {
                made.blocks.truncate(at + 1);
                made.blocks[at].fields.clear();
                made.blocks[at].zeros = 0;
            }
            made.payload()
        }
        Kind::Reserved => reserved_plan(rng).payload(),
        Kind::ReservedCut => {
            let made = reserved_plan(rng).payload();
            any_cut(rng, made)
        }
        Kind::ReservedTooLong => {
            // 9 comes before the content, whether that is there or not.
            let mut made = reserved_plan(rng);
            let places: Vec<usize> = (0..made.blocks.len())
                .filter(|&i| is_reserved(made.blocks[i].level))
                .collect();
            let at = rng.pick(&places);
            made.blocks[at].length = ue(match rng.below(3) {
                0 => 1024,
                1 => rng.pick(&[1025, 2046, 2047, 65_534, 65_536, 1024 + 256]),
                _ => any_number(rng).max(1024),
            });
            if rng.one_in(2) {
                made.blocks.truncate(at + 1);
                made.blocks[at].fields.clear();
            }
            made.payload()
        }
        Kind::FirstZeroBit => loop {
            let mut made = plan(&some_blocks(rng));
            made.first_one = Some(rng.below(840));
            // Where there are no zero bits, none is wrong.
            let made = made.payload();
            if made.answer.number() == Some(7) {
                return made;
            }
        },
        Kind::LastZeroBit | Kind::LastZeroBitAndExtended => loop {
            let mut made = plan(&any_blocks(rng));
            made.last_one = Some(rng.below(840));
            if kind == Kind::LastZeroBitAndExtended {
                made.rest = extension(rng);
            }
            let made = made.payload();
            if made.answer.number() == Some(7) {
                return made;
            }
        },
        Kind::AppIdentifier => {
            let mut made = plan(&any_blocks(rng));
            made.app_identifier = ue(wrong_number(rng, 1));
            made.payload()
        }
        Kind::AppIdentifierAndVersion => {
            let mut made = plan(&any_blocks(rng));
            made.app_identifier = ue(wrong_number(rng, 1));
            made.app_version = ue(wrong_number(rng, 0));
            made.payload()
        }
        Kind::AppVersion => {
            let mut made = plan(&any_blocks(rng));
            made.app_version = ue(wrong_number(rng, 0));
            made.payload()
        }
        Kind::TooManyBlocks | Kind::TooManyBlocksAndZeroBit => {
            let mut made = plan(&some_blocks(rng));
            let number = match rng.below(3) {
                0 => 255,
                1 => 255 + rng.below(12) as u32,
                _ => any_number(rng).max(255),
            };
            made.num_ext_blocks = Some(ue(number));
            if kind == Kind::TooManyBlocksAndZeroBit {
                made.first_one = Some(rng.below(840));
            }
            made.payload()
        }
        Kind::LongCode => with_long_code(rng).payload(),
        Kind::LongCodeCut => {
            let made = with_long_code(rng).payload();
            let n = rng.below(made.bytes.len().min(16)) + 1;
            made.cut(n)
        }
        Kind::BlockMissing => {
            let mut list = any_blocks(rng);
            list.truncate(PLACES - 1);
            let mut made = plan(&list);
            let most = if rng.one_in(2) { PLACES } else { 254 };
            let announced = list.len() + 1 + rng.below(most - list.len());
            made.num_ext_blocks = Some(ue(announced as u32));
            made.payload()
        }
        Kind::BlockTooMany => {
            let mut made = plan(&some_blocks(rng));
            let announced = rng.below(made.blocks.len());
            made.num_ext_blocks = Some(ue(announced as u32));
            made.payload()
        }
        Kind::FlagCleared => {
            let mut made = plan(&any_blocks(rng));
            made.refresh = false;
            if rng.one_in(2) {
                made.num_ext_blocks = None;
            }
            made.payload()
        }
        Kind::LooseFields => {
            // Right lengths and levels; the fields are any bits, and a level
            // may come again.
            let n = match rng.below(8) {
                0 => rng.below(PLACES) + 1,
                _ => rng.below(3) + 1,
            };
            let mut list = Vec::new();
            for _ in 0..n {
                list.push(match rng.below(3) {
                    0 => level_1(rng),
                    1 => level_2(rng, &[]),
                    _ => level_5(rng),
                });
            }
            let mut made = plan(&list);
            for block in made.blocks.iter_mut() {
                for field in block.fields.iter_mut() {
                    if !rng.one_in(3) {
                        field.0 = rng.next() as u32 & ((1 << field.1) - 1);
                    }
                }
            }
            made.payload()
        }
        Kind::SeveralFaults => several_faults(rng),
        Kind::RandomBytes => {
            let n = match rng.below(8) {
                0 => rng.below(260),
                _ => rng.below(20),
            };
            let mut bytes = random_bytes(rng, n);
            // By chance few get past the header; some are helped past it.
            if n > 2 && rng.one_in(2) {
                bytes[0] = rng.pick(&[0x5A, 0x5B, 0x59]);
                if rng.one_in(2) {
                    bytes[1..3].copy_from_slice(&rng.pick(&[
                        [0x30, 0x08],
                        [0x18, 0x10],
                        [0x10, 0x0A],
                    ]));
                }
            }
            Payload::of_bytes(bytes)
        }
        _ => plan_of(kind, rng).unwrap().payload(),
    }
}

fn spoil_length(rng: &mut Rng, block: &mut BlockPlan) {
    let length = wrong_length(rng, block.level);
    block.length = ue(length);
    // A reader that goes on by the length finds as many bits as it expects.
    let field_bits: u32 = block.fields.iter().map(|field| field.1).sum();
    if length <= 40 && rng.one_in(2) {
        block.zeros = (8 * length).saturating_sub(field_bits) as usize;
    }
}

fn with_long_code(rng: &mut Rng) -> Plan {
    let mut made = plan(&some_blocks(rng));
    let code = long_code(rng);
    match rng.below(4) {
        0 => made.app_identifier = code,
        1 => made.app_version = code,
        2 => made.num_ext_blocks = Some(code),
        _ => {
            let at = rng.below(made.blocks.len());
            made.blocks[at].length = code;
        }
    }
    made
}

/// 17 blocks of level 2 with different targets, and at most one other block.
fn seventeen_level_2(rng: &mut Rng) -> Vec<Block> {
    let other = rng.below(3);
    let mut list = blocks(rng, other == 1, LEVEL_2_BLOCKS, other == 2);
    let last = list.iter().rposition(is_level_2).unwrap();
    let block = level_2(rng, &list);
    let at = last + 1 + rng.below(list.len() - last);
    list.insert(at, block);
    list
}

/// At most 16 blocks of level 2, of which a later one has the target of an
/// earlier one.
fn target_again(rng: &mut Rng) -> Vec<Block> {
    let level_2_blocks = if rng.one_in(8) {
        LEVEL_2_BLOCKS
    } else {
        rng.below(4) + 2
    };
    let with_1 = rng.one_in(2);
    let with_5 = rng.one_in(2);
    let mut list = blocks(rng, with_1, level_2_blocks, with_5);
    let later = 1 + rng.below(level_2_blocks - 1);
    repeat_target(rng, &mut list, later);
    list
}

/// 17 blocks of level 2, of which the last has the target of an earlier one.
fn seventeenth_target_again(rng: &mut Rng) -> Vec<Block> {
    let mut list = seventeen_level_2(rng);
    repeat_target(rng, &mut list, LEVEL_2_BLOCKS);
    list
}

/// Gives the block of level 2 that has so many of them before it the target of one
/// of those.
fn repeat_target(rng: &mut Rng, list: &mut [Block], later: usize) {
    let places: Vec<usize> = (0..list.len()).filter(|&i| is_level_2(&list[i])).collect();
    let again = target(&list[places[rng.below(later)]]).unwrap();
    if let Block::Level2 { target_max_pq, .. } = &mut list[places[later]] {
        *target_max_pq = again;
    }
}

/// Two to four faults in one plan, at any places, then perhaps a cut.
fn several_faults(rng: &mut Rng) -> Payload {
    let mut made = plan(&some_blocks(rng));
    for _ in 0..rng.below(3) + 2 {
        let at = rng.below(made.blocks.len());
        match rng.below(14) {
            0 => {
                let level = reserved_level(rng);
                made.blocks[at].level = level;
            }
            1 => spoil_length(rng, &mut made.blocks[at]),
            2 => made.blocks[at].one = Some(rng.below(840)),
            3 => made.first_one = Some(rng.below(840)),
            4 => made.last_one = Some(rng.below(840)),
            5 => made.rest = extension(rng),
            6 => {
                if let Some(block) = made.blocks.iter_mut().find(|block| block.level == 1) {
                    if block.fields.len() == 3 {
                        spoil_order(rng, block);
                    }
                }
            }
            7 => {
                let again = made.blocks[at].clone();
                made.blocks.push(again);
                made.num_ext_blocks = Some(ue(made.blocks.len() as u32));
            }
            8 => {
                if rng.one_in(4) {
                    made.app_version = ue(wrong_number(rng, 0));
                }
            }
            9 => {
                let most = rng.pick(&[24, 24, 24, 300]);
                made.num_ext_blocks = Some(ue(rng.below(most) as u32));
            }
            10 => {
                if rng.one_in(4) {
                    made.blocks[at].length = long_code(rng);
                }
            }
            11 => made.refresh = !rng.one_in(4),
            12 => put_reserved(rng, &mut made),
            _ => made.blocks[at].fields.truncate(2),
        }
    }
    let made = made.payload();
    let n = made.bytes.len();
    let left = if rng.one_in(2) { rng.below(n + 1) } else { n };
    made.cut(left)
}

/// A kind of made wrapper.
#[derive(Clone, Copy, PartialEq, Eq, Debug)]
pub enum WrapperKind {
    Whole,
    OneByteDiffers,
    ByteDiffersThenEnd,
    Cut,
    Alone,
}

pub const WRAPPER_KINDS: [WrapperKind; 5] = [
    WrapperKind::Whole,
    WrapperKind::OneByteDiffers,
    WrapperKind::ByteDiffersThenEnd,
    WrapperKind::Cut,
    WrapperKind::Alone,
];

/// The data behind a wrapper of the kind, and what that must get: behind the whole
/// wrapper what the data must get.
pub fn wrapped(kind: WrapperKind, data: &Payload, rng: &mut Rng) -> (Vec<u8>, Answer) {
    let mut bytes = WRAPPER.to_vec();
    let answer = match kind {
        WrapperKind::Whole => {
            bytes.extend_from_slice(&data.bytes);
            data.answer
        }
        WrapperKind::OneByteDiffers => {
            bytes.extend_from_slice(&data.bytes);
            let at = spoil_wrapper(rng, &mut bytes);
            Answer::Refused(Refusal::wrapper_byte(at, bytes[at]))
        }
        WrapperKind::ByteDiffersThenEnd => {
            let at = spoil_wrapper(rng, &mut bytes);
            bytes.truncate(at + 1 + rng.below(WRAPPER.len() - at));
            Answer::Refused(Refusal::wrapper_byte(at, bytes[at]))
        }
        WrapperKind::Cut => {
            let n = rng.below(WRAPPER.len());
            bytes.truncate(n);
            Answer::Refused(Refusal::wrapper_cut(n))
        }
        // The wrapper is whole, and the data is missing.
        WrapperKind::Alone => Answer::Refused(Refusal::cut(Element::AppIdentifier, 0)),
    };
    (bytes, answer)
}

fn spoil_wrapper(rng: &mut Rng, bytes: &mut [u8]) -> usize {
    let at = rng.below(WRAPPER.len());
    bytes[at] ^= if rng.one_in(2) {
        1 << rng.below(8)
    } else {
        (rng.below(255) + 1) as u8
    };
    at
}

// ----------------------------------------------------------- flat records

/// A kind of made flat record.
#[derive(Clone, Copy, PartialEq, Eq, Debug)]
pub enum FlatKind {
    Valid,
    Refresh,
    CountAbove18,
    CountNoByte,
    CountLess,
    CountMore,
    Hole,
    BlockPastTheCount,
    Flag0WithBlocks,
    Flag0WithBlocksPastTheCount,
    Flag0WithACount,
    Level,
    LevelThatLooksRight,
    FieldAbove,
    FieldNoU16,
    MsWeightOutside,
    MsWeightNoI16,
    Unused,
    SecondLevel1,
    SecondLevel5,
    SeventeenLevel2,
    TargetAgain,
    Order,
    AnyNumber,
}

pub const FLAT_KINDS: [FlatKind; 24] = [
    FlatKind::Valid,
    FlatKind::Refresh,
    FlatKind::CountAbove18,
    FlatKind::CountNoByte,
    FlatKind::CountLess,
    FlatKind::CountMore,
    FlatKind::Hole,
    FlatKind::BlockPastTheCount,
    FlatKind::Flag0WithBlocks,
    FlatKind::Flag0WithBlocksPastTheCount,
    FlatKind::Flag0WithACount,
    FlatKind::Level,
    FlatKind::LevelThatLooksRight,
    FlatKind::FieldAbove,
    FlatKind::FieldNoU16,
    FlatKind::MsWeightOutside,
    FlatKind::MsWeightNoI16,
    FlatKind::Unused,
    FlatKind::SecondLevel1,
    FlatKind::SecondLevel5,
    FlatKind::SeventeenLevel2,
    FlatKind::TargetAgain,
    FlatKind::Order,
    FlatKind::AnyNumber,
];

impl FlatKind {
    /// Whether every flat record of this kind is valid, none is, or either.
    pub fn certain(self) -> Option<bool> {
        match self {
            FlatKind::Valid => Some(true),
            FlatKind::AnyNumber => None,
            _ => Some(false),
        }
    }
}

/// Where place i begins in a flat record.
fn place(i: usize) -> usize {
    2 + FLAT_BLOCK * i
}

/// How many fields a level has.
fn fields(level: i32) -> usize {
    match level {
        1 => 3,
        2 => 7,
        5 => 4,
        _ => 0,
    }
}

/// A number that one byte or one pair of bytes cannot hold, but whose low byte
/// or pair is that of `number`.
fn with_same_low_bits(rng: &mut Rng, number: i32, bits: u32) -> i32 {
    let step = 1i32 << bits;
    match rng.below(5) {
        0 => number.wrapping_add(step),
        1 => number.wrapping_sub(step),
        2 => number.wrapping_add(step.wrapping_mul(rng.from(1, 0x7FFF))),
        3 => number ^ i32::MIN,
        _ => number.wrapping_add(1 << 30),
    }
}

/// A place that holds a block of the level, in a record made for it.
fn record_with(rng: &mut Rng, level: i32) -> ([i32; FLAT], usize) {
    let level_2_blocks = rng.below(3) + (level == 2) as usize;
    let with_1 = level == 1 || rng.one_in(2);
    let with_5 = level == 5 || rng.one_in(2);
    let numbers = flat(&holding(&blocks(rng, with_1, level_2_blocks, with_5)));
    let places: Vec<usize> = (0..PLACES)
        .filter(|&i| numbers[place(i)] == level)
        .collect();
    let at = rng.pick(&places);
    (numbers, at)
}

/// A flat record of the kind.
pub fn flat_record(kind: FlatKind, rng: &mut Rng) -> [i32; FLAT] {
    match kind {
        FlatKind::Valid => flat(&record(rng)),
        FlatKind::Refresh => {
            let mut numbers = flat(&record(rng));
            numbers[0] = match rng.below(3) {
                0 => 2,
                1 => rng.pick(&[-1, 3, 255, 256, 257, 65_536, i32::MAX, i32::MIN]),
                _ => with_same_low_bits(rng, numbers[0], 8),
            };
            numbers
        }
        FlatKind::CountAbove18 => {
            let mut numbers = flat(&holding(&any_blocks(rng)));
            if rng.one_in(4) {
                let list = blocks(rng, true, LEVEL_2_BLOCKS, true);
                numbers = flat(&holding(&list));
            }
            numbers[1] = rng.pick(&[19, 20, 32, 127, 128, 254, 255]);
            numbers
        }
        FlatKind::CountNoByte => {
            let mut numbers = flat(&record(rng));
            numbers[1] = match rng.below(3) {
                0 => rng.pick(&[-1, 256, 257, i32::MAX, i32::MIN]),
                _ => with_same_low_bits(rng, numbers[1], 8),
            };
            numbers
        }
        FlatKind::CountLess => {
            let list = some_blocks(rng);
            let mut numbers = flat(&holding(&list));
            numbers[1] = rng.below(list.len()) as i32;
            numbers
        }
        FlatKind::CountMore => {
            let mut list = any_blocks(rng);
            list.truncate(PLACES - 1);
            let mut numbers = flat(&holding(&list));
            numbers[1] = rng.from(list.len() as i32 + 1, PLACES as i32);
            numbers
        }
        FlatKind::Hole => {
            let mut numbers = flat(&holding(&some_blocks(rng)));
            let count = numbers[1] as usize;
            let at = place(rng.below(count));
            numbers[at..at + FLAT_BLOCK].fill(0);
            numbers
        }
        FlatKind::BlockPastTheCount => {
            let mut list = any_blocks(rng);
            list.retain(is_level_2);
            list.truncate(LEVEL_2_BLOCKS);
            let mut numbers = flat(&holding(&list));
            let at = place(list.len() + rng.below(PLACES - list.len()));
            let block = if rng.one_in(2) {
                level_1(rng)
            } else {
                level_5(rng)
            };
            numbers[at..at + FLAT_BLOCK].copy_from_slice(&crate::record::block_to_flat(&block));
            numbers
        }
        FlatKind::Flag0WithBlocks => {
            let mut numbers = flat(&holding(&some_blocks(rng)));
            numbers[0] = 0;
            numbers
        }
        FlatKind::Flag0WithBlocksPastTheCount => {
            let mut numbers = flat(&holding(&some_blocks(rng)));
            numbers[0] = 0;
            numbers[1] = 0;
            numbers
        }
        FlatKind::Flag0WithACount => {
            let mut numbers = flat(&EMPTY);
            numbers[1] = rng.pick(&[1, 2, 17, 18, 19, 255]);
            numbers
        }
        FlatKind::Level => {
            let level = rng.pick(&[1, 2, 5]);
            let (mut numbers, at) = record_with(rng, level);
            numbers[place(at)] = match rng.below(3) {
                0 => 3,
                1 => rng.pick(&[4, 6, 7, 10, 255, -1, -2, -5]),
                _ => reserved_level(rng).max(3) as i32,
            };
            numbers
        }
        FlatKind::LevelThatLooksRight => {
            let level = rng.pick(&[1, 2, 5]);
            let (mut numbers, at) = record_with(rng, level);
            let bits = rng.pick(&[8, 16]);
            numbers[place(at)] = with_same_low_bits(rng, level, bits);
            if rng.one_in(4) {
                // Nothing, with bits above the low ones.
                let last = place(PLACES - 1);
                numbers = flat(&holding(&[]));
                numbers[last] = with_same_low_bits(rng, 0, bits);
            }
            numbers
        }
        FlatKind::FieldAbove => {
            let level = rng.pick(&[1, 2, 5]);
            let (mut numbers, at) = record_with(rng, level);
            let fields = if level == 2 { 6 } else { fields(level) };
            let most = if level == 5 { 8191 } else { 4095 };
            let at = place(at) + 1 + rng.below(fields);
            numbers[at] = match rng.below(3) {
                0 => most + 1,
                1 => rng.pick(&[16_384, 32_767, 32_768, 65_535, most + 2]),
                _ => rng.from(most + 1, 65_535),
            };
            numbers
        }
        FlatKind::FieldNoU16 => {
            let level = rng.pick(&[1, 2, 5]);
            let (mut numbers, at) = record_with(rng, level);
            let fields = if level == 2 { 6 } else { fields(level) };
            let at = place(at) + 1 + rng.below(fields);
            numbers[at] = match rng.below(3) {
                0 => rng.pick(&[-1, 65_536, i32::MAX, i32::MIN]),
                _ => with_same_low_bits(rng, numbers[at], 16),
            };
            numbers
        }
        FlatKind::MsWeightOutside => {
            let (mut numbers, at) = record_with(rng, 2);
            numbers[place(at) + 7] = match rng.below(4) {
                0 => rng.pick(&[4096, -4097]),
                1 => rng.pick(&[8191, 32_767, -32_768, -8192]),
                2 => rng.from(4096, 32_767),
                _ => rng.from(-32_768, -4097),
            };
            numbers
        }
        FlatKind::MsWeightNoI16 => {
            let (mut numbers, at) = record_with(rng, 2);
            let at = place(at) + 7;
            numbers[at] = match rng.below(3) {
                0 => rng.pick(&[32_768, -32_769, 65_535, 61_440, i32::MAX, i32::MIN]),
                _ => with_same_low_bits(rng, numbers[at], 16),
            };
            numbers
        }
        FlatKind::Unused => {
            let level = rng.pick(&[0, 1, 5]);
            let (mut numbers, at) = if level == 0 {
                let numbers = flat(&record(rng));
                let count = numbers[1] as usize;
                if count == PLACES {
                    record_with(rng, 1)
                } else {
                    (numbers, count + rng.below(PLACES - count))
                }
            } else {
                record_with(rng, level)
            };
            let first = 1 + fields(numbers[place(at)]);
            let at = place(at) + first + rng.below(FLAT_BLOCK - first);
            numbers[at] = match rng.below(3) {
                0 => 1,
                1 => rng.pick(&[-1, 65_536, 1 << 30, i32::MIN, 256]),
                _ => rng.next() as i32 | 1,
            };
            numbers
        }
        FlatKind::SecondLevel1 => flat(&holding(&blocks_with_two_level_1(rng).0)),
        FlatKind::SecondLevel5 => {
            let with_1 = rng.one_in(2);
            let level_2_blocks = rng.below(4);
            let mut list = blocks(rng, with_1, level_2_blocks, true);
            let block = level_5(rng);
            let at = rng.below(list.len() + 1);
            list.insert(at, block);
            flat(&holding(&list))
        }
        FlatKind::SeventeenLevel2 => {
            let mut list = seventeen_level_2(rng);
            if list.len() < PLACES && rng.one_in(2) {
                let block = level_2(rng, &list);
                list.push(block);
            }
            flat(&holding(&list))
        }
        FlatKind::TargetAgain => flat(&holding(&target_again(rng))),
        FlatKind::Order => {
            let (mut numbers, at) = record_with(rng, 1);
            let at = place(at);
            let mut block = BlockPlan {
                length: ue(5),
                level: 1,
                fields: (1..4).map(|i| (numbers[at + i] as u32, 12)).collect(),
                zeros: 0,
                one: None,
            };
            spoil_order(rng, &mut block);
            for i in 0..3 {
                numbers[at + 1 + i] = block.fields[i].0 as i32;
            }
            numbers
        }
        FlatKind::AnyNumber => {
            let mut numbers = flat(&record(rng));
            for _ in 0..rng.below(2) + 1 {
                let used = place(numbers[1].clamp(0, PLACES as i32 - 1) as usize + 1);
                let at = if rng.one_in(4) {
                    rng.below(FLAT)
                } else {
                    rng.below(used)
                };
                numbers[at] = match rng.below(5) {
                    0 => numbers[at] ^ (1 << rng.below(32)),
                    1 => numbers[at].wrapping_add(rng.from(-2, 2)),
                    2 => rng.from(0, 8192),
                    3 => rng.pick(&[
                        -1, 0, 1, 2, 3, 5, 18, 19, 255, 256, 4095, 4096, 8191, 8192, -4096, -4097,
                        32_767, 32_768, -32_768, -32_769, 65_535, 65_536,
                    ]),
                    _ => rng.next() as i32,
                };
            }
            numbers
        }
    }
}

// --------------------------------------------------------- picture numbers

/// n different picture numbers in rising order; the ends of i32 are among
/// them more often than by chance.
pub fn pictures(rng: &mut Rng, n: usize) -> Vec<i32> {
    let (low, high) = match rng.below(6) {
        0 => (i32::MIN, i32::MIN + 2 * n as i32 + 4),
        1 => (i32::MAX - 2 * n as i32 - 4, i32::MAX),
        2 => (i32::MIN, i32::MAX),
        3 => (-(n as i32), n as i32 + 4),
        4 => (0, n as i32 + 2),
        _ => {
            let base = rng.from(-2_000_000_000, 2_000_000_000);
            (base, base + 40 * n as i32 + 4)
        }
    };
    let mut numbers: Vec<i32> = Vec::new();
    if n >= 2 && rng.one_in(3) {
        numbers.push(i32::MIN);
        numbers.push(i32::MAX);
    }
    while numbers.len() < n {
        let number = rng.from(low, high);
        if !numbers.contains(&number) {
            numbers.push(number);
        }
    }
    numbers.sort_unstable();
    numbers
}

// --------------------------------------------------------- segment numbers

/// A segment number; 0, 1 and 65,535 more often than by chance.
pub fn segment(rng: &mut Rng) -> u16 {
    match rng.below(8) {
        0 => 0,
        1 => 1,
        2 => u16::MAX,
        3 => rng.from(0, 20) as u16,
        _ => rng.next() as u16,
    }
}

/// Another segment number, often one that differs in one bit.
pub fn other_segment(rng: &mut Rng, segment: u16) -> u16 {
    match rng.below(4) {
        0 if segment != 0 => 0,
        1 => segment.wrapping_add(rng.pick(&[1, u16::MAX])),
        2 => segment ^ rng.from(1, 65_535) as u16,
        _ => segment ^ (1 << rng.below(16)),
    }
}

/// Numbers that are no segment's: below 0, above 65,535, and such as look like one in
/// their low 16 bits.
pub const NO_SEGMENTS: [i32; 10] = [
    -1,
    65_536,
    65_536 + 5,
    131_071,
    -65_536,
    -65_535,
    1 << 30,
    i32::MIN,
    i32::MIN + 7,
    i32::MAX,
];

/// A number that is no segment's. Some have this segment in their low 16 bits.
pub fn no_segment(rng: &mut Rng, segment: u16) -> i32 {
    match rng.below(4) {
        0 => rng.pick(&NO_SEGMENTS),
        1 => rng.from(65_536, i32::MAX),
        2 => rng.from(i32::MIN, -1),
        _ => with_same_low_bits(rng, segment as i32, 16),
    }
}
