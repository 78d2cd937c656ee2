//! Plans of payloads: the elements of 01's syntax one after the other, each of which
//! can be made wrong. A plan has its own bit writer, for it has to write what
//! `writer.rs` must never write. The writer notes where each element begins and what
//! is the first thing wrong, so what a payload must get, where (02, e) and why (02, f),
//! follows from its plan and not from reading it.

use crate::reader::Refusal;
use crate::record::{Block, LEVEL_2_BLOCKS};
use crate::why::{Element, Told, LEVEL_1, LEVEL_2, LEVEL_5};

/// "Up to 254 blocks may be announced", and a reserved block is skipped "up to
/// 1,023 bytes" (02, b).
pub const MOST_ANNOUNCED: u32 = 254;
pub const MOST_SKIPPED_BYTES: u32 = 1023;

/// The largest number of a ue(v) code: 31 zeros, a one, 31 ones.
pub const LARGEST: u32 = u32::MAX - 1;

/// A ue(v) code by its parts: `zeros` zeros, a one, then as many bits of
/// `rest`, at most 64.
#[derive(Clone, Copy)]
pub struct Code {
    pub zeros: u32,
    pub rest: u64,
}

/// The code of a number up to LARGEST.
pub fn ue(number: u32) -> Code {
    let next = number as u64 + 1;
    let mut zeros = 0;
    while next >= 2 << zeros {
        zeros += 1;
    }
    Code {
        zeros,
        rest: next - (1 << zeros),
    }
}

impl Code {
    /// The number; of a code with a 32nd zero, which has none, one that no place allows.
    fn number(self) -> u64 {
        if self.zeros > 31 {
            return u64::MAX;
        }
        (1 << self.zeros) - 1 + self.rest
    }
}

/// A block of a plan. `one` makes one of its zero bits a one. The content of a
/// reserved block stands in `fields` too, byte by byte.
#[derive(Clone)]
pub struct BlockPlan {
    pub length: Code,
    pub level: u32,
    pub fields: Vec<(u32, u32)>, // value, width
    pub zeros: usize,
    pub one: Option<usize>,
}

#[derive(Clone)]
pub struct Plan {
    pub app_identifier: Code,
    pub app_version: Code,
    pub refresh: bool,
    /// Some where `refresh` is set.
    pub num_ext_blocks: Option<Code>,
    /// Makes one of the zero bits before the first block a one.
    pub first_one: Option<usize>,
    pub blocks: Vec<BlockPlan>,
    /// Makes one of the zero bits at the end a one.
    pub last_one: Option<usize>,
    /// Bytes after the data.
    pub rest: Vec<u8>,
}

/// A reserved block with this content.
pub fn reserved(level: u32, content: &[u8]) -> BlockPlan {
    BlockPlan {
        length: ue(content.len() as u32),
        level,
        fields: content.iter().map(|&byte| (byte as u32, 8)).collect(),
        zeros: 0,
        one: None,
    }
}

/// The one length of a known level.
pub fn own_length(level: u32) -> Option<u32> {
    match level {
        1 => Some(5),
        2 => Some(11),
        5 => Some(7),
        _ => None,
    }
}

/// The lowest and the highest length of a level.
pub fn lengths(level: u32) -> (u32, u32) {
    match own_length(level) {
        Some(own) => (own, own),
        None => (0, MOST_SKIPPED_BYTES),
    }
}

/// The length of the block that begins at this bit is not one of its level.
pub fn wrong_length(begins: usize, length: u32, level: u32) -> Refusal {
    let allowed = lengths(level);
    Refusal::outside(9, Element::ExtBlockLength, begins, length as u64, allowed)
}

/// num_ext_blocks, which always begins at bit 5, is above 254.
pub fn too_many(announced: u32) -> Refusal {
    let allowed = (0, MOST_ANNOUNCED);
    Refusal::outside(6, Element::NumExtBlocks, 5, announced as u64, allowed)
}

/// The name of a level's i-th field. What stands in a block of another level, or behind
/// its fields, is no field of A/341's.
fn field_of(level: u32, i: usize) -> Element {
    let fields: &[Element] = match level {
        1 => &LEVEL_1,
        2 => &LEVEL_2,
        5 => &LEVEL_5,
        _ => &[],
    };
    fields
        .get(i)
        .copied()
        .unwrap_or(Element::ExtDmAlignmentZeroBit)
}

pub fn is_reserved(level: u32) -> bool {
    own_length(level).is_none()
}

pub fn block_plan(block: &Block) -> BlockPlan {
    let (length, level, fields): (u32, u32, Vec<(u32, u32)>) = match *block {
        Block::Nothing => (0, 0, Vec::new()),
        Block::Level1 {
            min_pq,
            max_pq,
            avg_pq,
        } => (
            5,
            1,
            vec![
                (min_pq as u32, 12),
                (max_pq as u32, 12),
                (avg_pq as u32, 12),
            ],
        ),
        Block::Level2 {
            target_max_pq,
            trim_slope,
            trim_offset,
            trim_power,
            trim_chroma_weight,
            trim_saturation_gain,
            ms_weight,
        } => (
            11,
            2,
            vec![
                (target_max_pq as u32, 12),
                (trim_slope as u32, 12),
                (trim_offset as u32, 12),
                (trim_power as u32, 12),
                (trim_chroma_weight as u32, 12),
                (trim_saturation_gain as u32, 12),
                (ms_weight as i32 as u32 & 0x1FFF, 13),
            ],
        ),
        Block::Level5 {
            left,
            right,
            top,
            bottom,
        } => (
            7,
            5,
            vec![
                (left as u32, 13),
                (right as u32, 13),
                (top as u32, 13),
                (bottom as u32, 13),
            ],
        ),
    };
    let field_bits: u32 = fields.iter().map(|field| field.1).sum();
    BlockPlan {
        length: ue(length),
        level,
        fields,
        zeros: (8 * length - field_bits) as usize,
        one: None,
    }
}

pub fn plan(list: &[Block]) -> Plan {
    plan_with(list.iter().map(block_plan).collect())
}

/// A plan of any blocks.
pub fn plan_with(blocks: Vec<BlockPlan>) -> Plan {
    Plan {
        app_identifier: ue(1),
        app_version: ue(0),
        refresh: true,
        num_ext_blocks: Some(ue(blocks.len() as u32)),
        first_one: None,
        blocks,
        last_one: None,
        rest: Vec::new(),
    }
}

/// What an input must get, as far as the way in which it is made tells.
#[derive(Clone, Copy, PartialEq, Eq, Debug)]
pub enum Answer {
    Accepted,
    Refused(Refusal),
    Unknown,
}

impl Answer {
    /// The result number, where it is known.
    pub fn number(self) -> Option<u32> {
        match self {
            Answer::Accepted => Some(0),
            Answer::Refused(refusal) => Some(refusal.number),
            Answer::Unknown => None,
        }
    }
}

/// What bits of a payload are: one element together, or each an element by itself.
/// "Each padding bit is its own element, and so is each skipped bit" (02, e).
#[derive(Clone, Copy, PartialEq, Eq)]
enum What {
    Element,
    ZeroBits,
    SkippedBits,
}

#[derive(Clone)]
struct Span {
    begins: usize,
    ends: usize,
    what: What,
    element: Element,
}

/// The payload of a plan, and what it must get.
#[derive(Clone)]
pub struct Payload {
    pub bytes: Vec<u8>,
    pub answer: Answer,
    /// How many bits decide a refusal.
    decided: usize,
    bits: usize,
    spans: Vec<Span>,
    /// The bit at which a reader looks for the last zero bits, once it is there. It
    /// reads no element behind it.
    elements_end: Option<usize>,
}

impl Payload {
    fn new() -> Payload {
        Payload {
            bytes: Vec::new(),
            answer: Answer::Accepted,
            decided: 0,
            bits: 0,
            spans: Vec::new(),
            elements_end: None,
        }
    }

    /// Bytes without a plan.
    pub fn of_bytes(bytes: Vec<u8>) -> Payload {
        Payload {
            bytes,
            answer: Answer::Unknown,
            ..Payload::new()
        }
    }

    /// Whether a reader would come as far as the next bit and read an element there.
    fn is_read(&self) -> bool {
        self.answer == Answer::Accepted && self.elements_end.is_none()
    }

    /// This is refused, as so many bits decide.
    fn refuse(&mut self, refusal: Refusal, decided: usize) {
        if self.is_read() {
            self.answer = Answer::Refused(refusal);
            self.decided = decided;
        }
    }

    /// What a reader does from here on does not follow from the plan.
    fn lose(&mut self) {
        if self.is_read() {
            self.answer = Answer::Unknown;
        }
    }

    fn end_elements(&mut self) {
        if self.is_read() {
            self.elements_end = Some(self.bits);
        }
    }

    fn bit(&mut self, bit: u32) {
        if self.bits % 8 == 0 {
            self.bytes.push(0);
        }
        if bit == 1 {
            *self.bytes.last_mut().unwrap() |= 0x80 >> (self.bits % 8);
        }
        self.bits += 1;
    }

    fn is_one(&self, bit: usize) -> bool {
        self.bytes[bit / 8] & 0x80 >> (bit % 8) != 0
    }

    fn number(&mut self, value: u64, width: u32) {
        for i in (0..width).rev() {
            self.bit(((value >> i) & 1) as u32);
        }
    }

    /// What was written from there on.
    fn span(&mut self, begins: usize, what: What, element: Element) {
        match self.spans.last_mut() {
            Some(last) if last.what == what && last.element == element && what != What::Element => {
                last.ends = self.bits
            }
            _ => self.spans.push(Span {
                begins,
                ends: self.bits,
                what,
                element,
            }),
        }
    }

    fn field(&mut self, value: u32, width: u32, what: What, element: Element) {
        let begins = self.bits;
        self.number(value as u64, width);
        self.span(begins, what, element);
    }

    /// A code; gives the bit at which it begins.
    fn code(&mut self, code: Code, element: Element) -> usize {
        let begins = self.bits;
        self.number(0, code.zeros);
        self.bit(1);
        self.number(code.rest, code.zeros);
        self.span(begins, What::Element, element);
        if code.zeros > 31 {
            self.refuse(Refusal::no_code(element, begins), begins + 32);
        }
        begins
    }

    /// n zero bits; with `one`, the bit of that place (modulo n) is a one.
    fn zeros(&mut self, n: usize, one: Option<usize>, what: What, element: Element) {
        for i in 0..n {
            let begins = self.bits;
            let wrong = matches!(one, Some(place) if place % n == i);
            self.field(wrong as u32, 1, what, element);
            if wrong && what == What::ZeroBits {
                self.refuse(Refusal::one(element, begins), self.bits);
            }
        }
    }

    fn zeros_to_byte(&mut self, one: Option<usize>) {
        let n = (8 - self.bits % 8) % 8;
        self.zeros(n, one, What::ZeroBits, Element::DmAlignmentZeroBit);
    }

    fn block(&mut self, block: &BlockPlan, earlier: &[BlockPlan]) {
        let begins = self.code(block.length, Element::ExtBlockLength);
        self.field(block.level, 8, What::Element, Element::ExtBlockLevel);
        let length = block.length.number();
        let (lowest, highest) = lengths(block.level);
        if length < lowest as u64 || length > highest as u64 {
            self.refuse(wrong_length(begins, length as u32, block.level), self.bits);
        }
        let field_bits: u32 = block.fields.iter().map(|field| field.1).sum();
        if field_bits as u64 + block.zeros as u64 != length.saturating_mul(8) {
            self.lose();
        }
        let (fields, zeros) = if is_reserved(block.level) {
            (What::SkippedBits, What::SkippedBits)
        } else {
            (What::Element, What::ZeroBits)
        };
        for (i, &(value, width)) in block.fields.iter().enumerate() {
            self.field(value, width, fields, field_of(block.level, i));
        }
        let element = Element::ExtDmAlignmentZeroBit;
        self.zeros(block.zeros, block.one, zeros, element);
        if self.is_read() {
            if let Some(refusal) = fault_of(block, earlier, begins) {
                self.refuse(refusal, self.bits);
            }
        }
    }

    /// From where the elements end zero bits to the next byte boundary, whatever the
    /// plan has put there, and then the end of the input.
    fn judge_end(&mut self) {
        if let Some(first) = self.elements_end.take() {
            let boundary = (first + 7) / 8 * 8;
            if let Some(bit) = (first..boundary).find(|&bit| self.is_one(bit)) {
                self.refuse(Refusal::one(Element::DmAlignmentZeroBit, bit), bit + 1);
            }
            if 8 * self.bytes.len() > boundary {
                let left_over = self.bytes.len() - boundary / 8;
                self.refuse(Refusal::left_over(boundary, left_over), boundary + 8);
            }
        }
    }

    fn span_at(&self, bit: usize) -> &Span {
        self.spans.iter().find(|span| bit < span.ends).unwrap()
    }

    /// The name of the bit if it must be 0, in a payload that is accepted.
    pub fn zero_bit(&self, bit: usize) -> Option<Element> {
        let span = self.span_at(bit);
        (span.what == What::ZeroBits).then_some(span.element)
    }

    /// What the first n bytes must get: what they decide, or else 1 at the element of
    /// the first bit that is missing.
    pub fn answer_of_cut(&self, n: usize) -> Answer {
        let bits = 8 * n;
        match self.answer {
            Answer::Unknown => Answer::Unknown,
            Answer::Accepted if n == self.bytes.len() => Answer::Accepted,
            // Fewer bytes are left over, and as many at least as decide it.
            Answer::Refused(Refusal {
                number: 12, offset, ..
            }) if self.decided <= bits => {
                let left_over = n - offset as usize / 8;
                Answer::Refused(Refusal::left_over(offset as usize, left_over))
            }
            Answer::Refused(refusal) if self.decided <= bits => Answer::Refused(refusal),
            // Cut where bytes were left over.
            Answer::Refused(Refusal {
                number: 12, offset, ..
            }) if offset as usize == bits => Answer::Accepted,
            _ => {
                let span = self.span_at(bits);
                let begins = match span.what {
                    What::Element => span.begins,
                    What::ZeroBits | What::SkippedBits => bits,
                };
                Answer::Refused(Refusal::cut(span.element, begins))
            }
        }
    }

    /// The first n bytes.
    pub fn cut(mut self, n: usize) -> Payload {
        let answer = self.answer_of_cut(n);
        if answer.number() != self.answer.number() {
            self.decided = 8 * n;
        }
        self.answer = answer;
        self.bytes.truncate(n);
        self
    }
}

/// The refusal of a whole block behind these, which begins at this bit: 10, or which
/// repeat it is. "If 11 and 19 both apply, 19 comes first" (02, e).
fn fault_of(block: &BlockPlan, earlier: &[BlockPlan], begins: usize) -> Option<Refusal> {
    let value = |i: usize| block.fields[i].0;
    // The level or the target is there already, as often as it may be.
    let met = |number: u32, element: Element, value: u32| Refusal {
        number,
        offset: begins as u32,
        element: Some(element),
        told: Told::Other {
            value: value as u64,
        },
    };
    let level = |number: u32| Some(met(number, Element::ExtBlockLevel, block.level));
    let same_level: Vec<&BlockPlan> = earlier
        .iter()
        .filter(|one| one.level == block.level)
        .collect();
    match block.level {
        // min_PQ, max_PQ, avg_PQ
        1 if value(0) > value(2) || value(2) > value(1) => {
            let allowed = (value(0), value(1));
            let avg_pq = value(2) as u64;
            Some(Refusal::outside(
                10,
                Element::AvgPq,
                begins,
                avg_pq,
                allowed,
            ))
        }
        1 if !same_level.is_empty() => level(17),
        5 if !same_level.is_empty() => level(18),
        2 if same_level.len() == LEVEL_2_BLOCKS => level(19),
        2 if same_level.iter().any(|one| one.fields[0].0 == value(0)) => {
            Some(met(11, Element::TargetMaxPq, value(0)))
        }
        _ => None,
    }
}

impl Plan {
    pub fn payload(&self) -> Payload {
        let mut made = Payload::new();
        let begins = made.code(self.app_identifier, Element::AppIdentifier);
        let value = self.app_identifier.number();
        if value != 1 {
            made.refuse(
                Refusal::outside(4, Element::AppIdentifier, begins, value, (1, 1)),
                made.bits,
            );
        }
        let begins = made.code(self.app_version, Element::AppVersion);
        let value = self.app_version.number();
        if value != 0 {
            made.refuse(
                Refusal::outside(5, Element::AppVersion, begins, value, (0, 0)),
                made.bits,
            );
        }
        let flag = self.refresh as u32;
        made.field(flag, 1, What::Element, Element::MetadataRefreshFlag);
        if !self.refresh {
            made.end_elements();
        }
        let mut announced = 0;
        if let Some(code) = self.num_ext_blocks {
            made.code(code, Element::NumExtBlocks);
            announced = code.number();
            if announced > MOST_ANNOUNCED as u64 {
                made.refuse(too_many(announced as u32), made.bits);
            }
        }
        if announced == 0 {
            made.end_elements();
        }
        if !self.blocks.is_empty() {
            made.zeros_to_byte(self.first_one);
        }
        for (i, block) in self.blocks.iter().enumerate() {
            made.block(block, &self.blocks[..i]);
            if i as u64 + 1 == announced {
                made.end_elements();
            }
        }
        // Blocks are announced that are not there: what is left is too short for the
        // code of a length, unless something was put there.
        let missing = made.is_read();
        if missing && (self.last_one.is_some() || !self.rest.is_empty()) {
            made.lose();
        }
        let behind_blocks = made.bits;
        made.zeros_to_byte(self.last_one);
        if missing {
            let begins = if self.blocks.is_empty() {
                made.bits
            } else {
                behind_blocks
            };
            made.refuse(Refusal::cut(Element::ExtBlockLength, begins), made.bits);
        }
        made.bytes.extend_from_slice(&self.rest);
        made.judge_end();
        made
    }
}
