//! 01, "The data, bit by bit" and "The wrapper", with 02's requests b, blocks of
//! reserved levels are passed over, d, big numbers are read and judged where they
//! stand, e, a refusal says where, and f, it says why. Every step that can fail answers
//! with the refusal, and the first failure decides.

use crate::record::{repeat, Block, Record, EMPTY};
use crate::why::{Element, Told};

/// B5; 00 31; 47 41 39 34; 09: country, provider, user identifier and the type
/// code of ST2094-10_data (002, table 6.3).
pub const WRAPPER: [u8; 8] = [0xB5, 0x00, 0x31, 0x47, 0x41, 0x39, 0x34, 0x09];

/// "Up to 254 blocks may be announced" (02, b).
const MOST_ANNOUNCED: u32 = 254;
/// "Skip them by their length, up to 1,023 bytes" (02, b).
const MOST_SKIPPED_BYTES: u32 = 1023;

/// What an accepted input gives: the record, which holds the known blocks alone,
/// the bits read, and the number of blocks that were passed over.
#[derive(Clone, Copy, PartialEq, Eq, Debug)]
pub struct Reading {
    pub record: Record,
    pub bits: u32,
    pub skipped: u32,
}

/// What a refused input gives: the refusal number, where, and why. "The desk wants the
/// bit offset in the data at which the failing element begins, the left-over bytes'
/// offset for 12, and for a wrapper fault the byte's offset counted from the wrapper with
/// a mark that says so; else 0" (02, e). The mark is the element's name, `wrapper`.
#[derive(Clone, Copy, PartialEq, Eq, Debug)]
pub struct Refusal {
    pub number: u32,
    pub offset: u32,
    /// None where the refusal is about none of them (30 to 33).
    pub element: Option<Element>,
    pub told: Told,
}

impl Refusal {
    /// 1: the element that begins at this bit is not whole.
    pub const fn cut(element: Element, bit: usize) -> Refusal {
        Refusal {
            number: 1,
            offset: bit as u32,
            element: Some(element),
            told: Told::Nothing,
        }
    }

    /// 2: the code that begins at this bit has a 32nd zero, and no number.
    pub const fn no_code(element: Element, bit: usize) -> Refusal {
        Refusal {
            number: 2,
            ..Refusal::cut(element, bit)
        }
    }

    /// The element has this value, and allowed are those from the lowest to the highest.
    pub const fn outside(
        number: u32,
        element: Element,
        bit: usize,
        value: u64,
        (lowest, highest): (u32, u32),
    ) -> Refusal {
        Refusal {
            number,
            offset: bit as u32,
            element: Some(element),
            told: Told::Range {
                value,
                lowest,
                highest,
            },
        }
    }

    /// 7: a zero bit is a one.
    pub const fn one(element: Element, bit: usize) -> Refusal {
        Refusal::outside(7, element, bit, 1, (0, 0))
    }

    /// 9: the length of the block that begins at this bit. Of a known level one is
    /// allowed, of a reserved one 0 to 1,023.
    pub const fn length(bit: usize, length: u32, level: u32) -> Refusal {
        let allowed = match level {
            1 => (5, 5),
            2 => (11, 11),
            5 => (7, 7),
            _ => (0, MOST_SKIPPED_BYTES),
        };
        Refusal::outside(9, Element::ExtBlockLength, bit, length as u64, allowed)
    }

    /// 10, of the block that begins at this bit: "the element is avg_PQ and allowed runs
    /// from min_PQ to max_PQ".
    pub const fn order(bit: usize, min: u16, max: u16, avg: u16) -> Refusal {
        let allowed = (min as u32, max as u32);
        Refusal::outside(10, Element::AvgPq, bit, avg as u64, allowed)
    }

    /// 11, of the block that begins at this bit: "it is target_max_PQ with allowed=other".
    pub const fn target(bit: usize, target: u16) -> Refusal {
        Refusal {
            number: 11,
            offset: bit as u32,
            element: Some(Element::TargetMaxPq),
            told: Told::Other {
                value: target as u64,
            },
        }
    }

    /// 17, 18 or 19, of the block that begins at this bit: "it is ext_block_level with
    /// allowed=other".
    pub const fn level(number: u32, bit: usize) -> Refusal {
        let value = match number {
            17 => 1,
            18 => 5,
            _ => 2,
        };
        Refusal {
            number,
            offset: bit as u32,
            element: Some(Element::ExtBlockLevel),
            told: Told::Other { value },
        }
    }

    /// 12: "the element is the word end, the value is the number of bytes left over, and
    /// allowed is 0-0".
    pub const fn left_over(bit: usize, bytes: usize) -> Refusal {
        Refusal::outside(12, Element::End, bit, bytes as u64, (0, 0))
    }

    /// 1 in the wrapper: it has no byte of this place.
    pub const fn wrapper_cut(place: usize) -> Refusal {
        Refusal::cut(Element::Wrapper, place)
    }

    /// 3: "with that byte's value and allowed such as 181-181".
    pub const fn wrapper_byte(place: usize, byte: u8) -> Refusal {
        let own = WRAPPER[place] as u32;
        Refusal::outside(3, Element::Wrapper, place, byte as u64, (own, own))
    }

    /// Neither in the data nor in the wrapper.
    pub const fn nowhere(number: u32) -> Refusal {
        Refusal {
            number,
            offset: 0,
            element: None,
            told: Told::Nothing,
        }
    }

    /// The mark of 02, e.
    pub fn is_in_wrapper(&self) -> bool {
        self.element == Some(Element::Wrapper)
    }
}

/// The input, and how many of its bits were read.
struct Bits<'a> {
    input: &'a [u8],
    read: usize,
}

impl Bits<'_> {
    /// "Bits run from the most significant bit of each byte." This one belongs to the
    /// element that begins at the bit `begins`.
    fn bit(&mut self, element: Element, begins: usize) -> Result<u32, Refusal> {
        let byte = self.read / 8;
        if byte >= self.input.len() {
            return Err(Refusal::cut(element, begins));
        }
        let bit = (self.input[byte] >> (7 - self.read % 8)) & 1;
        self.read += 1;
        Ok(bit as u32)
    }

    /// n bits of the element that begins there, as a number.
    fn number(&mut self, element: Element, begins: usize, n: u32) -> Result<u32, Refusal> {
        let mut number = 0;
        for _ in 0..n {
            number = 2 * number + self.bit(element, begins)?;
        }
        Ok(number)
    }

    /// u(n)
    fn u(&mut self, element: Element, n: u32) -> Result<u32, Refusal> {
        self.number(element, self.read, n)
    }

    /// u(n) for n up to 16, as the type of a field
    fn field(&mut self, element: Element, n: u32) -> Result<u16, Refusal> {
        Ok(self.u(element, n)? as u16)
    }

    /// i(n): two's complement
    fn i(&mut self, element: Element, n: u32) -> Result<i16, Refusal> {
        let number = self.u(element, n)? as i32;
        if number >= 1 << (n - 1) {
            Ok((number - (1 << n)) as i16)
        } else {
            Ok(number as i16)
        }
    }

    /// ue(v): k zeros, a one, then k bits; the number is 2^k - 1 plus those bits.
    /// "2 means a 32nd zero" (02, d).
    fn ue(&mut self, element: Element) -> Result<u32, Refusal> {
        let begins = self.read;
        let mut k = 0;
        while self.bit(element, begins)? == 0 {
            k += 1;
            if k == 32 {
                return Err(Refusal::no_code(element, begins));
            }
        }
        Ok((1 << k) - 1 + self.number(element, begins, k)?)
    }

    /// Bits that are not looked at. They have to be there, and "each skipped bit" is an
    /// element "named ext_dm_alignment_zero_bit" (02, e): the first that is missing stands
    /// right behind the input.
    fn pass_over(&mut self, n: usize) -> Result<(), Refusal> {
        let end = 8 * self.input.len();
        if n > end - self.read {
            return Err(Refusal::cut(Element::ExtDmAlignmentZeroBit, end));
        }
        self.read += n;
        Ok(())
    }

    /// "Each padding bit is its own element" (02, e).
    fn zero_bit(&mut self, element: Element) -> Result<(), Refusal> {
        let begins = self.read;
        if self.bit(element, begins)? == 1 {
            return Err(Refusal::one(element, begins));
        }
        Ok(())
    }

    /// "Zero bits to the next byte boundary."
    fn zeros_to_byte(&mut self) -> Result<(), Refusal> {
        while self.read % 8 != 0 {
            self.zero_bit(Element::DmAlignmentZeroBit)?;
        }
        Ok(())
    }
}

/// One block behind those that the record holds, or none where it was passed over.
/// "In a block: length read, level read, [..] 9, then fields and zero bits (1 or 7,
/// bit by bit), then 10, then 11", in whose place 17, 18 and 19 may stand. Of a
/// reserved level 9 means a length above 1,023; its "contents of any kind" begin
/// behind the level, and what follows them begins at the very next bit. "A length that
/// is refused with 9, and a fault found after a block (10, 11, 17, 18, 19), point at
/// that block's length" (02, e).
fn read_block(bits: &mut Bits, earlier: &[Block]) -> Result<Option<Block>, Refusal> {
    let begins = bits.read;
    let length = bits.ue(Element::ExtBlockLength)?;
    let level = bits.u(Element::ExtBlockLevel, 8)?;
    let its_length = match level {
        1 => 5,
        2 => 11,
        5 => 7,
        _ => {
            if length > MOST_SKIPPED_BYTES {
                return Err(Refusal::length(begins, length, level));
            }
            bits.pass_over(8 * length as usize)?;
            return Ok(None);
        }
    };
    if length != its_length {
        return Err(Refusal::length(begins, length, level));
    }
    let after_level = bits.read;
    let block = match level {
        1 => Block::Level1 {
            min_pq: bits.field(Element::MinPq, 12)?,
            max_pq: bits.field(Element::MaxPq, 12)?,
            avg_pq: bits.field(Element::AvgPq, 12)?,
        },
        2 => Block::Level2 {
            target_max_pq: bits.field(Element::TargetMaxPq, 12)?,
            trim_slope: bits.field(Element::TrimSlope, 12)?,
            trim_offset: bits.field(Element::TrimOffset, 12)?,
            trim_power: bits.field(Element::TrimPower, 12)?,
            trim_chroma_weight: bits.field(Element::TrimChromaWeight, 12)?,
            trim_saturation_gain: bits.field(Element::TrimSaturationGain, 12)?,
            ms_weight: bits.i(Element::MsWeight, 13)?,
        },
        _ => Block::Level5 {
            left: bits.field(Element::ActiveAreaLeftOffset, 13)?,
            right: bits.field(Element::ActiveAreaRightOffset, 13)?,
            top: bits.field(Element::ActiveAreaTopOffset, 13)?,
            bottom: bits.field(Element::ActiveAreaBottomOffset, 13)?,
        },
    };
    while bits.read < after_level + 8 * length as usize {
        bits.zero_bit(Element::ExtDmAlignmentZeroBit)?;
    }
    if let Block::Level1 {
        min_pq,
        max_pq,
        avg_pq,
    } = block
    {
        if !(min_pq <= avg_pq && avg_pq <= max_pq) {
            return Err(Refusal::order(begins, min_pq, max_pq, avg_pq));
        }
    }
    match (repeat(earlier, &block), block) {
        (None, _) => Ok(Some(block)),
        (Some(11), Block::Level2 { target_max_pq, .. }) => {
            Err(Refusal::target(begins, target_max_pq))
        }
        (Some(number), _) => Err(Refusal::level(number, begins)),
    }
}

/// The reading, or the refusal.
pub fn read_bare(input: &[u8]) -> Result<Reading, Refusal> {
    let mut bits = Bits { input, read: 0 };
    let mut record = EMPTY;
    let mut skipped = 0;
    let begins = bits.read;
    let app_identifier = bits.ue(Element::AppIdentifier)?;
    if app_identifier != 1 {
        return Err(Refusal::outside(
            4,
            Element::AppIdentifier,
            begins,
            app_identifier as u64,
            (1, 1),
        ));
    }
    let begins = bits.read;
    let app_version = bits.ue(Element::AppVersion)?;
    if app_version != 0 {
        return Err(Refusal::outside(
            5,
            Element::AppVersion,
            begins,
            app_version as u64,
            (0, 0),
        ));
    }
    let metadata_refresh_flag = bits.u(Element::MetadataRefreshFlag, 1)?;
    record.refresh = metadata_refresh_flag == 1;
    if record.refresh {
        let begins = bits.read;
        let num_ext_blocks = bits.ue(Element::NumExtBlocks)?;
        if num_ext_blocks > MOST_ANNOUNCED {
            return Err(Refusal::outside(
                6,
                Element::NumExtBlocks,
                begins,
                num_ext_blocks as u64,
                (0, MOST_ANNOUNCED),
            ));
        }
        if num_ext_blocks > 0 {
            bits.zeros_to_byte()?;
            // "Blocks are not byte aligned after the first."
            for _ in 0..num_ext_blocks {
                let held = record.count as usize;
                match read_block(&mut bits, &record.places[..held])? {
                    // One of level 1, one of level 5 and sixteen of level 2 fill the
                    // 18 places, and every known block behind them is a repeat.
                    Some(block) => {
                        record.places[held] = block;
                        record.count += 1;
                    }
                    None => skipped += 1,
                }
            }
        }
    }
    bits.zeros_to_byte()?;
    if bits.read < 8 * input.len() {
        let left_over = input.len() - bits.read / 8;
        return Err(Refusal::left_over(bits.read, left_over));
    }
    Ok(Reading {
        record,
        bits: bits.read as u32,
        skipped,
    })
}

/// The eight wrapper bytes from left to right, then the data from the ninth
/// byte on. The wrapper counts neither among the bits read nor in an offset of the
/// data.
pub fn read_wrapped(input: &[u8]) -> Result<Reading, Refusal> {
    for i in 0..WRAPPER.len() {
        if i >= input.len() {
            return Err(Refusal::wrapper_cut(i));
        }
        if input[i] != WRAPPER[i] {
            return Err(Refusal::wrapper_byte(i, input[i]));
        }
    }
    read_bare(&input[WRAPPER.len()..])
}
