//! The reader once more, written for speed: whole fields through a window of 64
//! bits, and no loop over bits. It answers what `reader` answers, for every
//! input; the bench counts the proved reader beside it.
//!
//! It is safe Rust and gives the same record, so that both are asked the same. Where
//! an element begins it does not keep: a refusal works that out from how far the
//! reading came, and with it what it tells of the element.

use crate::reader::{Reading, Refusal, WRAPPER};
use crate::record::{Block, EMPTY, LEVEL_2_BLOCKS};
use crate::why::{Element, LEVEL_1, LEVEL_2, LEVEL_5};

/// The input, and how many of its bits were read.
struct Window<'a> {
    input: &'a [u8],
    read: usize,
}

impl Window<'_> {
    /// The next bits, at least 57 of them, the first as the most significant; zeros
    /// stand behind the end of the input.
    #[inline(always)]
    fn next(&self) -> u64 {
        let byte = self.read / 8;
        let bits = if byte + 8 <= self.input.len() {
            let mut eight = [0; 8];
            eight.copy_from_slice(&self.input[byte..byte + 8]);
            u64::from_be_bytes(eight)
        } else {
            self.last(byte)
        };
        bits << (self.read % 8)
    }

    /// The last bytes of the input, fewer than eight, and zeros.
    #[inline(never)]
    fn last(&self, byte: usize) -> u64 {
        let rest = self.input.get(byte..).unwrap_or(&[]);
        let mut eight = [0; 8];
        eight[..rest.len()].copy_from_slice(rest);
        u64::from_be_bytes(eight)
    }

    /// The bits of the input.
    #[inline(always)]
    fn end(&self) -> usize {
        8 * self.input.len()
    }

    /// How many bits are left.
    #[inline(always)]
    fn left(&self) -> usize {
        self.end() - self.read
    }

    /// 1, of the element that begins at the next bit.
    #[inline(always)]
    fn cut(&self, element: Element) -> Refusal {
        cut(element, self.read)
    }

    /// ue(v). A code of up to 28 zeros has 57 bits at most and lies in the window.
    #[inline(always)]
    fn ue(&mut self, element: Element) -> Result<u32, Refusal> {
        let bits = self.next();
        let zeros = bits.leading_zeros() as usize;
        let width = 2 * zeros + 1;
        if zeros > 28 {
            let number = long_ue(self.input, self.read, zeros, element)?;
            self.read += width;
            return Ok(number);
        }
        if self.left() < width {
            return Err(self.cut(element));
        }
        self.read += width;
        Ok((bits >> (64 - width)) as u32 - 1)
    }

    /// n zero bits, at most 7: the first that is a one or that is missing decides. A
    /// missing one stands behind all that are there.
    #[inline(always)]
    fn zeros(&mut self, n: usize, element: Element) -> Result<(), Refusal> {
        let zeros = self.next().leading_zeros() as usize;
        if zeros < n {
            return Err(one(element, self.read + zeros));
        }
        if self.left() < n {
            return Err(cut(element, self.end()));
        }
        self.read += n;
        Ok(())
    }

    #[inline(always)]
    fn zeros_to_byte(&mut self) -> Result<(), Refusal> {
        self.zeros(self.read.wrapping_neg() % 8, Element::DmAlignmentZeroBit)
    }
}

/// 1 and 7, made where they do not stand in the way of a reading.
#[cold]
#[inline(never)]
fn cut(element: Element, bit: usize) -> Refusal {
    Refusal::cut(element, bit)
}

#[cold]
#[inline(never)]
fn one(element: Element, bit: usize) -> Refusal {
    Refusal::one(element, bit)
}

/// 4, 5 and 6, of the header: a number that its code gave, and the highest allowed one,
/// which but for num_ext_blocks is the lowest too.
#[cold]
#[inline(never)]
fn refused_header(number: u32, value: u32) -> Refusal {
    let (element, bit, allowed) = match number {
        4 => (Element::AppIdentifier, 0, (1, 1)),
        5 => (Element::AppVersion, 3, (0, 0)),
        _ => (Element::NumExtBlocks, 5, (0, 254)),
    };
    Refusal::outside(number, element, bit, value as u64, allowed)
}

/// The same of a code that begins with more than 28 zeros, of which 31 at most may be
/// its own: a second window begins at the first one. A missing bit reads as a zero,
/// so that what is left tells a code that is cut off from one with a zero too many.
/// It gets the window's parts, so that the window itself stays in registers.
#[cold]
#[inline(never)]
fn long_ue(input: &[u8], read: usize, zeros: usize, element: Element) -> Result<u32, Refusal> {
    let mut window = Window { input, read };
    if zeros > 31 && window.left() >= 32 {
        return Err(Refusal::no_code(element, read));
    }
    if zeros > 31 || window.left() < 2 * zeros + 1 {
        return Err(Refusal::cut(element, read));
    }
    window.read += zeros;
    Ok((window.next() >> (63 - zeros)) as u32 - 1)
}

/// 9, at the code of the length, which stands before the eight bits of the level: as
/// wide as its number has it.
#[cold]
#[inline(never)]
fn refused_length(length: u32, level: u64, after_level: usize) -> Refusal {
    let zeros = 31 - (length + 1).leading_zeros() as usize;
    let begins = after_level - 8 - (2 * zeros + 1);
    Refusal::length(begins, length, level as u32)
}

/// 1, at the first field that is not whole. All have 12 bits but for those of level 5
/// and for ms_weight, which has six before it.
#[cold]
#[inline(never)]
fn cut_field(level: u64, first_field: usize, left: usize) -> Refusal {
    let (width, fields): (usize, &[Element]) = match level {
        1 => (12, &LEVEL_1),
        2 => (12, &LEVEL_2),
        _ => (13, &LEVEL_5),
    };
    let before = (left / width).min(6);
    Refusal::cut(fields[before], first_field + width * before)
}

/// 10, of a block that was just read.
#[cold]
#[inline(never)]
fn refused_order(behind: usize, min_pq: u16, max_pq: u16, avg_pq: u16) -> Refusal {
    Refusal::order(behind - LEVEL_1_BITS, min_pq, max_pq, avg_pq)
}

/// 11, 17, 18 or 19, of a block that was just read.
#[cold]
#[inline(never)]
fn refused_repeat(number: u32, behind: usize, block: &Block) -> Refusal {
    match *block {
        Block::Level1 { .. } => Refusal::level(number, behind - LEVEL_1_BITS),
        Block::Level2 { target_max_pq, .. } if number == 11 => {
            Refusal::target(behind - LEVEL_2_BITS, target_max_pq)
        }
        Block::Level2 { .. } => Refusal::level(number, behind - LEVEL_2_BITS),
        _ => Refusal::level(number, behind - LEVEL_5_BITS),
    }
}

/// The n bits of a window that stand behind its first `skip`.
#[inline(always)]
fn field(bits: u64, skip: u32, n: u32) -> u16 {
    (bits << skip >> (64 - n)) as u16
}

/// The bits of a known block.
const LEVEL_1_BITS: usize = 53;
const LEVEL_2_BITS: usize = 103;
const LEVEL_5_BITS: usize = 71;

/// One block, up to refusal 10, or none where it was passed over.
#[inline(always)]
fn read_block(window: &mut Window) -> Result<Option<Block>, Refusal> {
    let length = window.ue(Element::ExtBlockLength)?;
    if window.left() < 8 {
        return Err(window.cut(Element::ExtBlockLevel));
    }
    let level = window.next() >> 56;
    window.read += 8;
    let (its_length, fields) = match level {
        1 => (5, 36),
        2 => (11, 85),
        5 => (7, 52),
        _ => {
            if length > 1023 {
                return Err(refused_length(length, level, window.read));
            }
            if window.left() < 8 * length as usize {
                return Err(cut(Element::ExtDmAlignmentZeroBit, window.end()));
            }
            window.read += 8 * length as usize;
            return Ok(None);
        }
    };
    if length != its_length {
        return Err(refused_length(length, level, window.read));
    }
    if window.left() < fields {
        return Err(cut_field(level, window.read, window.left()));
    }
    let bits = window.next();
    match level {
        1 => {
            let min_pq = field(bits, 0, 12);
            let max_pq = field(bits, 12, 12);
            let avg_pq = field(bits, 24, 12);
            window.read += 36;
            window.zeros(4, Element::ExtDmAlignmentZeroBit)?;
            if !(min_pq <= avg_pq && avg_pq <= max_pq) {
                return Err(refused_order(window.read, min_pq, max_pq, avg_pq));
            }
            Ok(Some(Block::Level1 {
                min_pq,
                max_pq,
                avg_pq,
            }))
        }
        2 => {
            window.read += 48;
            let more = window.next();
            window.read += 37;
            window.zeros(3, Element::ExtDmAlignmentZeroBit)?;
            Ok(Some(Block::Level2 {
                target_max_pq: field(bits, 0, 12),
                trim_slope: field(bits, 12, 12),
                trim_offset: field(bits, 24, 12),
                trim_power: field(bits, 36, 12),
                trim_chroma_weight: field(more, 0, 12),
                trim_saturation_gain: field(more, 12, 12),
                // Two's complement: the shift to the right brings the sign in.
                ms_weight: ((more << 24) as i64 >> 51) as i16,
            }))
        }
        _ => {
            window.read += 52;
            window.zeros(4, Element::ExtDmAlignmentZeroBit)?;
            Ok(Some(Block::Level5 {
                left: field(bits, 0, 13),
                right: field(bits, 13, 13),
                top: field(bits, 26, 13),
                bottom: field(bits, 39, 13),
            }))
        }
    }
}

/// What was met of the known blocks, by which a repeat is seen without a look at
/// the record.
struct Met {
    level_1: bool,
    level_5: bool,
    level_2: usize,
    /// 65,535 where none was met: no field of 12 bits is that.
    targets: [u16; LEVEL_2_BLOCKS],
}

impl Met {
    /// The refusal number of a repeat, or none; then the block is met from now on.
    #[inline(always)]
    fn repeat(&mut self, block: &Block) -> Option<u32> {
        match *block {
            Block::Nothing => None,
            Block::Level1 { .. } => {
                let met = std::mem::replace(&mut self.level_1, true);
                met.then_some(17)
            }
            Block::Level5 { .. } => {
                let met = std::mem::replace(&mut self.level_5, true);
                met.then_some(18)
            }
            Block::Level2 { target_max_pq, .. } => {
                if self.level_2 == LEVEL_2_BLOCKS {
                    return Some(19);
                }
                // All of them, so that the compiler compares several at once.
                let mut met = false;
                for &target in &self.targets {
                    met |= target == target_max_pq;
                }
                self.targets[self.level_2] = target_max_pq;
                self.level_2 += 1;
                met.then_some(11)
            }
        }
    }
}

/// The reading, or the refusal. The codes before app_version and before num_ext_blocks
/// are those of the numbers that they must have, and the flag is one bit.
pub fn read_bare(input: &[u8]) -> Result<Reading, Refusal> {
    let mut window = Window { input, read: 0 };
    let mut record = EMPTY;
    let mut skipped = 0;
    let app_identifier = window.ue(Element::AppIdentifier)?;
    if app_identifier != 1 {
        return Err(refused_header(4, app_identifier));
    }
    let app_version = window.ue(Element::AppVersion)?;
    if app_version != 0 {
        return Err(refused_header(5, app_version));
    }
    if window.left() < 1 {
        return Err(window.cut(Element::MetadataRefreshFlag));
    }
    record.refresh = window.next() >> 63 == 1;
    window.read += 1;
    if record.refresh {
        let announced = window.ue(Element::NumExtBlocks)?;
        if announced > 254 {
            return Err(refused_header(6, announced));
        }
        if announced > 0 {
            window.zeros_to_byte()?;
        }
        let mut met = Met {
            level_1: false,
            level_5: false,
            level_2: 0,
            targets: [u16::MAX; LEVEL_2_BLOCKS],
        };
        for _ in 0..announced {
            match read_block(&mut window)? {
                None => skipped += 1,
                Some(block) => {
                    if let Some(number) = met.repeat(&block) {
                        return Err(refused_repeat(number, window.read, &block));
                    }
                    record.places[record.count as usize] = block;
                    record.count += 1;
                }
            }
        }
    }
    window.zeros_to_byte()?;
    if window.left() > 0 {
        return Err(Refusal::left_over(window.read, window.left() / 8));
    }
    Ok(Reading {
        record,
        bits: window.read as u32,
        skipped,
    })
}

/// The eight wrapper bytes from left to right, then the data.
pub fn read_wrapped(input: &[u8]) -> Result<Reading, Refusal> {
    for (i, &byte) in WRAPPER.iter().enumerate() {
        match input.get(i) {
            None => return Err(Refusal::wrapper_cut(i)),
            Some(&there) if there != byte => return Err(Refusal::wrapper_byte(i, there)),
            Some(_) => {}
        }
    }
    read_bare(&input[WRAPPER.len()..])
}
