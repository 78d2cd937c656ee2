//! 02, f, "Tell the desk why": what the reason of a refusal is made of, and the lines
//! that are printed of it. "The reason is true: every earlier element meets its rule,
//! the named one does not, the value is the one there."

use crate::reader::{Reading, Refusal};
use std::fmt::Write as _;

/// What a refusal names: an element of tables E.1.1 to E.1.3, or one of 02's two words.
/// Where an element is one of several, as ext_block_length\[i\], its name is without the
/// index.
#[derive(Clone, Copy, PartialEq, Eq, Debug)]
pub enum Element {
    AppIdentifier = 1,
    AppVersion,
    MetadataRefreshFlag,
    NumExtBlocks,
    /// Before the first block and at the end.
    DmAlignmentZeroBit,
    ExtBlockLength,
    ExtBlockLevel,
    MinPq,
    MaxPq,
    AvgPq,
    TargetMaxPq,
    TrimSlope,
    TrimOffset,
    TrimPower,
    TrimChromaWeight,
    TrimSaturationGain,
    MsWeight,
    ActiveAreaLeftOffset,
    ActiveAreaRightOffset,
    ActiveAreaTopOffset,
    ActiveAreaBottomOffset,
    /// Behind the fields of a block, "and so is each skipped bit, named
    /// ext_dm_alignment_zero_bit" (02, e).
    ExtDmAlignmentZeroBit,
    /// "For 12 the element is the word end".
    End,
    /// "In the wrapper the element is the word wrapper".
    Wrapper,
}

/// The elements, each at the place of its number less one, and how A/341 or 02 writes
/// their names.
pub const ELEMENTS: [(Element, &str); 24] = [
    (Element::AppIdentifier, "app_identifier"),
    (Element::AppVersion, "app_version"),
    (Element::MetadataRefreshFlag, "metadata_refresh_flag"),
    (Element::NumExtBlocks, "num_ext_blocks"),
    (Element::DmAlignmentZeroBit, "dm_alignment_zero_bit"),
    (Element::ExtBlockLength, "ext_block_length"),
    (Element::ExtBlockLevel, "ext_block_level"),
    (Element::MinPq, "min_PQ"),
    (Element::MaxPq, "max_PQ"),
    (Element::AvgPq, "avg_PQ"),
    (Element::TargetMaxPq, "target_max_PQ"),
    (Element::TrimSlope, "trim_slope"),
    (Element::TrimOffset, "trim_offset"),
    (Element::TrimPower, "trim_power"),
    (Element::TrimChromaWeight, "trim_chroma_weight"),
    (Element::TrimSaturationGain, "trim_saturation_gain"),
    (Element::MsWeight, "ms_weight"),
    (Element::ActiveAreaLeftOffset, "active_area_left_offset"),
    (Element::ActiveAreaRightOffset, "active_area_right_offset"),
    (Element::ActiveAreaTopOffset, "active_area_top_offset"),
    (Element::ActiveAreaBottomOffset, "active_area_bottom_offset"),
    (Element::ExtDmAlignmentZeroBit, "ext_dm_alignment_zero_bit"),
    (Element::End, "end"),
    (Element::Wrapper, "wrapper"),
];

impl Element {
    pub fn name(self) -> &'static str {
        ELEMENTS[self as usize - 1].1
    }
}

/// The fields of each known level, in the order of table E.1.3.
pub const LEVEL_1: [Element; 3] = [Element::MinPq, Element::MaxPq, Element::AvgPq];
pub const LEVEL_2: [Element; 7] = [
    Element::TargetMaxPq,
    Element::TrimSlope,
    Element::TrimOffset,
    Element::TrimPower,
    Element::TrimChromaWeight,
    Element::TrimSaturationGain,
    Element::MsWeight,
];
pub const LEVEL_5: [Element; 4] = [
    Element::ActiveAreaLeftOffset,
    Element::ActiveAreaRightOffset,
    Element::ActiveAreaTopOffset,
    Element::ActiveAreaBottomOffset,
];

/// What a refusal tells besides its place: the value that is there, and what is allowed.
#[derive(Clone, Copy, PartialEq, Eq, Debug)]
pub enum Told {
    /// "For 1 and 2 the value and allowed lines are absent."
    Nothing,
    /// "Allowed gives the lowest and the highest number"; no number is allowed where the
    /// lowest is above the highest.
    Range {
        value: u64,
        lowest: u32,
        highest: u32,
    },
    /// "allowed=other": a number that was not met before.
    Other { value: u64 },
}

/// The lines, each ended by a line feed. A refusal that names no element, which no
/// wrapped data gets, has the first line alone, as "an accepted payload" has.
pub fn text(answer: &Result<Reading, Refusal>) -> String {
    match answer {
        Ok(_) => "result=0\n".to_string(),
        Err(refusal) => text_of(refusal),
    }
}

/// "result, offset, element (its name in A/341), value and allowed, in that order".
pub fn text_of(refusal: &Refusal) -> String {
    let mut text = String::with_capacity(MOST);
    lines(&mut text, refusal).expect("a String takes every text");
    text
}

fn lines(text: &mut String, refusal: &Refusal) -> std::fmt::Result {
    writeln!(text, "result={}", refusal.number)?;
    if let Some(element) = refusal.element {
        writeln!(text, "offset={}", refusal.offset)?;
        writeln!(text, "element={}", element.name())?;
    }
    match refusal.told {
        Told::Nothing => Ok(()),
        Told::Range {
            value,
            lowest,
            highest,
        } => {
            writeln!(text, "value={}", value)?;
            // "or is the word none where min is above max"
            if lowest > highest {
                writeln!(text, "allowed=none")
            } else {
                writeln!(text, "allowed={}-{}", lowest, highest)
            }
        }
        Told::Other { value } => {
            writeln!(text, "value={}", value)?;
            writeln!(text, "allowed=other")
        }
    }
}

/// No text is longer than the interface says.
pub const MOST: usize = 110;
