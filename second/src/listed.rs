//! 01, "Payloads and their outcome", as 01 lists them where 02's requests b, d and e
//! do not change the outcome, payloads with reserved blocks, with big numbers and with
//! repeats by those requests, and units with the outcome that 02 gives them. Each
//! refused one stands with its offset (02, e) and its reason (02, f), worked out by hand:
//! the text of `why`, with blanks for its line feeds. Here both implementations are held
//! against the papers, not only against each other.

use crate::compare::{hex, in_words, Compare, Known};
use crate::made::{blocks, holding, Rng};
use crate::own::{BITS, ELEMENT, HIGHEST, IN_WRAPPER, KIND, LOWEST};
use crate::own::{OFFSET, OTHER, RANGE, READING, SKIPPED, VALUE};
use crate::plan::plan;
use crate::reader::WRAPPER;
use crate::record::{flat, Block, BARE_BYTES, FLAT, LEVEL_2_BLOCKS, WRAPPED_BYTES};
use crate::why::ELEMENTS;

struct Listed<'a> {
    wrapped: bool,
    payload: &'a str,
    /// The text, with a blank for each line feed but the last.
    why: &'a str,
    /// min_PQ and max_PQ where the text has `none` for them.
    none: (u32, u32),
    /// What 01 and 02 say of an accepted reading.
    bits: u32,
    skipped: u32,
    /// The flat record of an accepted payload up to its last number that is not 0.
    record: &'static [i32],
}

/// Refused for this reason.
const fn refused<'a>(payload: &'a str, why: &'a str) -> Listed<'a> {
    Listed {
        wrapped: false,
        payload,
        why,
        none: (0, 0),
        bits: 0,
        skipped: 0,
        record: &[],
    }
}

const fn accepted<'a>(payload: &'a str, bits: u32, record: &'static [i32]) -> Listed<'a> {
    Listed {
        bits,
        record,
        ..refused(payload, "result=0")
    }
}

const fn skipping(skipped: u32, listed: Listed<'_>) -> Listed<'_> {
    Listed { skipped, ..listed }
}

const fn wrapped(listed: Listed<'_>) -> Listed<'_> {
    Listed {
        wrapped: true,
        ..listed
    }
}

/// 10 with a min_PQ above its max_PQ.
const fn none_allowed(min_pq: u32, max_pq: u32, listed: Listed<'_>) -> Listed<'_> {
    Listed {
        none: (min_pq, max_pq),
        ..listed
    }
}

const LISTED: [Listed<'static>; 84] = [
    refused("", "result=1 offset=0 element=app_identifier"),
    refused("00", "result=1 offset=0 element=app_identifier"),
    // "the input 00 00 now gets 1" (02, d)
    refused("00 00", "result=1 offset=0 element=app_identifier"),
    accepted("50", 8, &[]),
    refused(
        "51",
        "result=7 offset=7 element=dm_alignment_zero_bit value=1 allowed=0-0",
    ),
    accepted("5C", 8, &[1]),
    accepted("5A 30 08 00 60 02 00 00", 64, &[1, 1, 1, 0, 3072, 1024]),
    refused("5A 30 08 00 60 02 00", "result=1 offset=45 element=avg_PQ"),
    refused(
        "5A 30 08 00 60 02 00 01",
        "result=7 offset=63 element=dm_alignment_zero_bit value=1 allowed=0-0",
    ),
    refused(
        "5A 30 08 00 60 02 00 00 00",
        "result=12 offset=64 element=end value=1 allowed=0-0",
    ),
    refused(
        "5A 30 08 00 20 06 00 00",
        "result=10 offset=8 element=avg_PQ value=3072 allowed=0-1024",
    ),
    accepted("5A 30 08 00 00 00 00 00", 64, &[1, 1, 1]),
    accepted(
        "5A 10 0A 00 00 00 04 50 22 80",
        80,
        &[1, 1, 5, 0, 0, 276, 276],
    ),
    refused(
        "30",
        "result=4 offset=0 element=app_identifier value=5 allowed=1-1",
    ),
    refused(
        "48",
        "result=5 offset=3 element=app_version value=1 allowed=0-0",
    ),
    // "5A 81 80 is now accepted with one skipped, and 58 50 gets 1" (02, b): 19
    // blocks are announced, and none is there.
    refused("58 50", "result=1 offset=16 element=ext_block_length"),
    refused("58 4C", "result=1 offset=16 element=ext_block_length"),
    skipping(1, accepted("5A 81 80", 24, &[1])),
    refused(
        "5A 80 80",
        "result=9 offset=8 element=ext_block_length value=0 allowed=5-5",
    ),
    // "ms_weight bits: thirteen ones is -1; a one and twelve zeros is -4,096;
    // a zero and twelve ones is 4,095." 01 gives no whole payload; in these
    // the six other fields are 0. 8 header bits, 7 for the length, 8 for the
    // level and 72 for the six fields stand before the thirteen.
    accepted(
        "5A 18 04 00 00 00 00 00 00 00 00 01 FF F0",
        112,
        &[1, 1, 2, 0, 0, 0, 0, 0, 0, -1],
    ),
    accepted(
        "5A 18 04 00 00 00 00 00 00 00 00 01 00 00",
        112,
        &[1, 1, 2, 0, 0, 0, 0, 0, 0, -4096],
    ),
    accepted(
        "5A 18 04 00 00 00 00 00 00 00 00 00 FF F0",
        112,
        &[1, 1, 2, 0, 0, 0, 0, 0, 0, 4095],
    ),
    wrapped(accepted("B5 00 31 47 41 39 34 09 50", 8, &[])),
    wrapped(refused(
        "B5 00 3C",
        "result=3 offset=2 element=wrapper value=60 allowed=49-49",
    )),
    wrapped(refused("B5 00", "result=1 offset=2 element=wrapper")),
    // The example of the program show.
    wrapped(accepted(
        "B5 00 31 47 41 39 34 09 5A 30 08 00 60 02 00 00",
        64,
        &[1, 1, 1, 0, 3072, 1024],
    )),
    // The wrapper's first byte and its last, missing and wrong.
    wrapped(refused("", "result=1 offset=0 element=wrapper")),
    wrapped(refused(
        "50",
        "result=3 offset=0 element=wrapper value=80 allowed=181-181",
    )),
    wrapped(refused(
        "B5 00 31 47 41 39 34",
        "result=1 offset=7 element=wrapper",
    )),
    wrapped(refused(
        "B5 00 31 47 41 39 34 03 50",
        "result=3 offset=7 element=wrapper value=3 allowed=9-9",
    )),
    // The wrapper and nothing after it: the data reader is handed no bytes.
    wrapped(refused(
        "B5 00 31 47 41 39 34 09",
        "result=1 offset=0 element=app_identifier",
    )),
    // Payloads of the list behind the wrapper.
    wrapped(refused(
        "B5 00 31 47 41 39 34 09 51",
        "result=7 offset=7 element=dm_alignment_zero_bit value=1 allowed=0-0",
    )),
    wrapped(refused(
        "B5 00 31 47 41 39 34 09 00 00",
        "result=1 offset=0 element=app_identifier",
    )),
    wrapped(refused(
        "B5 00 31 47 41 39 34 09 58 50",
        "result=1 offset=16 element=ext_block_length",
    )),
    wrapped(refused(
        "B5 00 31 47 41 39 34 09 5A 80 80",
        "result=9 offset=8 element=ext_block_length value=0 allowed=5-5",
    )),
    wrapped(skipping(
        1,
        accepted("B5 00 31 47 41 39 34 09 5A 81 80", 24, &[1]),
    )),
    // 02, b: "6 means above 254". 254 announced and 255, and nothing there.
    refused("58 0F F0", "result=1 offset=24 element=ext_block_length"),
    refused(
        "58 04 00",
        "result=6 offset=5 element=num_ext_blocks value=255 allowed=0-254",
    ),
    wrapped(refused(
        "B5 00 31 47 41 39 34 09 58 04 00",
        "result=6 offset=5 element=num_ext_blocks value=255 allowed=0-254",
    )),
    // 6 comes before a one in the zero bits behind the number.
    refused(
        "58 04 01",
        "result=6 offset=5 element=num_ext_blocks value=255 allowed=0-254",
    ),
    refused(
        "58 0F F1",
        "result=7 offset=23 element=dm_alignment_zero_bit value=1 allowed=0-0",
    ),
    // Levels 0 and 255 are reserved too. Without the level's last bit it is not
    // known, and a bit is missing.
    skipping(1, accepted("5A 80 00", 24, &[1])),
    skipping(1, accepted("5A FF 80", 24, &[1])),
    refused("5A 81", "result=1 offset=9 element=ext_block_level"),
    // "Skip them by their length": one byte of ones, and five zero bits behind it.
    skipping(1, accepted("5A 40 7F E0", 32, &[1])),
    refused(
        "5A 40 7F",
        "result=1 offset=24 element=ext_dm_alignment_zero_bit",
    ),
    refused(
        "5A 40 7F F0",
        "result=7 offset=27 element=dm_alignment_zero_bit value=1 allowed=0-0",
    ),
    refused(
        "5A 40 7F E0 00",
        "result=12 offset=32 element=end value=1 allowed=0-0",
    ),
    // Behind an empty reserved block the level 1 block of 01's example begins at
    // the ninth bit; then the two in the other order.
    skipping(
        1,
        accepted("5B 81 98 04 00 30 01 00 00", 72, &[1, 1, 1, 0, 3072, 1024]),
    ),
    skipping(
        1,
        accepted("5B 30 08 00 60 02 00 04 0C", 72, &[1, 1, 1, 0, 3072, 1024]),
    ),
    // A length of 1,024, and the content is not there; with a length of 1,023 it
    // is missing.
    refused(
        "5A 00 20 08 18",
        "result=9 offset=8 element=ext_block_length value=1024 allowed=0-1023",
    ),
    refused(
        "5A 00 20 00 18",
        "result=1 offset=40 element=ext_dm_alignment_zero_bit",
    ),
    // The level is not there, so that 9 is not yet judged.
    refused("5A 00 20 08", "result=1 offset=29 element=ext_block_level"),
    // 02, d: "2 means a 32nd zero", and 2^32 - 2, the largest number, at each of the
    // four places "now gets 4, 5, 6 or 9"; a length whose level is not there gets 1.
    refused("00 00 00 00", "result=2 offset=0 element=app_identifier"),
    wrapped(refused(
        "B5 00 31 47 41 39 34 09 00 00 00 00",
        "result=2 offset=0 element=app_identifier",
    )),
    refused(
        "5A 00 00 00 00",
        "result=2 offset=8 element=ext_block_length",
    ),
    refused(
        "00 00 00 01 FF FF FF FE",
        "result=4 offset=0 element=app_identifier value=4294967294 allowed=1-1",
    ),
    refused(
        "40 00 00 00 3F FF FF FF C0",
        "result=5 offset=3 element=app_version value=4294967294 allowed=0-0",
    ),
    refused(
        "58 00 00 00 0F FF FF FF F0",
        "result=6 offset=5 element=num_ext_blocks value=4294967294 allowed=0-254",
    ),
    refused(
        "5A 00 00 00 01 FF FF FF FE 02",
        "result=9 offset=8 element=ext_block_length value=4294967294 allowed=5-5",
    ),
    refused(
        "5A 00 00 00 01 FF FF FF FE",
        "result=1 offset=71 element=ext_block_level",
    ),
    // 65,541 is no 5, though it ends like it in 16 bits; the example's level 1 block.
    refused(
        "5A 00 00 80 03 00 80 06 00 20 00 00",
        "result=9 offset=8 element=ext_block_length value=65541 allowed=5-5",
    ),
    // 02, e: "17 second level 1", the example's block twice. The first has the bits 8
    // to 60. In the second max_PQ and avg_PQ are exchanged, then one of its zero bits,
    // which are 110 to 113, is a one: 10 and 7 come before 17.
    refused(
        "5B 30 08 00 60 02 00 01 80 40 03 00 10 00 00",
        "result=17 offset=61 element=ext_block_level value=1 allowed=other",
    ),
    refused(
        "5B 30 08 00 60 02 00 01 80 40 01 00 30 00 00",
        "result=10 offset=61 element=avg_PQ value=3072 allowed=0-1024",
    ),
    refused(
        "5B 30 08 00 60 02 00 01 80 40 03 00 10 00 40",
        "result=7 offset=113 element=ext_dm_alignment_zero_bit value=1 allowed=0-0",
    ),
    // "18 second level 5"; the first has the bits 8 to 78.
    refused(
        "5B 10 0A 00 00 00 04 50 22 80 20 14 00 00 00 00 00 00 00",
        "result=18 offset=79 element=ext_block_level value=5 allowed=other",
    ),
    // "11 is kept for a repeated target_max_PQ"; the first block has the bits 8 to 110.
    refused(
        "5B 18 05 04 30 CC F7 90 18 FF 10 73 FF F0 30 0A 08 60 A9 F7 E0 11 FF 60 5B FF E0",
        "result=11 offset=111 element=target_max_PQ value=2081 allowed=other",
    ),
    // "Each padding bit is its own element": behind four empty reserved blocks the zero
    // bits of the example's block are 101 to 104. The last is missing, the second is a
    // one, both.
    skipping(
        4,
        accepted(
            "59 80 81 C0 E0 70 33 00 80 06 00 20 00 00",
            112,
            &[1, 1, 1, 0, 3072, 1024],
        ),
    ),
    refused(
        "59 80 81 C0 E0 70 33 00 80 06 00 20 00",
        "result=1 offset=104 element=ext_dm_alignment_zero_bit",
    ),
    refused(
        "59 80 81 C0 E0 70 33 00 80 06 00 20 02 00",
        "result=7 offset=102 element=ext_dm_alignment_zero_bit value=1 allowed=0-0",
    ),
    refused(
        "59 80 81 C0 E0 70 33 00 80 06 00 20 02",
        "result=7 offset=102 element=ext_dm_alignment_zero_bit value=1 allowed=0-0",
    ),
    // 02, f: 1 and 2 at the codes of the header that are not yet among these.
    refused("40", "result=1 offset=3 element=app_version"),
    refused("58", "result=1 offset=5 element=num_ext_blocks"),
    refused("40 00 00 00 00", "result=2 offset=3 element=app_version"),
    refused("58 00 00 00 00", "result=2 offset=5 element=num_ext_blocks"),
    // A length of 10 before level 2, and one of 5 before level 5.
    refused(
        "5A 16 04",
        "result=9 offset=8 element=ext_block_length value=10 allowed=11-11",
    ),
    refused(
        "5A 30 28",
        "result=9 offset=8 element=ext_block_length value=5 allowed=7-7",
    ),
    // "allowed runs from min_PQ to max_PQ, or is the word none where min is above max":
    // the two equal with avg_PQ below and above, avg_PQ below min_PQ, then none, with
    // avg_PQ between the two and equal to one of them.
    refused(
        "5A 30 0A 00 20 01 FF 80",
        "result=10 offset=8 element=avg_PQ value=1023 allowed=1024-1024",
    ),
    refused(
        "5A 30 0A 00 20 02 00 80",
        "result=10 offset=8 element=avg_PQ value=1025 allowed=1024-1024",
    ),
    refused(
        "5A 30 0A 00 60 01 FF 80",
        "result=10 offset=8 element=avg_PQ value=1023 allowed=1024-3072",
    ),
    none_allowed(
        3072,
        1024,
        refused(
            "5A 30 0E 00 20 04 00 00",
            "result=10 offset=8 element=avg_PQ value=2048 allowed=none",
        ),
    ),
    none_allowed(
        1024,
        1023,
        refused(
            "5A 30 0A 00 1F FA 00 00",
            "result=10 offset=8 element=avg_PQ value=1024 allowed=none",
        ),
    ),
    // "the value is the number of bytes left over"
    refused(
        "50 00 00 00",
        "result=12 offset=8 element=end value=3 allowed=0-0",
    ),
    // A bit of the third offset of level 5 is missing, in the second block of that level:
    // 1 comes before 18.
    refused(
        "5B 10 0A 00 00 00 04 50 22 80 20 14 00 00 00 00",
        "result=1 offset=120 element=active_area_top_offset",
    ),
];

/// Payloads of one block, of level 1, 2 and 5, and where each of their cuts, from no
/// bytes up to all but one, gets 1, and at which element. Their fields begin at these
/// bits: 21, 33 and 45; 23, 35, 47, 59, 71, 83 and 95; 23, 36, 49 and 62.
const CUTS: [(&str, &[(u32, &str)]); 3] = [
    (
        "5A 30 08 00 60 02 00 00",
        &[
            (0, "app_identifier"),
            (8, "ext_block_length"),
            (13, "ext_block_level"),
            (21, "min_PQ"),
            (21, "min_PQ"),
            (33, "max_PQ"),
            (45, "avg_PQ"),
            (45, "avg_PQ"),
        ],
    ),
    (
        "5A 18 04 00 00 00 00 00 00 00 00 01 FF F0",
        &[
            (0, "app_identifier"),
            (8, "ext_block_length"),
            (15, "ext_block_level"),
            (23, "target_max_PQ"),
            (23, "target_max_PQ"),
            (35, "trim_slope"),
            (47, "trim_offset"),
            (47, "trim_offset"),
            (59, "trim_power"),
            (71, "trim_chroma_weight"),
            (71, "trim_chroma_weight"),
            (83, "trim_saturation_gain"),
            (95, "ms_weight"),
            (95, "ms_weight"),
        ],
    ),
    (
        "5A 10 0A 00 00 00 04 50 22 80",
        &[
            (0, "app_identifier"),
            (8, "ext_block_length"),
            (15, "ext_block_level"),
            (23, "active_area_left_offset"),
            (23, "active_area_left_offset"),
            (36, "active_area_right_offset"),
            (36, "active_area_right_offset"),
            (49, "active_area_top_offset"),
            (62, "active_area_bottom_offset"),
            (62, "active_area_bottom_offset"),
        ],
    ),
];

/// So many blocks of level 2 with different targets, from 0 on, then some with these,
/// and what that gets. The code of num_ext_blocks has nine bits from 15 to 30, so the
/// first block begins at bit 16; each has 103, so that the sixteenth begins at bit 1,561
/// and the seventeenth at bit 1,664.
const TARGETS: [(u16, &[u16], &str); 6] = [
    (16, &[], "result=0"),
    (
        15,
        &[7],
        "result=11 offset=1561 element=target_max_PQ value=7 allowed=other",
    ),
    (
        16,
        &[16],
        "result=19 offset=1664 element=ext_block_level value=2 allowed=other",
    ),
    // "If 11 and 19 both apply, 19 comes first"; an earlier 11 decides.
    (
        16,
        &[0],
        "result=19 offset=1664 element=ext_block_level value=2 allowed=other",
    ),
    (
        16,
        &[15, 99],
        "result=19 offset=1664 element=ext_block_level value=2 allowed=other",
    ),
    (
        15,
        &[14, 98, 99],
        "result=11 offset=1561 element=target_max_PQ value=14 allowed=other",
    ),
];

/// The number and the facts that a text tells. For `none` it tells no numbers.
fn told_by(why: &str, none: (u32, u32)) -> (u32, [u32; READING]) {
    let mut number = 0;
    let mut facts = [0; READING];
    for line in why.split(' ') {
        let (key, value) = line.split_once('=').unwrap();
        match (key, value) {
            ("result", _) => number = value.parse().unwrap(),
            ("offset", _) => facts[OFFSET] = value.parse().unwrap(),
            ("element", _) => {
                // A name that is none of them has no number, and no reading gives it.
                let place = ELEMENTS.iter().position(|(_, name)| *name == value);
                facts[ELEMENT] = place.map_or(0, |place| place as u32 + 1);
                facts[IN_WRAPPER] = (value == "wrapper") as u32;
            }
            ("value", _) => facts[VALUE] = value.parse().unwrap(),
            ("allowed", "other") => facts[KIND] = OTHER,
            ("allowed", _) => {
                let range = value.split_once('-');
                let (lowest, highest) = match range {
                    Some((lowest, highest)) => (lowest.parse().unwrap(), highest.parse().unwrap()),
                    None => none,
                };
                facts[KIND] = RANGE;
                facts[LOWEST] = lowest;
                facts[HIGHEST] = highest;
            }
            _ => panic!("no key of a text: {}", key),
        }
    }
    (number, facts)
}

fn from_hex(text: &str) -> Vec<u8> {
    text.split_whitespace()
        .map(|byte| u8::from_str_radix(byte, 16).unwrap())
        .collect()
}

/// Reads a listed payload, and holds the answer and the text to what stands there. Gives
/// the number.
fn hold_payload(compare: &mut Compare, listed: &Listed<'_>, payload: &[u8]) -> u32 {
    let answer = compare.read_lent(listed.wrapped, payload, FLAT, READING);
    let (number, mut facts) = told_by(listed.why, listed.none);
    facts[BITS] = listed.bits;
    facts[SKIPPED] = listed.skipped;
    if number != 0 {
        compare.count_known(Known::marked(facts[IN_WRAPPER] == 1));
    }
    if answer != number || compare.all_facts() != facts {
        compare.fail(
            "both implementations answer a listed payload otherwise than the papers",
            &format!("payload: {}", hex(payload)),
            &format!(
                "papers: {}, {}\nboth: {}, {}",
                number,
                in_words(&facts),
                answer,
                compare.facts_text()
            ),
        );
    }
    let wrapper: &[u8] = if listed.wrapped { &[] } else { &WRAPPER };
    let text = compare.text(&[wrapper, payload].concat());
    if text != listed.why.replace(' ', "\n") + "\n" {
        compare.fail(
            "both implementations tell of a listed payload otherwise than the papers",
            &format!("payload: {}", hex(payload)),
            &format!("papers: {}\nboth: {:?}", listed.why, text),
        );
    }
    number
}

/// Every listed payload, read; accepted ones are also written from the record
/// that the papers name. Gives the number of payloads.
pub fn compare_listed(compare: &mut Compare) -> usize {
    compare.begin("the payloads that 01 lists".to_string());
    let mut cases = LISTED.len();
    for listed in &LISTED {
        let payload = from_hex(listed.payload);
        let number = hold_payload(compare, listed, &payload);
        let mut record = [0; FLAT];
        record[..listed.record.len()].copy_from_slice(listed.record);
        if number == 0 {
            if compare.record() != record {
                compare.fail(
                    "both implementations read a listed payload to another record",
                    &format!("payload: {}", listed.payload),
                    &format!("both: {:?}", compare.record()),
                );
            }
            compare.write(listed.wrapped, &record, payload.len());
        }
        compare.read(listed.wrapped, &payload);
    }
    for (payload, elements) in CUTS {
        let payload = from_hex(payload);
        assert_eq!(payload.len(), elements.len());
        for (n, (offset, element)) in elements.iter().enumerate() {
            let why = format!("result=1 offset={} element={}", offset, element);
            hold_payload(compare, &refused("", &why), &payload[..n]);
            cases += 1;
        }
    }
    for (different, more, why) in TARGETS {
        let list: Vec<Block> = (0..different)
            .chain(more.iter().copied())
            .map(|target_max_pq| Block::Level2 {
                target_max_pq,
                trim_slope: 0,
                trim_offset: 0,
                trim_power: 0,
                trim_chroma_weight: 0,
                trim_saturation_gain: 0,
                ms_weight: 0,
            })
            .collect();
        let payload = plan(&list).payload().bytes;
        // 16 blocks alone end at a byte boundary: 16 and 16 times 103 bits.
        let bits = if more.is_empty() { 16 + 16 * 103 } else { 0 };
        let listed = Listed {
            bits,
            ..refused("", why)
        };
        hold_payload(compare, &listed, &payload);
        cases += 1;
    }
    // "224 bytes bare", "Wrapped: 232 bytes", 1,788 bits and 4 zeros.
    let largest = flat(&holding(&blocks(
        &mut Rng::new(224),
        true,
        LEVEL_2_BLOCKS,
        true,
    )));
    for (wrapped, bytes) in [(false, BARE_BYTES), (true, WRAPPED_BYTES)] {
        let short = compare.write(wrapped, &largest, bytes - 1);
        let number = compare.write_lent(wrapped, &largest, bytes + 1);
        let written = compare.single();
        compare.write(wrapped, &largest, bytes);
        let bits = compare.bits();
        if short != 13 || number != 0 || written as usize != bytes || bits != 1788 + 4 {
            compare.fail(
                "both implementations write the largest record otherwise than 01",
                "",
                &format!("written: {}, read again: {} bits", written, bits),
            );
        }
    }
    cases
}

// ------------------------------------------------------------------- units

/// A message of ours with 01's payload 50, and one with its payload 51, which
/// gets 7.
const ACCEPTED: &str = "04 09 B5 00 31 47 41 39 34 09 50";
const REFUSED: &str = "04 09 B5 00 31 47 41 39 34 09 51";
/// One with 01's payload 5A 81 80, of which 02, b has one block passed over.
const SKIPPING: &str = "04 0B B5 00 31 47 41 39 34 09 5A 81 80";

/// What stands in a unit, `A` for ACCEPTED, `R` for REFUSED and `S` for SKIPPING,
/// and what the unit gets by 02, a.
const UNITS: [(&str, u32); 76] = [
    // Types 39 and 40, any layer, any temporal id plus one but 0.
    ("4E 01 A 80", 0),
    ("50 01 A 80", 0),
    ("4E 07 A 80", 0),
    ("4E F9 A 80", 0),
    ("4F 01 A 80", 0),
    ("51 FF A 80", 0),
    // 30: "unit shorter than two bytes [..], first header bit set, temporal id
    // plus one of 0, or another type"
    ("", 30),
    ("4E", 30),
    ("50", 30),
    ("CE 01 A 80", 30),
    ("4E 00 A 80", 30),
    ("4E F8 A 80", 30),
    ("4C 01 A 80", 30),
    ("52 01 A 80", 30),
    ("0E 01 A 80", 30),
    ("00 00 01 4E 01 A 80", 30),
    // 31: "two zero bytes followed by 00, 01 or 02, or by 03 and then a byte
    // above 03"
    ("4E 01 00 00 00", 31),
    ("4E 01 00 00 01", 31),
    ("4E 01 00 00 02", 31),
    ("4E 01 00 00 03 04", 31),
    ("4E 01 00 00 03 80", 31),
    ("4E 01 05 03 00 00 02 A 80", 31),
    ("4E 01 A 05 04 00 00 03 04 80", 31),
    ("4E 01 A 80 00 00 01", 31),
    ("4E 01 A 80 00 00 03 FF", 31),
    // Emulation prevention that is right, before ours, in it and behind it. The
    // zeros of a content and of a type, of a size, and of an empty message.
    ("4E 01 05 03 00 00 03 02 A 80", 0),
    ("4E 01 05 03 00 00 03 03 A 80", 0),
    ("4E 01 05 03 00 00 04 A 80", 0),
    ("4E 01 05 05 00 00 03 00 00 03 00 A 80", 0),
    ("4E 01 00 00 03 00 00 A 80", 0),
    ("4E 01 05 02 00 00 03 01 00 A 80", 0),
    ("4E 01 05 01 00 00 03 02 00 00 A 80", 0),
    (
        "4E 01 04 10 B5 00 31 47 41 39 34 09 5A 30 08 00 00 03 00 00 03 00 80",
        0,
    ),
    (
        "4E 01 04 10 B5 00 31 47 41 39 34 09 5A 30 08 00 00 00 00 00 80",
        31,
    ),
    // 32: "no message at all"
    ("4E 01", 32),
    ("4E 01 80", 32),
    // "a type, size or content that runs past the end": all of it is judged
    // before a good message that stands before it.
    ("4E 01 04", 32),
    ("4E 01 FF", 32),
    ("4E 01 FF FF", 32),
    ("4E 01 04 FF", 32),
    ("4E 01 04 FF FF", 32),
    ("4E 01 04 01", 32),
    ("4E 01 05 02 80", 32),
    ("4E 01 A 05 02 00 80", 32),
    ("4E 01 A 05", 32),
    ("4E 01 A FF 80", 32),
    ("4E 01 A 05 FF 80", 32),
    ("4E 01 A 05 01 80", 32),
    // "an end that is not the single byte 80 after a whole message"
    ("4E 01 A", 32),
    ("4E 01 A 00", 32),
    ("4E 01 A 40", 32),
    ("4E 01 A 81", 32),
    ("4E 01 A C0", 32),
    ("4E 01 A 80 00", 32),
    ("4E 01 A 80 00 00", 32),
    ("4E 01 A 80 80", 32),
    ("4E 01 A 80 00 00 03", 32),
    ("4E 01 A 00 00 03", 32),
    ("4E 01 00 00 03", 32),
    // 80 before another byte is the type 128.
    ("4E 01 A 80 00 80", 0),
    ("4E 01 80 00 A 80", 0),
    ("4E 01 80 01 80 A 80", 0),
    ("4E 01 80 00 80", 33),
    // 33: "none of our messages". FF 04 is the type 259. A message of type 4
    // that has fewer than eight bytes, or others, is not ours.
    ("4E 01 05 00 80", 33),
    ("4E 01 04 00 80", 33),
    ("4E 01 04 07 B5 00 31 47 41 39 34 80", 33),
    ("4E 01 04 09 B5 00 31 47 41 39 34 03 50 80", 33),
    ("4E 01 05 09 B5 00 31 47 41 39 34 09 50 80", 33),
    ("4E 01 FF 04 09 B5 00 31 47 41 39 34 09 50 80", 33),
    ("4E 01 04 07 B5 00 31 47 41 39 34 04 00 FF 04 00 A 80", 0),
    // The first of ours decides.
    ("4E 01 A R 80", 0),
    // Reserved blocks in a unit.
    ("4E 01 S 80", 0),
    ("50 01 05 01 55 S 05 00 80", 0),
    ("4E 01 S", 32),
    // 01's refusals come behind those of the unit.
    ("4E 01 R", 32),
    ("4E 00 R 00 00 01", 30),
];

/// Units whose message of ours is refused, and why, with the bit of its data. A byte of
/// emulation prevention does not count, nor does what stands before the message.
const REFUSED_UNITS: [(&str, &str); 9] = [
    (
        "4E 01 R 80",
        "result=7 offset=7 element=dm_alignment_zero_bit value=1 allowed=0-0",
    ),
    (
        "4E 01 R A 80",
        "result=7 offset=7 element=dm_alignment_zero_bit value=1 allowed=0-0",
    ),
    (
        "4E 01 R S 80",
        "result=7 offset=7 element=dm_alignment_zero_bit value=1 allowed=0-0",
    ),
    (
        "50 01 05 03 00 00 03 02 R 80",
        "result=7 offset=7 element=dm_alignment_zero_bit value=1 allowed=0-0",
    ),
    (
        "4E 01 04 08 B5 00 31 47 41 39 34 09 A 80",
        "result=1 offset=0 element=app_identifier",
    ),
    // 01's payload with three zeros: its last bit is a one, a byte more, a byte fewer.
    (
        "4E 01 04 10 B5 00 31 47 41 39 34 09 5A 30 08 00 00 03 00 00 03 01 80",
        "result=7 offset=63 element=dm_alignment_zero_bit value=1 allowed=0-0",
    ),
    (
        "4E 01 04 11 B5 00 31 47 41 39 34 09 5A 30 08 00 00 03 00 00 03 00 00 80",
        "result=12 offset=64 element=end value=1 allowed=0-0",
    ),
    (
        "4E 01 04 0F B5 00 31 47 41 39 34 09 5A 30 08 00 00 03 00 00 80",
        "result=1 offset=45 element=avg_PQ",
    ),
    // A second level 1 with three zeros.
    (
        "4E 01 04 17 B5 00 31 47 41 39 34 09 5B 30 08 00 00 03 00 00 03 01 80 40 00 00 03 00 00 03 00 80",
        "result=17 offset=61 element=ext_block_level value=1 allowed=other",
    ),
];

/// The bytes of a listed unit, spelled out.
fn spelled(text: &str) -> String {
    let words: Vec<&str> = text
        .split_whitespace()
        .map(|word| match word {
            "A" => ACCEPTED,
            "R" => REFUSED,
            "S" => SKIPPING,
            byte => byte,
        })
        .collect();
    words.join(" ")
}

/// Reads a listed unit, and holds the answer to what stands there.
fn hold_unit(
    compare: &mut Compare,
    text: &str,
    number: u32,
    facts: [u32; READING],
    record: &[i32],
) {
    let answer = compare.read_unit(&from_hex(&spelled(text)));
    if answer != number
        || compare.all_facts() != facts
        || (number == 0 && compare.record() != record)
    {
        compare.fail(
            "both implementations answer a listed unit otherwise than 02",
            &format!("unit: {}", spelled(text)),
            &format!(
                "02: {}, {}\nboth: {}, {}",
                number,
                in_words(&facts),
                answer,
                compare.facts_text()
            ),
        );
    }
}

/// Every listed unit. What is accepted is the empty record, with a reserved block
/// the record of no blocks, or in the one with zeros in its data 01's payload with
/// three zeros. Gives the number of units.
pub fn compare_units(compare: &mut Compare) -> usize {
    compare.begin("the units that 02 decides".to_string());
    for (text, expected) in UNITS {
        let holds = |message: &str| text.split_whitespace().any(|word| word == message);
        // Refusals of the unit are about no element and have no offset.
        let mut facts = [0; READING];
        let mut record = [0; FLAT];
        if expected == 0 {
            facts[..2].copy_from_slice(&[8, 0]);
            if holds("S") {
                record[0] = 1;
                facts[..2].copy_from_slice(&[24, 1]);
            } else if !holds("A") {
                record[..3].copy_from_slice(&[1, 1, 1]);
                facts[..2].copy_from_slice(&[64, 0]);
            }
        }
        hold_unit(compare, text, expected, facts, &record);
    }
    for (text, why) in REFUSED_UNITS {
        let (number, facts) = told_by(why, (0, 0));
        hold_unit(compare, text, number, facts, &[]);
        compare.count_known(Known::InUnit);
    }
    UNITS.len() + REFUSED_UNITS.len()
}
