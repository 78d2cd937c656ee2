//! An independent second implementation of the record, its reader and writer, the
//! text that says why, the units, the shader numbers and the tracks, written from 01,
//! 02, A/341 and H.265 alone, and its comparison with the proved library. See README.md.

// The entry is C's `main`, not Rust's. Before Rust's `main` the runtime asks
// for the bounds of the stack, glibc reads /proc/self/maps for it, and the
// emulator under which this program runs on other machines than x86-64
// (qemu-x86_64 8.2.2) crashes when that file is opened.
#![no_main]

mod bench;
mod codes;
mod compare;
mod listed;
mod made;
mod own;
mod plan;
mod proved;
mod reader;
mod record;
mod reserved;
mod rival;
mod runs;
mod segments;
mod shader;
mod track;
mod unit;
mod units;
mod why;
mod writer;

use bench::Implementation;
use compare::Compare;
use std::io::{self, Read as _, Write as _};
use std::os::raw::{c_char, c_int};

/// Joins and lookups of one round, at least.
const JOINS_AND_LOOKUPS: u64 = 110_000;
/// Rounds of `second many`.
const MANY: u64 = 100;
/// "of a longer input the first 4,096 bytes" (01, of show, whose input `why` takes).
const INPUT_LIMIT: u64 = 4096;

fn usage() -> c_int {
    eprintln!("usage: second            compares, one round");
    eprintln!("       second many       compares, {} rounds", MANY);
    eprintln!("       second bench OP IMPL N");
    eprintln!("         OP   {}", bench::OPERATIONS.join(", "));
    eprintln!("         IMPL own, proved, and for read and skip: rival");
    eprintln!("       second stack OP IMPL");
    eprintln!("         OP   {}", bench::STACK_OPERATIONS.join(", "));
    eprintln!("       second sizes");
    eprintln!("       second why        prints why wrapped data from standard input is refused");
    2
}

fn implementation(name: &str) -> Option<Implementation> {
    match name {
        "own" => Some(Implementation::Own),
        "proved" => Some(Implementation::Proved),
        "rival" => Some(Implementation::Rival),
        _ => None,
    }
}

#[no_mangle]
pub extern "C" fn main(_argc: c_int, _argv: *const *const c_char) -> c_int {
    let arguments: Vec<String> = std::env::args().skip(1).collect();
    let words: Vec<&str> = arguments.iter().map(String::as_str).collect();
    match words[..] {
        [] => compare_all(1),
        ["many"] => compare_all(MANY),
        ["bench", operation, name, n] => match (implementation(name), n.parse()) {
            (Some(whose), Ok(n)) => match bench::bench(operation, whose, n) {
                Some(sum) => {
                    bench::print(sum);
                    0
                }
                None => usage(),
            },
            _ => usage(),
        },
        ["stack", operation, name] => match implementation(name) {
            Some(whose) => match bench::stack(operation, whose) {
                Some(bytes) => {
                    println!("{}", bytes);
                    0
                }
                None => usage(),
            },
            None => usage(),
        },
        ["sizes"] => {
            println!("{}", bench::sizes());
            0
        }
        ["why"] => match why_standard_input() {
            Ok(()) => 0,
            Err(error) => {
                eprintln!("second why: {}", error);
                2
            }
        },
        _ => usage(),
    }
}

/// 02, f: "A program takes show's input and prints [..] key=value lines".
fn why_standard_input() -> io::Result<()> {
    let mut input = Vec::new();
    io::stdin()
        .lock()
        .take(INPUT_LIMIT)
        .read_to_end(&mut input)?;
    let text = why::text(&reader::read_wrapped(&input));
    io::stdout().write_all(text.as_bytes())?;
    io::stdout().flush()
}

fn compare_all(rounds: u64) -> c_int {
    let mut compare = Compare::new();
    let listed = listed::compare_listed(&mut compare);
    println!("listed payloads: {}", listed);
    let small = runs::small_inputs(&mut compare);
    println!("inputs of 0, 1 and 2 bytes: {}", small);
    let wrappers = runs::wrappers(&mut compare);
    println!("cut wrappers and wrong wrapper bytes: {}", wrappers);
    let listed_units = listed::compare_units(&mut compare);
    println!("listed units: {}", listed_units);
    let small_units = units::small_units(&mut compare);
    println!("units of all headers, and of few bytes: {}", small_units);
    for round in 0..rounds {
        let payloads = runs::made_payloads(&mut compare, round);
        let cuts = runs::cuts(&mut compare, round);
        let flips = runs::bit_flips(&mut compare, round);
        let reserved = reserved::payloads(&mut compare, round);
        let codes = codes::payloads(&mut compare, round);
        let writes = runs::made_writes(&mut compare, round);
        let blocks = runs::shader_numbers(&mut compare, round);
        let placings = runs::placings(&mut compare, round);
        println!(
            "round {}: {} made inputs ({} payloads, {} cuts, {} bit flips, \
             {} payloads with reserved blocks, {} with numbers of codes, {} writes, {} blocks, \
             {} placings)",
            round,
            payloads + cuts + flips + reserved + codes + writes + blocks + placings,
            payloads,
            cuts,
            flips,
            reserved,
            codes,
            writes,
            blocks,
            placings
        );
        let made = units::made_units(&mut compare, round);
        let shaped = units::shaped_units(&mut compare, round);
        let unit_writes = units::unit_writes(&mut compare, round);
        println!(
            "round {}: {} units ({} made with faults and without, {} of one shape, {} writes)",
            round,
            made + shaped + unit_writes,
            made,
            shaped,
            unit_writes
        );
        let before = compare.joins_and_lookups();
        runs::full_tracks(&mut compare, round);
        let tables = runs::flat_points(&mut compare, round);
        let pairs = runs::tracks(&mut compare, round, JOINS_AND_LOOKUPS);
        let threes = segments::threes(&mut compare, round);
        let without = segments::without_segments(&mut compare, round);
        println!(
            "round {}: {} joins and lookups over {} pairs of tracks, {} tables of made points, \
             {} threes of tracks that share numbers and {} tables without a segment",
            round,
            compare.joins_and_lookups() - before,
            pairs,
            tables,
            threes,
            without
        );
    }
    if !compare.report() {
        println!("FAILED: an answer or a reason that can occur did not, or one that cannot did");
        return 1;
    }
    println!("no difference");
    0
}
