//! The static library against the Rust text of copp, the processor's fused multiply-add and exact whole numbers.
//! `compare/run` builds and runs it, with bindings/rust as the crate `tezvorup`.
//!
//!   compare PERCENT   every comparison, a row each; 100 for the numbers of calls that README tells of
//!   time              every timing, a row each
//!   fused trials      the trials of crates/test_fused
//!   queries trials    the last trials of crates/test_query
//!   masters trials    the last trials of crates/test_master
//!   builds trials     the last trials of crates/test_build
//!   previews trials   the trials of crates/test_preview
//!   previews compare N  what is compared of previews: N calls at random, and every shape
//!   previews time     a preview beside the build, a row each
//!   numbers trials    the trials of crates/test_number
//!   numbers compare N  what is compared of numbers in pieces: N texts with every cut in three, and ten times as many records
//!   numbers time      what is timed of them
//!   sheets compare N  what is compared of job sheets: N judgements, and fewer builds and runs of the program
//!   sheets time       what is timed of them
//!   sheets stack      the longest sheets with little stack; `sheets compare` runs it
//!   sheets watch N    N sheets read and built under valgrind
//!   sheets trials     sheets with all that is printed of each

use input::{diag, path};

mod asked;
mod builds;
mod exact;
mod fused;
mod input;
mod masters;
mod numbers;
mod previews;
mod queries;
mod query;
mod random;
mod rows;
mod set;
mod sheet;
mod sheet_trials;
mod sheets;
// The text of src/path/spline.rs, unchanged, with functions after it that hand out what is private there.
#[allow(dead_code)]
mod spline;
mod trials;
mod typed;

fn compare(percent: u64) {
    fused::compare(800_000 * percent);
    builds::compare(3_000 * percent);
    previews::compare(3_000 * percent);
    queries::compare(20_000 * percent);
    masters::compare(20_000 * percent);
    numbers::compare(1_000 * percent);
    sheets::compare(15_000 * percent);
}

fn time() {
    builds::time();
    queries::time();
    fused::time();
    masters::time();
    numbers::time();
    sheets::time();
}

fn main() {
    let words: Vec<String> = std::env::args().skip(1).collect();
    match words.iter().map(String::as_str).collect::<Vec<_>>().as_slice() {
        ["compare", percent] => compare(percent.parse().expect("a whole number")),
        ["time"] => time(),
        ["fused", "trials"] => fused::trials(),
        ["queries", "trials"] => queries::trials(5_040),
        ["masters", "trials"] => masters::trials(),
        ["builds", "trials"] => builds::trials(),
        ["previews", "trials"] => previews::trials(),
        ["previews", "compare", count] => previews::compare(count.parse().expect("a whole number")),
        ["previews", "time"] => previews::time(),
        ["numbers", "trials"] => numbers::trials(),
        ["numbers", "compare", count] => numbers::compare(count.parse().expect("a whole number")),
        ["numbers", "time"] => numbers::time(),
        ["sheets", "compare", count] => sheets::compare(count.parse().expect("a whole number")),
        ["sheets", "time"] => sheets::time(),
        ["sheets", "stack"] => sheets::stack(),
        ["sheets", "watch", count] => sheets::watch(count.parse().expect("a whole number")),
        ["sheets", "trials"] => sheet_trials::print(),
        _ => panic!("compare PERCENT, time, or NAME trials, or what else the head of this file has"),
    }
}
