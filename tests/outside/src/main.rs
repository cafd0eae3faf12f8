//! Tests from outside: the archive's calls and the program `reduce` against a plain model, over inputs from fixed seeds.
//! `outside PROGRAM [WORD] [--share N]`: with a word, only the groups whose names have it; with a share, one in N of the inputs.
//! The last line is 'N passed, M failed', and the line before it tells how many inputs there were.

mod bundle_calls;
mod calls;
mod checks;
mod count;
mod groups;
mod guarded;
mod listed;
mod make;
mod make_bundles;
mod plain;
mod plain_bundle;
mod random;
mod raw;
mod share;

use groups::{
    bundles, enumerated, grids, inverse, lists, orders, packets, program, reduction, refusals, sheet, streams, unread, views,
    writer, Tried,
};
use random::Random;
use std::panic::catch_unwind;
use std::time::Instant;

type Part = fn(&mut Random) -> Tried;

/// a group's name and its parts
const GROUPS: &[(&str, &[Part])] = &[
    ("worked examples, largest and first too large numbers", &[sheet::reductions, sheet::packets, sheet::limits]),
    ("empty buffers as null pointers", &[sheet::empty_buffers]),
    ("model: both plain solvers agree (no call of the library)", &[packets::models_agree]),
    ("row views: rows that repeat each other, each at its own place", &[views::repeated_rows]),
    ("row views: numbers around every bound, every set of refusals", &[views::grid, views::refusals]),
    ("reduction: every matrix of up to 12 bits, every k", &[enumerated::matrices]),
    ("reduction: small, every k", &[reduction::small]),
    ("reduction: every style at the borders of words, every k", &[reduction::styles]),
    ("reduction: rows around multiples of k, every rank", &[reduction::rows_around_k]),
    ("reduction: middle and large", &[reduction::borders, reduction::shapes, reduction::large, reduction::largest_of_every_style]),
    ("reduction: every set of refusals", &[refusals::reduce]),
    ("reduction: numbers around every bound", &[grids::reduce]),
    ("inverse: every matrix of up to 4 rows", &[enumerated::squares]),
    ("inverse: small, every k, both products", &[inverse::small]),
    ("inverse: kinds that have one, spoilt and not, every k, up to 512 rows", &[inverse::kinds, inverse::large]),
    ("inverse: every set of refusals", &[refusals::invert]),
    ("inverse: numbers around every bound", &[grids::invert]),
    ("packets: every list of up to 12 bits, both calls, against all images", &[enumerated::lists]),
    ("solving: against all images", &[packets::against_all_images]),
    ("solving: against the plain reduction", &[packets::middle]),
    ("packets: lists of a known image, changed, both calls", &[packets::changed_small, packets::changed_large, packets::large]),
    ("solving: every set of refusals", &[refusals::solve]),
    ("solving: numbers around every bound", &[grids::solve]),
    ("solving: lists that grow", &[lists::growths]),
    ("solving: order and repeats", &[lists::order_and_repeats]),
    ("contradiction: named packets contradict, none if solvable", &[packets::contradictions_small, packets::contradictions_large]),
    ("contradiction: every set of refusals", &[refusals::contradiction]),
    ("contradiction: numbers around every bound", &[grids::contradiction]),
    ("refusals before the padding's: no word of the matrix is read", &[unread::calls, unread::views]),
    ("bundles: good, of many shapes", &[bundles::good]),
    ("bundles: entries that are none, words too few and too many", &[bundles::places]),
    ("bundles: cut at every byte, and the longest", &[bundles::cut, bundles::lengths]),
    ("bundles: damaged, every byte in turn another", &[bundles::damaged, bundles::every_byte]),
    ("bundles: every set of faults of two entries", &[orders::reading]),
    ("bundles: every set of faults of a place", &[orders::places]),
    ("bundles: numbers past every bound", &[bundles::limits]),
    ("bundles: padding of every entry, read and written", &[bundles::padding, writer::padding_of_each]),
    ("bundles: writer", &[writer::good]),
    ("bundles: every set of the writer's refusals", &[writer::refusals, writer::entry_by_entry]),
    ("bundles: lists of every length, near the limit", &[writer::grid, writer::near_the_limit]),
    ("bundles: round trips", &[writer::round_trips]),
    ("program: from files", &[program::files]),
    ("program: from pipes, in pieces, and too long", &[program::pieces, program::too_long]),
    ("program: streams that fail, and input that pauses", &[streams::failing, streams::pausing]),
];

/// all parts of a group, each with numbers of its own
fn try_all(seed: usize, parts: &[Part]) -> Tried {
    for (place, part) in parts.iter().enumerate() {
        share::begin();
        part(&mut Random::new((seed * 16 + place + 1) as u64))?;
    }
    Ok(())
}

/// true if the group passed; says so in a line
fn passes(place: usize, name: &str, parts: &[Part]) -> bool {
    let (start, before) = (Instant::now(), count::so_far());
    let tried = catch_unwind(|| try_all(place, parts)).unwrap_or_else(|_| Err("it panicked".into()));
    let (seconds, inputs) = (start.elapsed().as_secs_f64(), count::so_far() - before);
    match &tried {
        Ok(()) => println!("passed  {name}: {inputs} inputs, {seconds:.1} s"),
        Err(what) => println!("FAILED  {name}: {what} (after {inputs} inputs)"),
    }
    tried.is_ok()
}

/// the word, or none; sets the share
fn arguments() -> String {
    let mut given: Vec<String> = std::env::args().skip(2).collect();
    if let Some(place) = given.iter().position(|argument| argument == "--share") {
        let number = given.drain(place..).nth(1).and_then(|text| text.parse().ok()).filter(|&number| number > 0);
        share::choose(number.expect("--share N, N above 0"));
    }
    given.into_iter().next().unwrap_or_default()
}

fn main() {
    let word = arguments();
    let chosen = GROUPS.iter().enumerate().filter(|(_, (name, _))| name.contains(&word));
    let results: Vec<bool> = chosen.map(|(place, (name, parts))| passes(place, name, parts)).collect();
    let passed = results.iter().filter(|passed| **passed).count();
    match share::one_in() {
        1 => println!("{} inputs in all", count::so_far()),
        n => println!("{} inputs in all, a share: one in {n}, but each set of refusals or faults once", count::so_far()),
    }
    println!("{passed} passed, {} failed", results.len() - passed);
    std::process::exit(i32::from(passed != results.len()));
}
