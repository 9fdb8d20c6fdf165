//! Compares the verified library with the plain reference, call by call:
//!
//!     cargo run --release --bin differential [CALLS [SEED]]
//!
//! It passes where the library has the version that its calls are compared for, no call
//! and no byte product made a difference, and all of this has come up on both ways to a
//! verdict: every reply, those of a hearing by who was present, by the one word of a
//! level that is wrong and by what was opened; every fault of a record, met by every
//! call that judges one; and whole auctions that end in every way, with and without
//! parties that drop off, and in the same way on both. Every call on a record was lent
//! one of another length, with and without a fault in what needs no record, and every
//! fault of a settlement page has been read. All byte products, the whole auctions and
//! some thousand pages come first, however few calls are asked for, and single calls
//! fill up the number; without enough of these, something may not come up.

use std::env;
use std::process::ExitCode;
use std::time::Instant;

use clockivy_checks::differential::{run, Difference, Tally};

const CALLS: u64 = 5_000_000;
const SEED: u64 = 1979;
/// The numbers of listed prices of the whole auctions.
const PRICES: [u64; 18] = [
    1, 2, 3, 4, 5, 7, 8, 15, 16, 17, 31, 33, 100, 255, 256, 1_000, 1_023, 1_024,
];

fn main() -> ExitCode {
    let arguments: Vec<String> = env::args().skip(1).collect();
    let numbers: Result<Vec<u64>, _> = arguments.iter().map(|word| word.parse()).collect();
    let (calls, seed) = match numbers.as_deref() {
        Ok([]) => (CALLS, SEED),
        Ok(&[calls]) => (calls, SEED),
        Ok(&[calls, seed]) => (calls, seed),
        _ => {
            eprintln!("usage: differential [CALLS [SEED]]");
            return ExitCode::from(2);
        }
    };

    let start = Instant::now();
    let mut tally = Tally::default();
    let outcome = run(seed, &PRICES, calls, &mut tally);
    println!("{tally}\n");
    println!(
        "seed {seed}, {} calls, {} whole auctions, {} byte products, {:.0} seconds",
        tally.calls(),
        tally.auctions(),
        tally.byte_products(),
        start.elapsed().as_secs_f64()
    );
    if let Err(Difference(what)) = outcome.and_then(|()| expected(&tally)) {
        println!("{what}");
        println!("differential: FAILED");
        return ExitCode::FAILURE;
    }
    let missing = missing(&tally);
    if !missing.is_empty() {
        println!("{}", missing.join("\n"));
        // As many calls as are made by default have to see them all.
        if tally.calls() < CALLS {
            println!("differential: no difference, but too few calls to see everything");
        } else {
            println!("differential: FAILED");
        }
        return ExitCode::FAILURE;
    }
    println!("differential: passed, every reply, record, buffer and byte product the same");
    ExitCode::SUCCESS
}

/// What has to come up and did not, a line for each.
fn missing(tally: &Tally) -> Vec<String> {
    let mut lines = Vec::new();
    for (kind, last, reply) in tally.unreached() {
        let name = kind.name();
        lines.push(format!("{name} never replied {reply}, {last} rounds"));
    }
    for (kind, last, condition) in tally.unmet() {
        let name = kind.name();
        lines.push(format!(
            "{name} met no such record, {last} rounds: {condition}"
        ));
    }
    for (last, place) in tally.unpaired() {
        lines.push(format!(
            "no pair share {place} was above 255, {last} rounds"
        ));
    }
    for (kind, reply) in tally.unlent() {
        let name = kind.name();
        lines.push(format!("{name} never replied {reply} to no record"));
    }
    for (present, reply) in tally.unheard() {
        lines.push(format!("hear never replied {reply} in {present}"));
    }
    for (fault, word) in tally.unfaulted() {
        lines.push(format!(
            "hear never refused such in word {word} of the levels: {fault}"
        ));
    }
    for reason in tally.unopened() {
        lines.push(format!("hear never refused such: {reason}"));
    }
    for condition in tally.unsettled() {
        lines.push(format!("no settlement page was such: {condition}"));
    }
    for ending in tally.unended() {
        lines.push(format!("no whole auction was such: {ending}"));
    }
    lines
}

/// No reply has come up that a call cannot give.
fn expected(tally: &Tally) -> Result<(), Difference> {
    match tally.unexpected().first() {
        Some((kind, reply)) => Err(Difference(format!("{} replied {reply}", kind.name()))),
        None => Ok(()),
    }
}
