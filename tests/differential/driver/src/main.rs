//! The program that compares the port with the Rust: `compare`, `day`, `list`, `bench`.

// `run compare` takes an export that port.rs calls for one that is compared, so what stands there must be used.
#![deny(dead_code, unused_imports)]

mod card;
mod channelizer;
mod day;
mod formats;
mod functions;
mod gaussian;
mod halfband;
mod kaiser;
mod lowpass;
mod retune;
mod rrc;
mod run;
mod sections;
mod spec;
mod windows;

use std::path::Path;
use std::process::ExitCode;

const USAGE: &str = "usage: driver compare [--count N] [--tickets N] [--seed S]
     | driver day [--tickets N] [--seed S] [--state FILE]
     | driver list [--count N] [--tickets N]
     | driver bench";

/// The number after `name` in the words, or the one given.
fn number(words: &[String], name: &str, otherwise: u64) -> Option<u64> {
    match words.iter().position(|word| word == name) {
        Some(place) => words.get(place + 1)?.parse().ok(),
        None => Some(otherwise),
    }
}

/// Whether the words are pairs that begin with one of the names.
fn known(words: &[String], names: &[&str]) -> bool {
    words
        .chunks(2)
        .all(|pair| pair.len() == 2 && names.contains(&pair[0].as_str()))
}

/// Puts wrong functions, designers, turns, readers of cards and writers of tickets in the port's place, and lists of
/// taps that hardly keep or break a total before its check; true if each one was noticed.
fn faults_noticed(seed: u64) -> bool {
    let (functions, of_functions) = functions::compare::run_faults(seed);
    let (designers, of_designers) = run::compare::run_faults(seed);
    let (turns, of_turns) = retune::compare::run_faults(seed);
    let (cards, of_cards) = card::compare::run_faults(seed);
    let noticed = functions + designers + turns + cards;
    let all = of_functions + of_designers + of_turns + of_cards;
    println!("planted faults: {noticed} of {all} noticed");
    let (judged, lists) = run::totals::run_faults();
    println!("lists of taps for the totals: {judged} of {lists} judged rightly");
    noticed == all && judged == lists
}

/// Runs what the words ask for; nothing if they can't be understood.
fn run(words: &[String]) -> Option<bool> {
    let (command, rest) = words.split_first()?;
    match command.as_str() {
        "compare" if known(rest, &["--count", "--tickets", "--seed"]) => {
            let count = number(rest, "--count", 2_000_000)?;
            let tickets = number(rest, "--tickets", 15_000 * run::kinds::SHARES)?;
            let seed = number(rest, "--seed", 1)?;
            let ready = run::smoke::run() & faults_noticed(seed);
            let functions = functions::compare::run(count, seed);
            let designers = run::compare::run(tickets, seed);
            let turns = retune::compare::run(tickets, seed);
            let cards = card::compare::run(tickets, seed);
            Some(ready && functions && designers && turns && cards)
        }
        "day"
            if known(
                rest,
                &["--tickets", "--seed", "--state", "--stop-after", "--plant"],
            ) =>
        {
            let asked = day::Asked {
                tickets: number(rest, "--tickets", 20_000_000)?,
                seed: number(rest, "--seed", 20_000_001)?,
                stop_after: number(rest, "--stop-after", u64::MAX)?,
                planted: number(rest, "--plant", 0)?,
            };
            let place = rest.iter().position(|word| word == "--state");
            let state = place.map_or("target/differential/day.state", |place| &rest[place + 1]);
            Some(day::run(&asked, Path::new(state)))
        }
        "list" if known(rest, &["--count", "--tickets"]) => {
            run::list::run(number(rest, "--count", 150)? as usize);
            run::list::run_tickets(number(rest, "--tickets", 40)? as usize);
            Some(true)
        }
        "bench" if rest.is_empty() => {
            run::bench::run();
            Some(true)
        }
        _ => None,
    }
}

fn main() -> ExitCode {
    let words: Vec<String> = std::env::args().skip(1).collect();
    match run(&words) {
        Some(true) => ExitCode::SUCCESS,
        Some(false) => ExitCode::FAILURE,
        None => {
            eprintln!("{USAGE}");
            ExitCode::from(2)
        }
    }
}
