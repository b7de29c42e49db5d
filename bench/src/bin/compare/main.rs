// Compares the proved library with the plain implementation, case by case, and ends at the first difference with the case that shows it.
// Arguments: --seed S, --rounds R (a round is one case of each call), --case K (only that round, to see a difference again).

mod adding;
mod broken;
mod cases;
mod edges;
mod lent;
mod orders;
mod session;

use bench::random::Random;
use cases::{Outcome, CALLS};
use std::collections::BTreeMap;
use std::process::ExitCode;
use std::time::Instant;

const SEED: u64 = 20_240_917;
const ROUNDS: u64 = 16_000;
const SESSION_EVERY: u64 = 20;
const FULL_SESSION_EVERY: u64 = 600;
const ALL_REFUSALS_FROM: u64 = 4_000;

struct Wanted {
    seed: u64,
    rounds: u64,
    only: Option<u64>,
}

fn wanted() -> Result<Wanted, String> {
    let mut wanted = Wanted { seed: SEED, rounds: ROUNDS, only: None };
    let mut words = std::env::args().skip(1);
    while let Some(word) = words.next() {
        let value = words.next().and_then(|value| value.parse().ok());
        let value = value.ok_or_else(|| format!("{word} wants a number"))?;
        match word.as_str() {
            "--seed" => wanted.seed = value,
            "--rounds" => wanted.rounds = value,
            "--case" => wanted.only = Some(value),
            _ => return Err(format!("unknown argument {word}; known are --seed, --rounds and --case")),
        }
    }
    Ok(wanted)
}

/// How often each call gave each answer.
type Tally = BTreeMap<(usize, u32), u64>;

fn round(seed: u64, number: u64, tally: &mut Tally) -> Result<(), String> {
    for (i, call) in CALLS.iter().enumerate() {
        let mut random = Random::new(seed, number * 100 + i as u64);
        let outcome = (call.case)(&mut random);
        let answer = named(call.name, seed, number, outcome)?;
        *tally.entry((i, answer)).or_default() += 1;
    }
    if number.is_multiple_of(SESSION_EVERY) {
        let mut random = Random::new(seed, number * 100 + 99);
        named("session", seed, number, session::session(&mut random, number.is_multiple_of(FULL_SESSION_EVERY)))?;
    }
    Ok(())
}

fn named(call: &str, seed: u64, number: u64, outcome: Outcome) -> Outcome {
    outcome.map_err(|difference| format!("{call}, --seed {seed} --case {number}: {difference}"))
}

fn print_tally(tally: &Tally) {
    for (i, call) in CALLS.iter().enumerate() {
        let seen = |number: u32| tally.get(&(i, number)).copied().unwrap_or(0);
        let refusals: Vec<String> = call.refusals.iter().map(|&r| format!("{r}: {}", seen(r))).collect();
        println!("{:13} answered {:6}, refused {}", call.name, seen(0), refusals.join(", "));
    }
}

/// Every refusal of the calls' lists was given, so that no order went unseen; 7 of a job file is among the edges.
fn check_tally(tally: &Tally) -> Result<(), String> {
    for (i, call) in CALLS.iter().enumerate() {
        let missing = call.refusals.iter().chain(&[0]).find(|&&r| !tally.contains_key(&(i, r)));
        if let Some(number) = missing {
            return Err(format!("{}: no case gave {number}", call.name));
        }
    }
    Ok(())
}

fn compare() -> Result<(), String> {
    let wanted = wanted()?;
    let begun = Instant::now();
    let mut tally = Tally::new();
    println!("seed {}", wanted.seed);
    if let Some(number) = wanted.only {
        return round(wanted.seed, number, &mut tally);
    }
    let edges = edges::edges(&mut Random::new(wanted.seed, u64::MAX)).map_err(|d| format!("at the edges: {d}"))?;
    for number in 0..wanted.rounds {
        round(wanted.seed, number, &mut tally)?;
    }
    print_tally(&tally);
    if wanted.rounds >= ALL_REFUSALS_FROM {
        check_tally(&tally)?;
    }
    let cases = tally.values().sum::<u64>();
    let sessions = wanted.rounds.div_ceil(SESSION_EVERY);
    let seconds = begun.elapsed().as_secs();
    println!("same: {edges} cases at the edges, {cases} random cases, {sessions} sessions, in {seconds} s");
    Ok(())
}

fn main() -> ExitCode {
    match compare() {
        Ok(()) => ExitCode::SUCCESS,
        Err(difference) => {
            println!("DIFFERENCE {difference}");
            ExitCode::FAILURE
        }
    }
}
