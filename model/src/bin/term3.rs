//! Compares library and plain machine over random runs that keep the rules, and prints what occurred.

use sa110_model::coverage::Coverage;
use sa110_model::random::guided::guided_in;
use sa110_model::random::maps::Map;
use sa110_model::random::world::mapped_world;
use sa110_model::random::Rng;
use sa110_model::rules::Rules;
use sa110_model::term3::{compare, shrink, Run, Verdict};
use std::process::ExitCode;
use std::time::Instant;

const USAGE: &str = "usage: term3 [seed] [runs] [map]
Runs library and plain machine side by side over random lists of calls that keep rules R1 to R6.
seed: a decimal number below 2^64, 1 if absent; runs: a decimal number, 20000 if absent;
map: the bad words, none, sparse, dense or all; if absent, runs of each kind.";

/// Seed, runs and the kind of map, if one is named; none if the arguments are wrong.
fn arguments() -> Option<(u64, u64, Option<Map>)> {
    let given: Vec<String> = std::env::args().skip(1).collect();
    if given.len() > 3 {
        return None;
    }
    let map = match given.get(2) {
        Some(name) => Some(Map::named(name)?),
        None => None,
    };
    let number = |at: usize, otherwise: u64| match given.get(at) {
        Some(text) => text.parse().ok(),
        None => Some(otherwise),
    };
    Some((number(0, 1)?, number(1, 20_000)?, map))
}

fn main() -> ExitCode {
    let Some((seed, runs, map)) = arguments() else {
        eprintln!("{USAGE}");
        return ExitCode::from(2);
    };
    let maps = map.map_or("of each kind".to_string(), |map| format!("{map:?}"));
    println!("Term 3 over random runs that keep the rules: seed {seed}, {runs} runs, maps {maps}.");
    let begin = Instant::now();
    let mut coverage = Coverage::default();
    let (mut calls, mut turned_down, mut with_bad_words) = (0, 0, 0);
    for i in 0..runs {
        let mut rng = Rng::of_run(seed, i);
        let length = 50 + rng.below(550) as usize;
        let map = map.unwrap_or_else(|| Map::random(&mut rng));
        let world = mapped_world(&mut rng, map);
        let guided = guided_in(&mut rng, world, length, Rules::ALL);
        calls += guided.run.calls.len();
        with_bad_words += u64::from(guided.run.bad.contains(&1));
        turned_down += guided.turned_down;
        match compare(&guided.run, Rules::ALL, &mut coverage) {
            Verdict::Agrees { settled: true } => {}
            verdict => return report(i, &guided.run, verdict),
        }
    }
    println!("{coverage}");
    println!(
        "{runs} runs, {with_bad_words} of them with bad words, {calls} calls agreed: every answer, the \
         registers, and memory at the end. {turned_down} proposed calls were left out because the rules forbid them. {:.1} seconds.",
        begin.elapsed().as_secs_f64()
    );
    ExitCode::SUCCESS
}

fn report(number: u64, run: &Run, verdict: Verdict) -> ExitCode {
    println!("Run {number} does not agree: {verdict:?}");
    if let Verdict::Differs(_) = verdict {
        let shrunk = shrink(run, Rules::ALL);
        println!("Shrunk to {} calls:\n{shrunk}", shrunk.calls.len());
        println!(
            "{:?}",
            compare(&shrunk, Rules::ALL, &mut Coverage::default())
        );
    }
    ExitCode::FAILURE
}
