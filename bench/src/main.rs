//! Prints a table of times: the proved library beside the second model and, where one is named, an earlier library, measured in turn in one
//! process.

mod bad_words;
mod calls;
mod earlier;
mod interface;
mod measure;
mod replay;
mod runs;
mod soundness;
mod text;

use earlier::Earlier;
use measure::{earlier_columns, earlier_names, measure, Line, Measured};

const ROUNDS: usize = 1000;

const HOW: &str = "\
use: cargo run --release --offline [-- [bad | replay | text] ROUNDS [EARLIER.so]]
  bad         only runs with bad words and the test of the map are measured
  replay      only the replay of traces is measured
  text        only states as text are measured
  ROUNDS      how often each side is measured, at least 1; 1000 if left out
  EARLIER.so  a shared object of an earlier library, which is measured too, with a map of bad words or, before there was one, without; one of the
              library itself shows what linking alone does
tools/library writes the library that is measured. A static library becomes a shared object by
  gcc -shared -o EARLIER.so -Wl,--whole-archive libsa110.a -Wl,--no-whole-archive";

const WHAT: &str = "\
library: the proved library, called through its functions for C. model: the second model, in Rust.
earlier: the library in the shared object, where one is named, lent the same state, and the map if it takes one; - where it has no such
  function or call, or takes no map and words are bad.
ns a call: processor time of the one thread, least of the rounds (median). ratio: library / model and library / earlier, by the least.
soundness: the test of refusal 3 on one sound state again and again, 512 lines, 32 TLB entries, 8 buffer entries, 64 KB of memory; the library
  compares all tags of a set, four at a time, wherever the lines lie, and the model two only if they agree in their low six bits
  in a row: the lines are 16 KB in a row; no two tags of a set agree in their low six bits
  random: the lines lie anywhere
  apart: the lines of a set lie a megabyte apart; all its tags agree in their low six bits
  half empty: as random, every second line empty; the library tests empty lines in a pass of their own";

fn main() {
    let mut arguments = std::env::args().skip(1).peekable();
    let only = arguments.next_if(|first| ["bad", "replay", "text"].contains(&first.as_str()));
    let (rounds, earlier) = match asked(arguments) {
        Ok(asked) => asked,
        Err(wrong) => {
            eprintln!("{wrong}{HOW}");
            std::process::exit(2);
        }
    };
    match only.as_deref() {
        Some("bad") => bad_words(rounds, earlier),
        Some("replay") => replays(rounds, earlier),
        Some(_) => print_rows(text::lines(earlier), text::WHAT, rounds, earlier.is_some()),
        None => {
            calls(rounds, earlier);
            bad_words(rounds, earlier);
            println!();
            replays(rounds, earlier);
        }
    }
}

/// Prints the table of the soundness test, of calls and of texts.
fn calls(rounds: usize, earlier: Option<Earlier>) {
    let mut lines: Vec<Line> = Vec::new();
    lines.extend(soundness::lines(earlier));
    lines.extend(calls::lines(earlier));
    lines.extend(text::lines(earlier));
    let what = format!("{WHAT}\n{}\n{}", calls::WHAT, text::WHAT);
    print_rows(lines, &what, rounds, earlier.is_some());
    println!();
}

/// Prints what is measured, and a row for each line, with the columns of an earlier library where one is named.
fn print_rows(mut lines: Vec<Line>, what: &str, rounds: usize, named: bool) {
    println!("{what}");
    println!("{rounds} rounds, each side in turn\n");
    print!(
        "{:<28}{:>18}{:>18}{:>8}",
        "ns a call", "library", "model", "ratio"
    );
    println!("{}", earlier_names(named));
    for line in &mut lines {
        let measured = measure(line, rounds);
        println!("{}", row(&line.name, &measured, named));
    }
}

/// Prints the table of runs with bad words and of the test of the map.
fn bad_words(rounds: usize, earlier: Option<Earlier>) {
    let what = format!("{}\n{}", bad_words::WHAT, bad_words::MAP);
    let named = earlier.is_some();
    print_rows(bad_words::lines(earlier), &what, rounds, named);
    bad_words::print_map_rows(rounds, earlier, |name, times| row(name, times, named));
}

/// Prints the table of replays.
fn replays(rounds: usize, earlier: Option<Earlier>) {
    println!("{}", replay::WHAT);
    println!("{rounds} rounds, each side in turn\n");
    if let Err(problem) = replay::print_rows(rounds, earlier) {
        eprintln!("replay: {problem}");
        std::process::exit(1);
    }
}

/// A row of the table, with the columns of an earlier library where one is named.
fn row(name: &str, measured: &Measured, named: bool) -> String {
    let (library, model) = (measured.library, measured.model);
    let ratio = library.least / model.least;
    let (shown, model) = (library.to_string(), model.to_string());
    let row = format!("{name:<28}{shown:>18}{model:>18}{ratio:>8.2}");
    row + &earlier_columns(library, measured.earlier, named)
}

/// The number of rounds and the earlier library that the arguments ask for, or what is wrong with them.
fn asked(mut arguments: impl Iterator<Item = String>) -> Result<(usize, Option<Earlier>), String> {
    let rounds = match arguments.next() {
        None => ROUNDS,
        Some(first) => match first.parse() {
            Ok(rounds) if rounds > 0 => rounds,
            _ => return Err(String::new()),
        },
    };
    let earlier = arguments.next().map(|path| Earlier::open(&path));
    if arguments.next().is_some() {
        return Err(String::new());
    }
    let earlier = earlier.transpose().map_err(|wrong| wrong + "\n")?;
    Ok((rounds, earlier))
}
