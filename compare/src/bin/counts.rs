//! Makes a list of calls on the proved library, on the second model and on the plain machine, and prints
//! their counts side by side.

use sa110::{no_bad_words, plain_run, Machine as Library, FIELDS, MEMORY_MAX, STORE_BYTES};
use sa110_model::calls::Call;
use sa110_model::machine::Machine;
use sa110_model::rules::{Monitor, Part, Rules};
use std::process::ExitCode;

const USAGE: &str = "usage: counts CALLS [BYTES]
Makes a list of calls on the proved library, on the second model and on the plain machine, and prints
their counts side by side.
CALLS is a file of calls, five numbers each (kind, privileged, n, a, v), 32 bits, little-endian;
tools/lackey-calls writes one. BYTES is memory's length, 16777216 if absent; memory and cache store are
zero at the start, and no word is bad.";

/// What one side answers and leaves.
struct Side {
    name: &'static str,
    made: usize,
    answers: Vec<u64>,
    memory: Vec<u8>,
    calls: u32,
    /// TLB misses, Dcache hits, line fills and halves sent out, which the plain machine does not have.
    counts: Option<[u32; 4]>,
}

/// The calls up to numbers that are no call.
fn listed(calls: &[u32]) -> Vec<Call> {
    calls
        .chunks_exact(FIELDS)
        .map_while(|numbers| Call::from_numbers(numbers.try_into().expect("five numbers")))
        .collect()
}

fn of_library(calls: &[u32], bytes: usize) -> Side {
    let (mut memory, mut store) = (vec![0; bytes], vec![0; STORE_BYTES]);
    let mut answers = vec![0; calls.len() / FIELDS];
    let (mut machine, _) = Library::start(&memory, &store);
    let bad = no_bad_words(bytes);
    let made = machine.run(&mut memory, &bad, &mut store, calls, &mut answers);
    let c = machine.state.counts;
    Side {
        name: "library",
        made,
        answers,
        memory,
        calls: c.calls,
        counts: Some([c.misses, c.hits, c.fills, c.halves]),
    }
}

fn of_model(calls: &[u32], bytes: usize) -> Side {
    let mut answers = vec![0; calls.len() / FIELDS];
    let made = listed(calls).len();
    let mut machine = Machine::fresh(vec![0; bytes]);
    let ran = machine.run(&calls[..made * FIELDS], &mut answers[..made]);
    ran.expect("calls alone");
    let (c, memory) = (machine.state.counts, machine.memory);
    Side {
        name: "second model",
        made,
        answers,
        memory,
        calls: c.calls,
        counts: Some([c.tlb_misses, c.hits, c.fills, c.halves]),
    }
}

fn of_plain(calls: &[u32], bytes: usize) -> Side {
    let mut memory = vec![0; bytes];
    let mut answers = vec![0; calls.len() / FIELDS];
    let ran = plain_run(&mut memory, &no_bad_words(bytes), calls, &mut answers);
    Side {
        name: "plain machine",
        made: ran.made,
        answers,
        memory,
        calls: ran.calls,
        counts: None,
    }
}

/// Whether the list keeps the rules, and if so whether all lines stored to are cleaned and drained at its
/// end; or the number of the first call that breaks one, and which.
fn rules(calls: &[u32], bytes: usize) -> Result<bool, (usize, Part)> {
    let mut monitor = Monitor::start(vec![0; bytes], no_bad_words(bytes), Rules::ALL);
    for (i, call) in listed(calls).iter().enumerate() {
        let deed = monitor.propose(call).map_err(|part| (i, part))?;
        monitor.accept(&deed);
    }
    Ok(monitor.settled())
}

fn row<T: ToString>(what: &str, sides: &[Side], value: impl Fn(&Side) -> T) {
    print!("{what:<34}");
    for side in sides {
        print!("{:>16}", value(side).to_string());
    }
    println!();
}

fn table(sides: &[Side]) {
    let answered = |side: &Side, kind: u64| {
        let made = &side.answers[..side.made];
        made.iter().filter(|code| **code >> 32 == kind).count()
    };
    row("", sides, |side| side.name);
    row("calls made", sides, |side| side.made);
    row("  served", sides, |side| answered(side, 0));
    row("  faults", sides, |side| answered(side, 1));
    row("  refused", sides, |side| answered(side, 2));
    row("calls counted", sides, |side| side.calls);
    let names = ["TLB misses", "Dcache hits", "line fills", "halves sent out"];
    for (i, name) in names.iter().enumerate() {
        row(name, sides, |side| match side.counts {
            Some(counts) => counts[i].to_string(),
            None => "-".to_string(),
        });
    }
    row("answers unlike the library's", sides, |side| {
        unlike(&side.answers, &sides[0].answers)
    });
    row("bytes unlike the library's", sides, |side| {
        unlike(&side.memory, &sides[0].memory)
    });
}

fn unlike<T: PartialEq>(a: &[T], b: &[T]) -> usize {
    a.iter().zip(b).filter(|(x, y)| x != y).count()
}

/// Whether a side answers and leaves what the library does.
fn agrees(side: &Side, library: &Side) -> bool {
    (side.made, &side.answers, &side.memory, side.calls)
        == (
            library.made,
            &library.answers,
            &library.memory,
            library.calls,
        )
        && (side.counts.is_none() || side.counts == library.counts)
}

/// The list of a file, or what is wrong with it.
fn read(name: &str) -> Result<Vec<u32>, String> {
    let bytes = std::fs::read(name).map_err(|problem| format!("{name}: {problem}"))?;
    if bytes.len() % (4 * FIELDS) != 0 {
        return Err(format!(
            "{name}: {} bytes are not a whole number of calls of 20",
            bytes.len()
        ));
    }
    let word = |b: &[u8]| u32::from_le_bytes(b.try_into().expect("four bytes"));
    Ok(bytes.chunks_exact(4).map(word).collect())
}

/// Memory's length, or none if the arguments are wrong.
fn length(text: Option<&String>) -> Option<usize> {
    let bytes = text.map_or(Some(MEMORY_MAX), |text| text.parse().ok())?;
    (bytes % 32 == 0 && bytes <= MEMORY_MAX).then_some(bytes)
}

fn main() -> ExitCode {
    let given: Vec<String> = std::env::args().skip(1).collect();
    let (Some(name), Some(bytes), true) = (given.first(), length(given.get(1)), given.len() < 3)
    else {
        eprintln!("{USAGE}");
        return ExitCode::from(2);
    };
    let calls = match read(name) {
        Ok(calls) => calls,
        Err(problem) => {
            eprintln!("counts: {problem}");
            return ExitCode::FAILURE;
        }
    };
    println!("{} calls, memory of {bytes} bytes", calls.len() / FIELDS);
    let sides = [
        of_library(&calls, bytes),
        of_model(&calls, bytes),
        of_plain(&calls, bytes),
    ];
    table(&sides);
    match rules(&calls, bytes) {
        Ok(true) => println!("rules R1 to R6 are kept, and all is cleaned and drained at the end"),
        Ok(false) => println!("rules R1 to R6 are kept; lines or buffer entries wait at the end"),
        Err((i, part)) => println!("call {i} breaks a rule: {part:?}"),
    }
    let all = agrees(&sides[1], &sides[0]) && agrees(&sides[2], &sides[0]);
    println!("{}", if all { "all agree" } else { "NOT ALL AGREE" });
    if all {
        ExitCode::SUCCESS
    } else {
        ExitCode::FAILURE
    }
}
