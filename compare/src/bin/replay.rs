//! Replays a trace kept as text by the proved library, and compares with the second model.

use sa110_compare::cuts::Cuts;
use sa110_compare::replays::{Begin, Replays};
use sa110_model::random::Rng;
use std::io::Write;
use std::process::ExitCode;

const USAGE: &str = "usage: replay TEXT
Replays a trace by the proved library, prints what it prints, and compares with the second model; then
replays it cut in some random ways. TEXT is a file with one call a line: call, privileged, width or register
number, address or opcode 2 * 16 + CRm, value. Memory is 65536 zero bytes without bad words.";

fn main() -> ExitCode {
    let given: Vec<String> = std::env::args().skip(1).collect();
    let [name] = &given[..] else {
        eprintln!("{USAGE}");
        return ExitCode::from(2);
    };
    let done = std::fs::read(name).and_then(|text| {
        std::io::stdout().write_all(&sa110::replay(&text))?;
        Ok(text)
    });
    let text = match done {
        Ok(text) => text,
        Err(problem) => {
            eprintln!("replay: {name}: {problem}");
            return ExitCode::FAILURE;
        }
    };
    let mut rng = Rng::new(1);
    let mut cuts = vec![Cuts::WHOLE];
    cuts.extend((0..5).map(|_| Cuts::random(&mut rng, text.len())));
    // a difference panics
    Replays::default().compare(&Begin::fresh(), &text, &cuts, &|| name.clone());
    eprintln!("the second model prints the same");
    ExitCode::SUCCESS
}
