//! Replays a trace: standard input has one call a line, standard output gets one answer a line.

use sa110_model::replay::stream;
use std::io::{stdin, stdout, BufReader, BufWriter};
use std::process::ExitCode;

const USAGE: &str = "usage: replay
Reads calls from standard input, one a line: call, privileged, width or register number, address or
opcode 2 * 16 + CRm, value. Prints line number, kind (0 served, 1 fault, 2 refused) and the value, FSR or
refusal number. Memory is 65536 zero bytes without bad words. It takes no arguments.";

fn main() -> ExitCode {
    if std::env::args().len() > 1 {
        eprintln!("{USAGE}");
        return ExitCode::from(2);
    }
    let input = BufReader::with_capacity(65_536, stdin().lock());
    let output = BufWriter::with_capacity(65_536, stdout().lock());
    match stream(input, output) {
        Ok(_) => ExitCode::SUCCESS,
        Err(problem) => {
            eprintln!("replay: {problem}");
            ExitCode::FAILURE
        }
    }
}
