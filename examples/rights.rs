//! The rights table as the library works it out from the domain values and document 001's table 2-3: what
//! examples/rights.c prints. It ends with status 0 if each entry is the one by which accesses are checked.

use std::io::{stdout, Write};
use std::process::ExitCode;

fn main() -> ExitCode {
    if std::env::args().len() > 1 {
        eprintln!("usage: rights\nPrints the 256 entries of the rights table, worked out, one a line: index,entry.");
        return ExitCode::from(2);
    }
    let mut text = String::new();
    for (i, entry) in sa110::rights_table().into_iter().enumerate() {
        let used = sa110::right(i as u32);
        if entry != used {
            eprintln!("rights: the entry at {i} is {used}, and not {entry}");
            return ExitCode::FAILURE;
        }
        text += &format!("{i},{entry}\n");
    }
    if let Err(error) = stdout().write_all(text.as_bytes()) {
        eprintln!("rights: standard output: {error}");
        return ExitCode::FAILURE;
    }
    ExitCode::SUCCESS
}
