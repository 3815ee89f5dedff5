//! The access table worked out, and its text (document 02, Six).

use sa110_model::access_table::{text, work_out, worked_out, Domain, DOMAINS, ROWS};
use sa110_model::rights;
use std::mem::swap;

/// The indexes at which a table differs from the constant one, rising.
fn differences(table: &[u8; 256]) -> Vec<usize> {
    let differs = |index: &usize| table[*index] != rights::TABLE[*index];
    (0..256).filter(differs).collect()
}

#[test]
fn what_is_worked_out_equals_the_constant_table() {
    for (index, entry) in worked_out().into_iter().enumerate() {
        assert_eq!(entry, rights::TABLE[index], "index {index}");
    }
}

#[test]
fn exactly_one_row_fits_each_ap_s_and_r() {
    for ap in 0..4 {
        for (s, r) in [(false, false), (true, false), (false, true), (true, true)] {
            let fitting = ROWS.iter().filter(|row| row.fits(ap, s, r)).count();
            assert_eq!(fitting, 1, "AP {ap}, S {s}, R {r}");
        }
    }
}

#[test]
fn the_text_says_the_table() {
    let text = text();
    assert_eq!(text.len(), 1426);
    assert!(text.ends_with('\n'));
    let lines: Vec<&str> = text.split_terminator('\n').collect();
    assert_eq!(lines.len(), 256);
    for (index, line) in lines.iter().enumerate() {
        assert_eq!(*line, format!("{index},{}", rights::TABLE[index]));
    }
}

/// Lines by hand from the papers: the first and last of each domain value, then some of value 1.
#[test]
fn lines_of_the_text() {
    let text = text();
    assert!(text.starts_with("0,1\n1,1\n"));
    let ends = ["63,1", "64,2", "127,0", "128,1", "191,1", "192,0", "255,0"];
    // AP 00: a privileged load with S and R clear, with R, with S and with both; then user loads.
    let ap_0 = [
        "66,2", "70,0", "74,0", "78,2", "64,2", "68,0", "72,2", "76,2",
    ];
    // User load, user store, privileged load, privileged store with S and R clear.
    let ap_1 = ["80,2", "81,2", "82,0", "83,0"];
    let ap_2 = ["96,0", "97,2", "98,0", "99,0"];
    for line in [&ends[..], &ap_0, &ap_1, &ap_2].concat() {
        assert!(text.lines().any(|found| found == line), "{line}");
    }
}

/// User loads at AP 00 with R alone and with S alone.
#[test]
fn s_and_r_exchanged_would_be_seen() {
    let mut rows = ROWS;
    for row in &mut rows {
        swap(&mut row.s, &mut row.r);
    }
    assert_eq!(differences(&work_out(&rows, &DOMAINS)), [68, 72]);
}

/// Loads at AP 00 with S alone, all at AP 01, stores at AP 10: 2 + 16 + 8 entries.
#[test]
fn supervisor_and_user_mode_exchanged_would_be_seen() {
    let mut rows = ROWS;
    for row in &mut rows {
        swap(&mut row.supervisor, &mut row.user);
    }
    let expected: Vec<usize> = [72, 74]
        .into_iter()
        .chain(80..96)
        .chain((97..112).step_by(2))
        .collect();
    assert_eq!(differences(&work_out(&rows, &DOMAINS)), expected);
}

#[test]
fn domain_value_2_allowed_would_be_seen() {
    let mut domains = DOMAINS;
    domains[2] = Domain::Allowed;
    let expected: Vec<usize> = (128..192).collect();
    assert_eq!(differences(&work_out(&ROWS, &domains)), expected);
}
