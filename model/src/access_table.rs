//! The access table worked out from the domain values and 001's table 2-3, and its text (document
//! 02, Six). It shares the index with `rights::TABLE`, not the rule that makes it.

use crate::rights::{self, ALLOWED, DOMAIN_FAULT, PERMISSION_FAULT};
use Cell::{NoAccess, ReadOnly, ReadWrite, Unpredictable};

/// What a mode may do, as a cell of 001's table 2-3 says it.
#[derive(Clone, Copy, Debug, PartialEq, Eq)]
pub enum Cell {
    NoAccess,
    ReadOnly,
    ReadWrite,
    Unpredictable,
}

impl Cell {
    /// UNPREDICTABLE stands at AP 00 with S and R both set alone; by document 01 it allows nothing.
    pub fn allows(self, store: bool) -> bool {
        match self {
            NoAccess | Unpredictable => false,
            ReadOnly => !store,
            ReadWrite => true,
        }
    }
}

/// A row of 001's table 2-3. S or R is none where the row has x.
#[derive(Clone, Copy, Debug)]
pub struct Row {
    pub ap: u32,
    pub s: Option<bool>,
    pub r: Option<bool>,
    pub supervisor: Cell,
    pub user: Cell,
}

impl Row {
    /// Is this the row of these AP, S and R?
    pub fn fits(&self, ap: u32, s: bool, r: bool) -> bool {
        self.ap == ap && self.s.unwrap_or(s) == s && self.r.unwrap_or(r) == r
    }

    /// The cell of a mode: supervisor mode is privileged.
    pub fn cell(&self, privileged: bool) -> Cell {
        if privileged {
            self.supervisor
        } else {
            self.user
        }
    }
}

const ZERO: Option<bool> = Some(false);
const ONE: Option<bool> = Some(true);
const X: Option<bool> = None;

/// 001's table 2-3: AP, S, R, supervisor mode, user mode.
pub const ROWS: [Row; 7] = [
    row(0b00, ZERO, ZERO, NoAccess, NoAccess),
    row(0b00, ONE, ZERO, ReadOnly, NoAccess),
    row(0b00, ZERO, ONE, ReadOnly, ReadOnly),
    row(0b00, ONE, ONE, Unpredictable, Unpredictable),
    row(0b01, X, X, ReadWrite, NoAccess),
    row(0b10, X, X, ReadWrite, ReadOnly),
    row(0b11, X, X, ReadWrite, ReadWrite),
];

const fn row(ap: u32, s: Option<bool>, r: Option<bool>, supervisor: Cell, user: Cell) -> Row {
    Row {
        ap,
        s,
        r,
        supervisor,
        user,
    }
}

/// What a domain value means.
#[derive(Clone, Copy, Debug, PartialEq, Eq)]
pub enum Domain {
    Fault,
    Checked,
    Allowed,
}

/// Domain values 0 to 3: 0 and 2 domain fault, 1 checked by 001's table 2-3, 3 always allowed.
pub const DOMAINS: [Domain; 4] = [
    Domain::Fault,
    Domain::Checked,
    Domain::Fault,
    Domain::Allowed,
];

/// All 256 entries.
pub fn worked_out() -> [u8; 256] {
    work_out(&ROWS, &DOMAINS)
}

/// Two bits.
const PAIRS: [(bool, bool); 4] = [(false, false), (false, true), (true, false), (true, true)];

/// The entries by these rows and domain values. Exactly one row must fit each AP, S and R.
pub fn work_out(rows: &[Row], domains: &[Domain; 4]) -> [u8; 256] {
    // no entry is 255: an index left out would show
    let mut table = [u8::MAX; 256];
    for ap in 0..4 {
        for (s, r) in PAIRS {
            let row = rows.iter().find(|row| row.fits(ap, s, r));
            let row = row.expect("a row fits each AP, S and R");
            place(&mut table, domains, row, (ap, s, r));
        }
    }
    table
}

/// Places the entries of AP, S and R, whose row this is.
fn place(table: &mut [u8; 256], domains: &[Domain; 4], row: &Row, (ap, s, r): (u32, bool, bool)) {
    for (value, domain) in (0..).zip(domains) {
        for (privileged, store) in PAIRS {
            let index = rights::index(value, ap, s, r, privileged, store);
            table[index] = entry(*domain, row.cell(privileged), store);
        }
    }
}

fn entry(domain: Domain, cell: Cell, store: bool) -> u8 {
    match domain {
        Domain::Fault => DOMAIN_FAULT,
        Domain::Allowed => ALLOWED,
        Domain::Checked if cell.allows(store) => ALLOWED,
        Domain::Checked => PERMISSION_FAULT,
    }
}

/// What the program of request Six prints: a line `index,entry` for each index, rising from 0.
pub fn text() -> String {
    let table = worked_out();
    let lines = table.iter().enumerate();
    lines
        .map(|(index, entry)| format!("{index},{entry}\n"))
        .collect()
}
