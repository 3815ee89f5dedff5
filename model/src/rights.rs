//! Rights: the constant table of 256 entries and the rule it is made by.

pub const ALLOWED: u8 = 0;
pub const DOMAIN_FAULT: u8 = 1;
pub const PERMISSION_FAULT: u8 = 2;

/// Index: domain value × 64 + AP × 16 + S × 8 + R × 4 + privileged × 2 + store.
pub const TABLE: [u8; 256] = make_table();

/// The table's index of an access. `s` and `r` are the control bits as 0 or 1.
#[inline]
pub fn index(domain_value: u32, ap: u32, s: bool, r: bool, privileged: bool, store: bool) -> usize {
    (domain_value * 64
        + ap * 16
        + s as u32 * 8
        + r as u32 * 4
        + privileged as u32 * 2
        + store as u32) as usize
}

const fn make_table() -> [u8; 256] {
    let mut table = [0; 256];
    let mut i = 0;
    while i < 256 {
        table[i] = rule(i);
        i += 1;
    }
    table
}

const fn rule(index: usize) -> u8 {
    match index / 64 {
        0 | 2 => DOMAIN_FAULT,
        3 => ALLOWED,
        _ => {
            let store = index % 2 == 1;
            let privileged = index / 2 % 2 == 1;
            let r = index / 4 % 2 == 1;
            let s = index / 8 % 2 == 1;
            if client_allows(index / 16 % 4, s, r, privileged, store) {
                ALLOWED
            } else {
                PERMISSION_FAULT
            }
        }
    }
}

/// 001's table 2-3. AP 00 with S and R both set allows nothing.
const fn client_allows(ap: usize, s: bool, r: bool, privileged: bool, store: bool) -> bool {
    match ap {
        0 => match (s, r) {
            (true, false) => privileged && !store,
            (false, true) => !store,
            _ => false,
        },
        1 => privileged,
        2 => privileged || !store,
        _ => true,
    }
}
