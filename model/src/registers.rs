//! The five registers: what each keeps, how it reads, and the operations of registers 7 and 8.

use crate::state::PlainRegisters;

/// Control bits.
pub const M: u32 = 1;
pub const A: u32 = 1 << 1;
pub const C: u32 = 1 << 2;
pub const W: u32 = 1 << 3;
pub const S: u32 = 1 << 8;
pub const R: u32 = 1 << 9;
pub const I: u32 = 1 << 12;

/// The control bits that are kept.
pub const CONTROL_KEPT: u32 = M | A | C | W | S | R | I;
/// Bits 4 to 6 read as one.
pub const CONTROL_ONES: u32 = 0x70;
/// A control write that sets this bit is refused by 11.
pub const BIG_ENDIAN: u32 = 1 << 7;
/// Register 0.
pub const ID: u32 = 0x4401_A100;
/// Register 2 keeps bits 31 to 14.
pub const TABLE_BASE_KEPT: u32 = 0xFFFF_C000;
/// Register 5 keeps 8 bits.
pub const FSR_KEPT: u32 = 0xFF;

/// Is the combination of M, C and W in 000's table 8?
pub fn control_listed(control: u32) -> bool {
    matches!(
        (control & M != 0, control & C != 0, control & W != 0),
        (false, false, false) | (true, false, false) | (true, false, true) | (true, true, true)
    )
}

impl PlainRegisters {
    pub fn has(&self, bit: u32) -> bool {
        self.control & bit != 0
    }

    /// The domain's two-bit value. The place of its pair is twice the domain number (document 02, Three).
    #[inline]
    pub fn domain_value(&self, domain: u32) -> u32 {
        self.domain >> (2 * domain) & 3
    }

    /// The value of register 0 to 6.
    pub fn read(&self, register: u32) -> u32 {
        match register {
            0 => ID,
            1 => self.control | CONTROL_ONES,
            2 => self.table_base,
            3 => self.domain,
            5 => self.fsr,
            6 => self.far,
            _ => 0,
        }
    }

    /// Writes register 1 to 6; register 4 ignores writes.
    pub fn write(&mut self, register: u32, value: u32) {
        match register {
            1 => self.control = value & CONTROL_KEPT,
            2 => self.table_base = value & TABLE_BASE_KEPT,
            3 => self.domain = value,
            5 => self.fsr = value & FSR_KEPT,
            6 => self.far = value,
            _ => {}
        }
    }
}

/// A listed operation of register 7 or 8. Addresses are virtual.
#[derive(Clone, Copy, Debug, PartialEq, Eq)]
pub enum Operation {
    FlushDcache,
    FlushLine(u32),
    CleanLine(u32),
    Drain,
    FlushTlb,
    DropTlbEntry(u32),
    /// (0,5): concerns the instruction side.
    Nothing,
}

/// The operation of register 7 or 8 that the pair names; none if it is not listed.
pub fn operation(register: u32, opcode2: u32, crm: u32, value: u32) -> Option<Operation> {
    match (register, opcode2, crm) {
        (7, 0, 7) | (7, 0, 6) => Some(Operation::FlushDcache),
        (7, 1, 6) => Some(Operation::FlushLine(value)),
        (7, 1, 10) => Some(Operation::CleanLine(value)),
        (7, 4, 10) => Some(Operation::Drain),
        (8, 0, 7) | (8, 0, 6) => Some(Operation::FlushTlb),
        (8, 1, 6) => Some(Operation::DropTlbEntry(value)),
        (7, 0, 5) | (8, 0, 5) => Some(Operation::Nothing),
        _ => None,
    }
}
