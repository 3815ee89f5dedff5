//! What a call answers. A fault is an answer; a refusal carries its number.

use std::fmt;

/// The status of a fault, with document 01's number. The second of each pair is for pages.
#[derive(Clone, Copy, Debug, PartialEq, Eq)]
pub enum Status {
    Alignment = 1,
    WalkLevel1 = 12,
    WalkLevel2 = 14,
    TranslationSection = 5,
    TranslationPage = 7,
    DomainSection = 9,
    DomainPage = 11,
    PermissionSection = 13,
    PermissionPage = 15,
    FillSection = 4,
    FillPage = 6,
    OtherSection = 8,
    OtherPage = 10,
}

/// All statuses, in checking order.
pub const STATUSES: [Status; 13] = [
    Status::Alignment,
    Status::WalkLevel1,
    Status::WalkLevel2,
    Status::TranslationSection,
    Status::TranslationPage,
    Status::DomainSection,
    Status::DomainPage,
    Status::PermissionSection,
    Status::PermissionPage,
    Status::FillSection,
    Status::FillPage,
    Status::OtherSection,
    Status::OtherPage,
];

/// Status and domain of an access that cannot be served: a fault without its address.
#[derive(Clone, Copy, Debug, PartialEq, Eq)]
pub struct Abort {
    pub status: Status,
    pub domain: u32,
}

/// A fault as it is answered: `address` is the address given, low bits included.
#[derive(Clone, Copy, Debug, PartialEq, Eq)]
pub struct Fault {
    pub status: Status,
    pub domain: u32,
    pub address: u32,
}

impl Fault {
    /// The fault status register's value: domain times 16 plus status.
    pub fn fsr(&self) -> u32 {
        self.domain * 16 + self.status as u32
    }
}

#[derive(Clone, Copy, Debug, PartialEq, Eq)]
pub enum Answer {
    /// Refusal 1 to 12, or 16.
    Refused(u32),
    /// A load's or a CP15 read's value, a swap's old value; 0 for a served store or write.
    Value(u32),
    /// A signed load's value.
    Signed(i32),
    Fault(Fault),
}

impl Answer {
    /// Kind times 2^32 plus value: kind 0 served, 1 fault with FSR, 2 refused with its number.
    pub fn as_number(&self) -> u64 {
        match *self {
            Answer::Value(value) => value as u64,
            Answer::Signed(value) => value as u32 as u64,
            Answer::Fault(fault) => (1 << 32) + fault.fsr() as u64,
            Answer::Refused(number) => (2 << 32) + number as u64,
        }
    }
}

impl fmt::Display for Answer {
    fn fmt(&self, out: &mut fmt::Formatter) -> fmt::Result {
        match self {
            Answer::Refused(number) => write!(out, "refused {number}"),
            Answer::Value(value) => write!(out, "{value:X}"),
            Answer::Signed(value) => write!(out, "{value} (decimal)"),
            Answer::Fault(fault) => write!(
                out,
                "fault {} (decimal), domain {}, address {:X}",
                fault.status as u32, fault.domain, fault.address
            ),
        }
    }
}
