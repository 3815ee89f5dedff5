//! Calls: data accesses, swaps among them, and CP15 reads and writes; and their form as five numbers.

use std::fmt;

#[derive(Clone, Copy, Debug, PartialEq, Eq)]
pub enum Call {
    Load {
        privileged: bool,
        width: u32,
        address: u32,
    },
    SignedLoad {
        privileged: bool,
        width: u32,
        address: u32,
    },
    Store {
        privileged: bool,
        width: u32,
        address: u32,
        value: u32,
    },
    /// A swap of a byte or a word (document 02, Two).
    Swap {
        privileged: bool,
        width: u32,
        address: u32,
        value: u32,
    },
    Read {
        privileged: bool,
        register: u32,
    },
    /// `opcode2` and `crm` matter for registers 7 and 8 only.
    Write {
        privileged: bool,
        register: u32,
        opcode2: u32,
        crm: u32,
        value: u32,
    },
}

/// What a data access does with its place.
#[derive(Clone, Copy, Debug, PartialEq, Eq)]
pub enum Kind {
    Load,
    SignedLoad,
    Store(u32),
    /// The place is loaded, then this value stored.
    Swap(u32),
}

/// The arguments of a data access.
#[derive(Clone, Copy, Debug, PartialEq, Eq)]
pub struct Access {
    pub kind: Kind,
    pub privileged: bool,
    pub width: u32,
    pub address: u32,
}

impl Access {
    /// Does it answer what its place holds?
    #[inline]
    pub fn loads(&self) -> bool {
        !matches!(self.kind, Kind::Store(_))
    }

    /// The value that its place gets, if it gets one.
    #[inline]
    pub fn stores(&self) -> Option<u32> {
        match self.kind {
            Kind::Store(value) | Kind::Swap(value) => Some(value),
            Kind::Load | Kind::SignedLoad => None,
        }
    }

    pub fn is_swap(&self) -> bool {
        matches!(self.kind, Kind::Swap(_))
    }
}

/// A call of five numbers: kind, privileged, width or register,
/// address or opcode 2 times 16 plus CRm, value.
pub const FIELDS: usize = 5;

impl Call {
    /// The call that five numbers mean; none with a kind above 5 or privileged above 1.
    pub fn from_numbers(numbers: &[u32; FIELDS]) -> Option<Call> {
        let [kind, privileged, second, third, value] = *numbers;
        if privileged > 1 {
            return None;
        }
        let privileged = privileged == 1;
        match kind {
            0 => Some(Call::Load {
                privileged,
                width: second,
                address: third,
            }),
            1 => Some(Call::SignedLoad {
                privileged,
                width: second,
                address: third,
            }),
            2 => Some(Call::Store {
                privileged,
                width: second,
                address: third,
                value,
            }),
            3 => Some(Call::Read {
                privileged,
                register: second,
            }),
            4 => Some(Call::Write {
                privileged,
                register: second,
                opcode2: third / 16,
                crm: third % 16,
                value,
            }),
            5 => Some(Call::Swap {
                privileged,
                width: second,
                address: third,
                value,
            }),
            _ => None,
        }
    }

    /// Five numbers that mean this call. `crm` must be below 16 and `opcode2` below 2^28.
    pub fn to_numbers(&self) -> [u32; FIELDS] {
        match *self {
            Call::Load {
                privileged,
                width,
                address,
            } => [0, privileged as u32, width, address, 0],
            Call::SignedLoad {
                privileged,
                width,
                address,
            } => [1, privileged as u32, width, address, 0],
            Call::Store {
                privileged,
                width,
                address,
                value,
            } => [2, privileged as u32, width, address, value],
            Call::Read {
                privileged,
                register,
            } => [3, privileged as u32, register, 0, 0],
            Call::Write {
                privileged,
                register,
                opcode2,
                crm,
                value,
            } => {
                assert!(crm < 16 && opcode2 < 1 << 28);
                [4, privileged as u32, register, opcode2 * 16 + crm, value]
            }
            Call::Swap {
                privileged,
                width,
                address,
                value,
            } => [5, privileged as u32, width, address, value],
        }
    }

    /// The data access that this call is, if it is one.
    pub fn access(&self) -> Option<Access> {
        let (kind, privileged, width, address) = match *self {
            Call::Load {
                privileged,
                width,
                address,
            } => (Kind::Load, privileged, width, address),
            Call::SignedLoad {
                privileged,
                width,
                address,
            } => (Kind::SignedLoad, privileged, width, address),
            Call::Store {
                privileged,
                width,
                address,
                value,
            } => (Kind::Store(value), privileged, width, address),
            Call::Swap {
                privileged,
                width,
                address,
                value,
            } => (Kind::Swap(value), privileged, width, address),
            _ => return None,
        };
        Some(Access {
            kind,
            privileged,
            width,
            address,
        })
    }

    /// A privileged load.
    pub fn load(width: u32, address: u32) -> Call {
        Call::Load {
            privileged: true,
            width,
            address,
        }
    }

    /// A privileged store.
    pub fn store(width: u32, address: u32, value: u32) -> Call {
        Call::Store {
            privileged: true,
            width,
            address,
            value,
        }
    }

    /// A privileged swap.
    pub fn swap(width: u32, address: u32, value: u32) -> Call {
        Call::Swap {
            privileged: true,
            width,
            address,
            value,
        }
    }

    /// A privileged read of a register.
    pub fn read(register: u32) -> Call {
        Call::Read {
            privileged: true,
            register,
        }
    }

    /// A privileged write of registers 1 to 6.
    pub fn write(register: u32, value: u32) -> Call {
        Call::operate(register, 0, 0, value)
    }

    /// A privileged write with an operation pair, for registers 7 and 8.
    pub fn operate(register: u32, opcode2: u32, crm: u32, value: u32) -> Call {
        Call::Write {
            privileged: true,
            register,
            opcode2,
            crm,
            value,
        }
    }

    pub fn flush_dcache() -> Call {
        Call::operate(7, 0, 6, 0)
    }

    pub fn flush_line(address: u32) -> Call {
        Call::operate(7, 1, 6, address)
    }

    pub fn clean_line(address: u32) -> Call {
        Call::operate(7, 1, 10, address)
    }

    pub fn drain() -> Call {
        Call::operate(7, 4, 10, 0)
    }

    pub fn flush_tlb() -> Call {
        Call::operate(8, 0, 6, 0)
    }

    pub fn drop_tlb_entry(address: u32) -> Call {
        Call::operate(8, 1, 6, address)
    }
}

impl fmt::Display for Call {
    fn fmt(&self, out: &mut fmt::Formatter) -> fmt::Result {
        let mode = |privileged: bool| if privileged { "privileged" } else { "user" };
        match *self {
            Call::Load {
                privileged,
                width,
                address,
            } => write!(out, "{} load {width} at {address:X}", mode(privileged)),
            Call::SignedLoad {
                privileged,
                width,
                address,
            } => write!(
                out,
                "{} signed load {width} at {address:X}",
                mode(privileged)
            ),
            Call::Store {
                privileged,
                width,
                address,
                value,
            } => write!(
                out,
                "{} store {width} at {address:X} of {value:X}",
                mode(privileged)
            ),
            Call::Swap {
                privileged,
                width,
                address,
                value,
            } => write!(
                out,
                "{} swap {width} at {address:X} for {value:X}",
                mode(privileged)
            ),
            Call::Read {
                privileged,
                register,
            } => write!(out, "{} read of register {register}", mode(privileged)),
            Call::Write {
                privileged,
                register,
                opcode2,
                crm,
                value,
            } if register == 7 || register == 8 => write!(
                out,
                "{} write of register {register} ({opcode2},{crm}) {value:X}",
                mode(privileged)
            ),
            Call::Write {
                privileged,
                register,
                value,
                ..
            } => write!(
                out,
                "{} write of register {register} {value:X}",
                mode(privileged)
            ),
        }
    }
}
