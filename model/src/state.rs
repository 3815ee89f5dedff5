//! The state and the register record, in raw numbers, so that unsound states can be written too.

/// Physical memory is at most this long.
pub const MEMORY_LIMIT: usize = 16_777_216;
/// The Dcache's bytes.
pub const STORE_BYTES: usize = 16_384;
pub const LINE_BYTES: usize = 32;
pub const SETS: usize = 16;
pub const WAYS: usize = 32;
pub const LINES: usize = SETS * WAYS;
pub const TLB_ENTRIES: usize = 32;
pub const BUFFER_ENTRIES: usize = 8;
pub const BLOCK_BYTES: usize = 16;

/// The five registers.
#[derive(Clone, Copy, Debug, Default, PartialEq, Eq)]
pub struct PlainRegisters {
    /// Register 1, without bits 4 to 6, which are added on reading.
    pub control: u32,
    /// Register 2.
    pub table_base: u32,
    /// Register 3.
    pub domain: u32,
    /// Register 5.
    pub fsr: u32,
    /// Register 6.
    pub far: u32,
}

/// The lent record: the five registers and the TLB pointer.
#[derive(Clone, Copy, Debug, Default, PartialEq, Eq)]
pub struct Registers {
    pub plain: PlainRegisters,
    pub tlb_pointer: u32,
}

/// A TLB entry. Size 0 section, 1 large page, 2 small page.
#[derive(Clone, Copy, Debug, Default, PartialEq, Eq)]
pub struct TlbEntry {
    pub valid: u32,
    pub size: u32,
    pub virtual_base: u32,
    pub physical_base: u32,
    pub domain: u32,
    pub ap: [u32; 4],
    pub c: u32,
    pub b: u32,
}

/// A cache line without its bytes. `frame` is the physical line number; `dirty` is low half, high half.
#[derive(Clone, Copy, Debug, Default, PartialEq, Eq)]
pub struct Line {
    pub tag: u32,
    pub frame: u32,
    pub valid: u32,
    pub dirty: [u32; 2],
}

/// The Dcache without its bytes. Line i is way i % 32 of set i / 32, its bytes at 32 i in the store.
#[derive(Clone, Debug, PartialEq, Eq)]
pub struct Directory {
    pub lines: [Line; LINES],
    pub pointers: [u32; SETS],
}

/// A write buffer entry. `block` is a physical address divided by 16.
#[derive(Clone, Copy, Debug, Default, PartialEq, Eq)]
pub struct Slot {
    pub block: u32,
    pub mask: u32,
    pub bytes: [u8; BLOCK_BYTES],
}

/// The write buffer, oldest entry first.
#[derive(Clone, Debug, Default, PartialEq, Eq)]
pub struct Buffer {
    pub entries: u32,
    pub slots: [Slot; BUFFER_ENTRIES],
}

#[derive(Clone, Copy, Debug, Default, PartialEq, Eq)]
pub struct Counts {
    pub calls: u32,
    pub tlb_misses: u32,
    pub hits: u32,
    pub fills: u32,
    /// Halves sent out.
    pub halves: u32,
}

#[derive(Clone, Debug, PartialEq, Eq)]
pub struct State {
    /// The memory length at the start.
    pub memory_length: u32,
    pub tlb: [TlbEntry; TLB_ENTRIES],
    pub cache: Directory,
    pub buffer: Buffer,
    pub counts: Counts,
}

impl TlbEntry {
    pub const EMPTY: TlbEntry = TlbEntry {
        valid: 0,
        size: 0,
        virtual_base: 0,
        physical_base: 0,
        domain: 0,
        ap: [0; 4],
        c: 0,
        b: 0,
    };
}

impl Line {
    pub const EMPTY: Line = Line {
        tag: 0,
        frame: 0,
        valid: 0,
        dirty: [0; 2],
    };
}

impl Slot {
    pub const EMPTY: Slot = Slot {
        block: 0,
        mask: 0,
        bytes: [0; BLOCK_BYTES],
    };
}

impl State {
    /// The state all zeros, which a refused start gives.
    pub const ZERO: State = State {
        memory_length: 0,
        tlb: [TlbEntry::EMPTY; TLB_ENTRIES],
        cache: Directory {
            lines: [Line::EMPTY; LINES],
            pointers: [0; SETS],
        },
        buffer: Buffer {
            entries: 0,
            slots: [Slot::EMPTY; BUFFER_ENTRIES],
        },
        counts: Counts {
            calls: 0,
            tlb_misses: 0,
            hits: 0,
            fills: 0,
            halves: 0,
        },
    };
}
