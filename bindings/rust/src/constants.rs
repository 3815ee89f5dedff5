//! Lengths, and the numbers of calls, registers, faults and refusals.

/// The longest memory; a length is a multiple of `LINE_BYTES`, and may be 0.
pub const MEMORY_MAX: usize = 16_777_216;
/// The cache store's length.
pub const STORE_BYTES: usize = 16_384;
pub const LINE_BYTES: usize = 32;
/// The map of bad words has a byte for so many of memory's.
pub const WORD_BYTES: usize = 4;
pub const BLOCK_BYTES: usize = 16;
pub const TLB_ENTRIES: usize = 32;
pub const SETS: usize = 16;
pub const LINES: usize = 512;
pub const BUFFER_ENTRIES: usize = 8;
/// Entries of the rights table.
pub const RIGHTS: usize = 256;
/// Numbers per call.
pub const FIELDS: usize = 5;
/// The longest line of a trace as text, with the line feed that ends it.
pub const TRACE_LINE: usize = 64;
/// The longest printed line.
pub const PRINTED_LINE: usize = 34;
/// The longest text of a sound state.
pub const TEXT_MAX: usize = 12_847;
/// The memory's length in which `replay` replays a text; none of its words is bad.
pub const REPLAY_MEMORY: usize = 65_536;

/// A call: kind, privileged (1 or 0), width or register, address or pair, value.
pub type Numbers = [u32; FIELDS];

// Kinds of call.
pub const LOAD: u32 = 0;
pub const SIGNED_LOAD: u32 = 1;
pub const STORE: u32 = 2;
pub const READ: u32 = 3;
pub const WRITE: u32 = 4;
/// Reads a byte or a word and writes the value in its place; answers the old value, unsigned. A trace as
/// text has no swaps.
pub const SWAP: u32 = 5;

// Registers.
pub const ID: u32 = 0;
pub const CONTROL: u32 = 1;
pub const BASE: u32 = 2;
pub const DOMAINS: u32 = 3;
/// Reads 0 and ignores writes.
pub const RESERVED: u32 = 4;
pub const FSR: u32 = 5;
pub const FAR: u32 = 6;
pub const CACHE: u32 = 7;
pub const TLB: u32 = 8;

// Control bits.
pub const M: u32 = 0x1;
pub const A: u32 = 0x2;
pub const C: u32 = 0x4;
pub const W: u32 = 0x8;
pub const S: u32 = 0x100;
pub const R: u32 = 0x200;
pub const I: u32 = 0x1000;
/// The control bits that read as one.
pub const CONTROL_ONES: u32 = 0x70;
/// What register 0 reads.
pub const ID_VALUE: u32 = 0x4401_A100;

/// Opcode 2 and CRm, below 16, of a write of register 7 or 8.
pub const fn pair(opcode2: u32, crm: u32) -> u32 {
    opcode2.wrapping_mul(16).wrapping_add(crm)
}

// Operations of register 7, and of register 8.
pub const CACHE_FLUSH: u32 = pair(0, 6);
pub const CACHE_FLUSH_LINE: u32 = pair(1, 6);
pub const CACHE_CLEAN_LINE: u32 = pair(1, 10);
pub const BUFFER_DRAIN: u32 = pair(4, 10);
pub const TLB_FLUSH: u32 = pair(0, 6);
pub const TLB_FLUSH_ENTRY: u32 = pair(1, 6);

// Fault statuses, in the order in which they are tested.
pub const ALIGNMENT: u32 = 1;
pub const WALK_FIRST: u32 = 12;
pub const WALK_SECOND: u32 = 14;
pub const TRANSLATION_SECTION: u32 = 5;
pub const TRANSLATION_PAGE: u32 = 7;
pub const DOMAIN_SECTION: u32 = 9;
pub const DOMAIN_PAGE: u32 = 11;
pub const PERMISSION_SECTION: u32 = 13;
pub const PERMISSION_PAGE: u32 = 15;
pub const FILL_SECTION: u32 = 4;
pub const FILL_PAGE: u32 = 6;
pub const OTHER_SECTION: u32 = 8;
pub const OTHER_PAGE: u32 = 10;

// Refusals, in the order in which they are tested.
pub const REFUSED_MEMORY: u32 = 1;
pub const REFUSED_STORE: u32 = 2;
pub const REFUSED_STATE: u32 = 3;
pub const REFUSED_LENGTH: u32 = 4;
/// The map of bad words is not a quarter of memory's length, or a byte of it exceeds 1.
pub const REFUSED_MAP: u32 = 16;
pub const REFUSED_COUNT: u32 = 5;
pub const REFUSED_WIDTH: u32 = 6;
pub const REFUSED_VALUE: u32 = 7;
pub const REFUSED_USER: u32 = 8;
pub const REFUSED_REGISTER: u32 = 9;
pub const REFUSED_OPERATION: u32 = 10;
pub const REFUSED_BIG_ENDIAN: u32 = 11;
pub const REFUSED_CONTROL: u32 = 12;
/// A line of a trace as text departs from the form.
pub const REFUSED_LINE: u32 = 13;
/// A state's text that is read back departs from the form.
pub const REFUSED_TEXT: u32 = 14;
/// The slice lent for a state's text is too short.
pub const REFUSED_ROOM: u32 = 15;

/// The answer to five numbers that are no call.
pub const NO_CALL: u64 = 3 << 32;
