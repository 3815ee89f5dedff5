/* The SA-110 data side for C and C++: coprocessor 15, data TLB, page walk, Dcache and write buffer, over memory that the caller lends.
 *
 * The authority on every meaning is document 01 ("The SA-110 data side"), and of replays, swaps, stored texts, bad words and the rights table worked out
 * document 02 ("What customers request later"). The functions are proved to meet their definitions; what this header says in prose is a summary. The proofs
 * speak of the language's abstract machine: they do not cover the compiler's back end, this header, or callers.
 *
 * Link with libsa110.a of target/staticlib, which tools/library writes. The library needs memcpy and memset, allocates nothing, keeps nothing
 * between calls, prints nothing and never aborts: every error is an answer. Different states may be used on different threads at the same time. A
 * call takes up to 40 KB of stack, one of sa110_read_text up to 48 KB, one of sa110_replay up to 100 KB.
 *
 * A slice is a pointer and a length in elements. A pointer must be aligned for its type, must not be null even where the length is 0, and must
 * point to that many elements. What a call may change must not overlap anything else that is lent to that call. These are the only demands: any
 * contents and any lengths are allowed and get an answer.
 *
 * Machine: x86-64, System V calling convention (Linux). Words in memory are little-endian. */
#ifndef SA110_H
#define SA110_H

#include <stddef.h>
#include <stdint.h>
#include <string.h>

#ifdef __cplusplus
#define SA110_STATIC_ASSERT(condition, text) static_assert(condition, text)
extern "C" {
#else
#define SA110_STATIC_ASSERT(condition, text) _Static_assert(condition, text)
#endif

/* ---- Sizes ---- */

#define SA110_MEMORY_MAX 16777216u /* the longest memory, in bytes; a length is a multiple of SA110_LINE_BYTES, and may be 0 */
#define SA110_WORD_BYTES 4u        /* a word; the map of bad words has a byte for each word of memory */
#define SA110_STORE_BYTES 16384u   /* the cache store's length; SA110_STORE is a kind of call */
#define SA110_LINE_BYTES 32u       /* a Dcache line */
#define SA110_BLOCK_BYTES 16u      /* a half of a line, and a write buffer entry */
#define SA110_TLB_ENTRIES 32u
#define SA110_SETS 16u
#define SA110_WAYS 32u
#define SA110_LINES 512u           /* line i of `lines` is way i % 32 of set i / 32; its bytes lie at 32 i of the cache store */
#define SA110_BUFFER_ENTRIES 8u
#define SA110_RIGHTS 256u          /* entries of the rights table */
#define SA110_FIELDS 5u            /* numbers per call */
#define SA110_TRACE_LINE 64u       /* the longest line of a trace as text, with the line feed that ends it */
#define SA110_PRINTED_LINE 34u     /* the longest line that a replay prints, with its line feed */
#define SA110_TEXT_MAX 12847u      /* the longest text of a sound state, in bytes: a slice of this length has room for every one */

/* ---- Structs ---- */

/* The plain five registers. */
struct sa110_registers {
    uint32_t control; /* register 1: bits 0 M, 1 A, 2 C, 3 W, 8 S, 9 R, 12 I; a read adds SA110_CONTROL_ONES */
    uint32_t base;    /* register 2: the table base, bits 31 to 14 */
    uint32_t domains; /* register 3: sixteen two-bit domain values */
    uint32_t fsr;     /* register 5: domain * 16 + status of the last fault */
    uint32_t far;     /* register 6: the address of the last fault, as the call gave it */
};

/* The small record: the plain five registers and the TLB pointer. */
struct sa110_cp15 {
    struct sa110_registers registers;
    uint32_t pointer; /* the TLB entry that the next walk fills, 0 to 31 */
};

/* The five counts. */
struct sa110_counts {
    uint32_t calls;  /* accepted accesses and CP15 calls */
    uint32_t misses; /* TLB misses, those whose walk faults too */
    uint32_t hits;   /* Dcache hits; a swap that hits counts one */
    uint32_t fills;  /* line fills; not those that a bad word or memory's end aborts */
    uint32_t halves; /* halves of lines sent out to the write buffer */
};

/* The sixteen bytes of a place of the write buffer; those outside the entry's mask are zero. */
struct sa110_slot_bytes {
    uint8_t bytes[16];
};

/* The state. Places behind the entries in use, and entries and lines that are not valid, are all zeros. */
struct sa110_state {
    size_t size;                       /* the memory's length at the start */
    struct sa110_counts counts;
    size_t used;                       /* the number of write buffer entries, oldest first */
    uint64_t entries[32];              /* TLB: bit 0 valid, 1 C, 2 B, 3-7 size (0 section, 1 large, 2 small), 8-15 domain, 16-23 AP0 (lowest) to
                                          AP3, 24-43 physical base / 4096, 44-63 virtual base / 4096 */
    uint64_t lines[512];               /* Dcache: bit 0 valid, 1 low half dirty, 2 high half dirty, 3-31 physical line number, 32-63 tag */
    uint32_t pointers[16];             /* the line of each set that gives way to the next fill, 0 to 31 */
    uint64_t words[8];                 /* write buffer: bits 0-31 mask (bit i for byte i, 16 used), 32-63 block number (physical address / 16) */
    struct sa110_slot_bytes slots[8];  /* write buffer: the bytes */
};

/* What a run of the plain machine leaves beside memory and answers. */
struct sa110_plain_ran {
    uint32_t control;
    uint32_t base;
    uint32_t domains;
    uint32_t fsr;
    uint32_t far;
    uint32_t calls;   /* calls that were not refused */
    uint32_t refusal; /* 1 if the memory's length does not fit, and then nothing has changed; else 0, also where the map does not fit */
    size_t made;      /* calls made */
};

/* A replay of a trace kept as text. With state and record as sa110_start makes them and all else zeros it has not begun. */
struct sa110_replay {
    struct sa110_state state;
    struct sa110_cp15 cp15;
    uint64_t lines;      /* lines replayed, a malformed one too; 0 to 2^63 - 1 */
    size_t held;         /* bytes of a line that has begun and not ended, at the front of `begun`; 0 to 63, no line feed among them */
    size_t waiting;      /* bytes printed that no slice had room for, at the front of `pending`; 0 to 64 */
    uint32_t stopped;    /* not 0 behind a malformed line */
    uint8_t begun[64];
    uint8_t pending[64];
    size_t taken;        /* what the last call took of its text */
    size_t written;      /* what the last call wrote into its slice */
};

SA110_STATIC_ASSERT(sizeof(size_t) == 8 && sizeof(void *) == 8, "the library is built for 64 bits");
SA110_STATIC_ASSERT(sizeof(struct sa110_registers) == 20, "registers");
SA110_STATIC_ASSERT(offsetof(struct sa110_registers, far) == 16, "registers.far");
SA110_STATIC_ASSERT(sizeof(struct sa110_cp15) == 24, "cp15");
SA110_STATIC_ASSERT(offsetof(struct sa110_cp15, pointer) == 20, "cp15.pointer");
SA110_STATIC_ASSERT(sizeof(struct sa110_counts) == 20, "counts");
SA110_STATIC_ASSERT(offsetof(struct sa110_counts, halves) == 16, "counts.halves");
SA110_STATIC_ASSERT(sizeof(struct sa110_slot_bytes) == 16, "slot_bytes");
SA110_STATIC_ASSERT(sizeof(struct sa110_state) == 4648, "state");
SA110_STATIC_ASSERT(offsetof(struct sa110_state, size) == 0, "state.size");
SA110_STATIC_ASSERT(offsetof(struct sa110_state, counts) == 8, "state.counts");
SA110_STATIC_ASSERT(offsetof(struct sa110_state, used) == 32, "state.used");
SA110_STATIC_ASSERT(offsetof(struct sa110_state, entries) == 40, "state.entries");
SA110_STATIC_ASSERT(offsetof(struct sa110_state, lines) == 296, "state.lines");
SA110_STATIC_ASSERT(offsetof(struct sa110_state, pointers) == 4392, "state.pointers");
SA110_STATIC_ASSERT(offsetof(struct sa110_state, words) == 4456, "state.words");
SA110_STATIC_ASSERT(offsetof(struct sa110_state, slots) == 4520, "state.slots");
SA110_STATIC_ASSERT(sizeof(struct sa110_plain_ran) == 40, "plain_ran");
SA110_STATIC_ASSERT(offsetof(struct sa110_plain_ran, refusal) == 24, "plain_ran.refusal");
SA110_STATIC_ASSERT(offsetof(struct sa110_plain_ran, made) == 32, "plain_ran.made");
SA110_STATIC_ASSERT(sizeof(struct sa110_replay) == 4848, "replay");
SA110_STATIC_ASSERT(offsetof(struct sa110_replay, state) == 0, "replay.state");
SA110_STATIC_ASSERT(offsetof(struct sa110_replay, cp15) == 4648, "replay.cp15");
SA110_STATIC_ASSERT(offsetof(struct sa110_replay, lines) == 4672, "replay.lines");
SA110_STATIC_ASSERT(offsetof(struct sa110_replay, held) == 4680, "replay.held");
SA110_STATIC_ASSERT(offsetof(struct sa110_replay, waiting) == 4688, "replay.waiting");
SA110_STATIC_ASSERT(offsetof(struct sa110_replay, stopped) == 4696, "replay.stopped");
SA110_STATIC_ASSERT(offsetof(struct sa110_replay, begun) == 4700, "replay.begun");
SA110_STATIC_ASSERT(offsetof(struct sa110_replay, pending) == 4764, "replay.pending");
SA110_STATIC_ASSERT(offsetof(struct sa110_replay, taken) == 4832, "replay.taken");
SA110_STATIC_ASSERT(offsetof(struct sa110_replay, written) == 4840, "replay.written");

/* Whether two states are the same. The four bytes between counts and used belong to no field and may hold anything, so memcmp of whole states
 * is no comparison. */
static inline int sa110_same_state(const struct sa110_state *a, const struct sa110_state *b) {
    return a->size == b->size && memcmp(&a->counts, &b->counts, sizeof a->counts) == 0 && a->used == b->used &&
           memcmp((const char *)a + offsetof(struct sa110_state, entries), (const char *)b + offsetof(struct sa110_state, entries),
                  sizeof *a - offsetof(struct sa110_state, entries)) == 0;
}

/* ---- Calls ---- */

/* A call is five numbers: kind, privileged (1 or 0), n, a, v.
 *
 *                       n                 a                                  v
 *   loads               width 1, 2, 4     virtual address                    ignored
 *   store               width 1, 2, 4     virtual address                    the value
 *   CP15 read           register 0 to 6   ignored                            ignored
 *   CP15 write          register 1 to 8   SA110_PAIR(opcode 2, CRm),         the value; for line and entry
 *                                         used for registers 7 and 8         operations the virtual address
 *   swap                width 1, 4        virtual address                    the value
 *
 * Loads, stores and swaps are accesses. Five numbers with a kind above 5 or privileged above 1 are no call; this is tested before every refusal.
 *
 * A swap (the instructions SWP and SWPB) reads a byte or a word and writes the value in its place, as one call. It answers the old value, unsigned. It
 * is checked as a store. Where the Dcache holds the line, it reads and writes the line there: one hit is counted, the half becomes dirty, nothing is
 * drained. Otherwise the write buffer is drained, and memory is read, then written; no line is filled. Outside memory and at a bad word it faults with
 * SA110_OTHER_SECTION or SA110_OTHER_PAGE, also where a load would fill a line or a store would be buffered or dropped, and nothing is drained or
 * written. */
enum {
    SA110_LOAD = 0,
    SA110_SIGNED_LOAD = 1,
    SA110_STORE = 2,
    SA110_READ = 3,  /* of a CP15 register */
    SA110_WRITE = 4, /* of a CP15 register */
    SA110_SWAP = 5   /* no call of a trace as text */
};

#define SA110_PAIR(opcode2, crm) ((opcode2) * 16u + (crm)) /* crm is below 16 */

/* Registers. */
enum {
    SA110_ID = 0,        /* reads SA110_ID_VALUE */
    SA110_CONTROL = 1,
    SA110_BASE = 2,
    SA110_DOMAINS = 3,
    SA110_RESERVED = 4,  /* reads 0 and ignores writes */
    SA110_FSR = 5,
    SA110_FAR = 6,
    SA110_CACHE = 7,     /* write only, with a pair */
    SA110_TLB = 8        /* write only, with a pair */
};
#define SA110_ID_VALUE 0x4401A100u

/* Control bits. Of M, C and W these combinations are valid: none; M; M and W; all three. */
#define SA110_M 0x0001u            /* MMU */
#define SA110_A 0x0002u            /* alignment is checked; with A clear the low bits of an unaligned address are cleared, but FAR gets it as given */
#define SA110_C 0x0004u            /* Dcache fills; a line that it holds is hit even with C or M clear */
#define SA110_W 0x0008u            /* write buffer */
#define SA110_S 0x0100u            /* S and R change what AP 0 allows: see sa110_right */
#define SA110_R 0x0200u
#define SA110_I 0x1000u            /* kept, without effect here */
#define SA110_CONTROL_ONES 0x0070u /* bits 4 to 6 read as one */

/* Operations of register 7. A flush loses dirty bytes. */
#define SA110_CACHE_FLUSH SA110_PAIR(0u, 6u)      /* flushes the Dcache; so does SA110_PAIR(0, 7); SA110_PAIR(0, 5) does nothing */
#define SA110_CACHE_FLUSH_LINE SA110_PAIR(1u, 6u) /* flushes the line of the virtual address written */
#define SA110_CACHE_CLEAN_LINE SA110_PAIR(1u, 10u) /* sends its dirty halves to the write buffer; the line stays valid */
#define SA110_BUFFER_DRAIN SA110_PAIR(4u, 10u)    /* writes the write buffer to memory */

/* Operations of register 8. */
#define SA110_TLB_FLUSH SA110_PAIR(0u, 6u)        /* flushes the TLB; so does SA110_PAIR(0, 7); SA110_PAIR(0, 5) does nothing */
#define SA110_TLB_FLUSH_ENTRY SA110_PAIR(1u, 6u)  /* drops every entry that covers the virtual address written */

/* ---- Answers ---- */

/* An answer is kind * 2^32 + value.
 *
 *   kind                    value
 *   SA110_SERVED            the value loaded or read, a signed one as its 32 bits; the old value of a swap; 0 for a store and a CP15 write; the
 *                           text's length for sa110_store_text
 *   SA110_FAULT             FSR: domain * 16 + status. The fault's address is the call's
 *   SA110_REFUSED           the refusal's number, 1 to 12 or 16; 1, 3, 4 or 15 for sa110_store_text; the call has changed nothing
 *   SA110_NO_CALL           0: the five numbers are no call (kind above 5 or privileged above 1); nothing has changed */
enum {
    SA110_SERVED = 0,
    SA110_FAULT = 1,
    SA110_REFUSED = 2,
    SA110_NO_CALL = 3
};

static inline uint32_t sa110_kind(uint64_t answer) { return (uint32_t)(answer >> 32); }
static inline uint32_t sa110_value(uint64_t answer) { return (uint32_t)answer; }
static inline uint32_t sa110_status(uint64_t answer) { return (uint32_t)answer % 16u; }
static inline uint32_t sa110_domain(uint64_t answer) { return (uint32_t)answer / 16u % 16u; }

/* Fault statuses, in the order in which they are tested. The second of each pair is for pages; flat addresses count as sections. The domain is 0
 * for SA110_ALIGNMENT, SA110_WALK_FIRST, SA110_TRANSLATION_SECTION and flat addresses. */
enum {
    SA110_ALIGNMENT = 1,            /* A is set: a word not at a multiple of 4, or a halfword at an odd address */
    SA110_WALK_FIRST = 12,          /* the level 1 word lies outside memory, or is bad */
    SA110_WALK_SECOND = 14,         /* the level 2 word lies outside memory, or is bad */
    SA110_TRANSLATION_SECTION = 5,  /* the level 1 word is no mapping */
    SA110_TRANSLATION_PAGE = 7,     /* the level 2 word is no mapping */
    SA110_DOMAIN_SECTION = 9,       /* the domain's value is 0 or 2 */
    SA110_DOMAIN_PAGE = 11,
    SA110_PERMISSION_SECTION = 13,  /* AP, S, R and mode do not allow it */
    SA110_PERMISSION_PAGE = 15,
    SA110_FILL_SECTION = 4,         /* on a line fill, which is a load's: outside memory, or the wanted word or one before it in its line is bad */
    SA110_FILL_PAGE = 6,
    SA110_OTHER_SECTION = 8,        /* otherwise: outside memory, or the word is bad; but a store is served, and its bytes are dropped, where M and W
                                       are set and the page's C or B is; a swap is not */
    SA110_OTHER_PAGE = 10
};

/* Refusals. A start meets 1 and 2; an access 1 to 4, 16 and 5 to 7; a CP15 call 1 to 4, 16, 5 and 8 to 12; storing a state as text 1, 3, 4 and 15, and
 * reading one back 1, 14, 3 and 4; each in this order. Refusal 3 is tested with the memory lent to this call. A line of a trace as text meets 13 before
 * all others. */
enum {
    SA110_REFUSED_MEMORY = 1,      /* the memory's length is not a multiple of 32 or exceeds 16,777,216 */
    SA110_REFUSED_STORE = 2,       /* the cache store is not 16,384 bytes */
    SA110_REFUSED_STATE = 3,       /* the state or the record is unsound: something of document 01's refusal 3 holds of it */
    SA110_REFUSED_LENGTH = 4,      /* the memory's length differs from the one at the start */
    SA110_REFUSED_COUNT = 5,       /* the count of calls stands at 4,294,967,295 */
    SA110_REFUSED_WIDTH = 6,       /* the width is not 1, 2 or 4; of a swap, not 1 or 4 */
    SA110_REFUSED_VALUE = 7,       /* the value to store or to swap in does not fit the width */
    SA110_REFUSED_USER = 8,        /* a CP15 call in user mode */
    SA110_REFUSED_REGISTER = 9,    /* the register cannot be read (other than 0 to 6) or written (other than 1 to 8) */
    SA110_REFUSED_OPERATION = 10,  /* the pair for register 7 or 8 is not listed */
    SA110_REFUSED_BIG_ENDIAN = 11, /* a control write sets bit 7 */
    SA110_REFUSED_CONTROL = 12,    /* a control write gives a combination of M, C and W that is not valid */
    SA110_REFUSED_LINE = 13,       /* a line of a trace as text departs from its form; sa110_replay alone */
    SA110_REFUSED_TEXT = 14,       /* the text of a state departs from its form; sa110_read_text alone */
    SA110_REFUSED_ROOM = 15,       /* the slice lent for the text of a state is too short; sa110_store_text alone */
    SA110_REFUSED_MAP = 16         /* the map's length is not a quarter of memory's, or a byte of it exceeds 1; tested after 4 and before 5 */
};

/* ---- Bad words ---- */

/* A board may abort single words on the bus. The map of bad words, `bad`, has a byte for each word of memory: byte i stands for the four bytes of memory
 * from 4 i on, and is 1 where that word aborts and 0 where it is good. Its length is a quarter of memory's. A board without bad words has a map of zeros.
 * The library reads the map and never writes it. Through a run, from the start to the last call, the map is to stay the same: term 3 (see
 * sa110_plain_run), and what is said of a run that is stopped and carried on, hold of such runs.
 *
 * Accesses and CP15 calls are refused by 16 where the map's length is not a quarter of memory's or a byte exceeds 1; a look then shows nothing, and the
 * plain machine refuses each of its calls. The start, sa110_sound and the text of a state have no map. Each sa110_call tests the whole map, which takes
 * time in proportion to its length; a run tests it once.
 *
 *   access                         where its word is bad
 *   load, store, swap that hit     served: the Dcache holds the line, and the map does not matter
 *   walk                           SA110_WALK_FIRST, SA110_WALK_SECOND
 *   load that fills a line         SA110_FILL_SECTION, SA110_FILL_PAGE; more below
 *   other load                     SA110_OTHER_SECTION, SA110_OTHER_PAGE; nothing is drained
 *   store that is buffered         served: it joins or takes an entry like any other
 *   other store, swap that misses  SA110_OTHER_SECTION, SA110_OTHER_PAGE; nothing is drained or written
 *   look                           shows memory's bytes
 *
 * When an entry leaves the write buffer, its bytes for bad words are dropped, and the others are written.
 *
 * A load that misses and is to fill, as M, C and the page's C bit say, does this in order: the line at the set's pointer gives way, and its dirty halves
 * go to the write buffer and are counted; the pointer steps; the buffer is drained if it has a byte of the line to be read; the line's words are read
 * from the first upward. Where one of the eight is bad, the place stays empty, the cache store keeps its bytes, and neither fill nor hit is counted. A bad
 * word at or before the wanted one is a fault. One behind it is none: the load is served out of memory, and the next load of that line misses again. A fill
 * outside memory goes the same way, and faults. So a fault on a line fill may also change a set pointer, lines, write buffer, memory and the count of
 * halves; any other fault changes FSR, FAR, TLB, its pointer and the counts of calls and TLB misses alone. examples/badword.c is an example. */

/* ---- The library, over a lent state and record ---- */

/* Starts: writes a fresh state (the memory's length, all else zero) and a record of zeros, and gives 0. Refused, it gives 1 or 2 and writes a state
 * and a record of zeros. What was in them before does not matter. Memory and cache store may hold any bytes, and stay as they are. */
uint32_t sa110_start(struct sa110_state *state, struct sa110_cp15 *cp15, const uint8_t *memory, size_t memory_length, const uint8_t *store,
                     size_t store_length);

/* Makes one call of five numbers and gives its answer. A served call and a fault change state, record, memory and cache store as documents 01 and
 * 02 say; a refused call, and numbers that are no call, change nothing. Each call tests the whole state for refusal 3, which takes a microsecond or
 * two, and the whole map for refusal 16; a run tests them once. */
uint64_t sa110_call(struct sa110_state *state, struct sa110_cp15 *cp15, uint8_t *memory, size_t memory_length, const uint8_t *bad,
                    size_t bad_length, uint8_t *store, size_t store_length, uint32_t kind, uint32_t privileged, uint32_t n, uint32_t a, uint32_t v);

/* Makes a list of calls, five numbers each, and gives how many it made: the smaller of calls_length / 5 and answers_length, but it stops at the
 * first five numbers that are no call. The answer to call i stands in answers[i]; those behind the calls made are as they were. Everything
 * is as after sa110_call for each call in turn: refused calls are made and answered, too. Lengths count elements, not bytes. */
size_t sa110_run(struct sa110_state *state, struct sa110_cp15 *cp15, uint8_t *memory, size_t memory_length, const uint8_t *bad, size_t bad_length,
                 uint8_t *store, size_t store_length, const uint32_t *calls, size_t calls_length, uint64_t *answers, size_t answers_length);

/* Shows where the 32 bytes of a virtual address's line are to be read, without a call: in the cache store if the Dcache holds the line, else in
 * memory, by a walk past the TLB or flat. The result is which * 2^32 + offset: sa110_which gives SA110_OF_STORE, SA110_OF_MEMORY or SA110_NOWHERE,
 * sa110_value the offset of the line's first byte, and sa110_line its address or null. Nowhere means that a refusal 1 to 4 or 16 holds, the walk
 * faults, or the line lies outside memory. Of a look only the walk heeds the map: a bad word's bytes in memory are shown. Rights are not checked, bytes
 * in the write buffer are not shown, and nothing changes. */
uint64_t sa110_look(const struct sa110_state *state, const struct sa110_cp15 *cp15, const uint8_t *memory, size_t memory_length, const uint8_t *bad,
                    size_t bad_length, const uint8_t *store, size_t store_length, uint32_t va);

enum {
    SA110_NOWHERE = 0,
    SA110_OF_STORE = 1,
    SA110_OF_MEMORY = 2
};

static inline uint32_t sa110_which(uint64_t look) { return (uint32_t)(look >> 32); }
static inline const uint8_t *sa110_line(uint64_t look, const uint8_t *memory, const uint8_t *store) {
    return sa110_which(look) == SA110_OF_STORE    ? store + sa110_value(look)
           : sa110_which(look) == SA110_OF_MEMORY ? memory + sa110_value(look)
                                                  : NULL;
}

/* Tests a state and a record for a memory of n bytes, as refusal 3 does: 1 sound, 0 unsound. Nothing changes. */
uint32_t sa110_sound(const struct sa110_state *state, const struct sa110_cp15 *cp15, size_t n);

/* ---- Replay of a trace kept as text ---- */

/* Replays a part of a text, on a lent memory and cache store that are as the last part left them, with the map of bad words that all parts have.
 *
 * A line is a call: five decimal fields, parted by commas, in the order of a call's numbers (kind, privileged, n, a, v), and a line feed. It has at
 * most SA110_TRACE_LINE bytes with the line feed; a field is one or more digits, and its value at most 4,294,967,295. Ignored fields are tested, too.
 * Each line prints one: its number from 1, the answer's kind (0 served, 1 fault, 2 refused) and its value, parted by commas, and a line feed. A
 * negative signed load has a minus sign. A line that departs from the form, has a kind above 4 (SA110_SWAP too) or privileged above 1, or ends without a
 * line feed is printed as refused by 13, and the replay stops there: nothing behind it is printed. Any other refusal is printed and the replay goes on.
 *
 * A part may end anywhere, also inside a line or a number. `ends` is not 0 where the input ends with this part, and then only: a line that has begun
 * is malformed then. The slice `out` may have any length. What is printed does not depend on the parts and slices.
 *
 * Gives 0, or 3 where the replay's own fields are outside their ranges: lines above 2^63 - 1, held above 63, waiting above 64, or a line feed among
 * the first `held` bytes of `begun`; then nothing has changed but that taken and written are 0. State, record, memory, map and cache store are tested by
 * each line's call, whose refusal is printed: a map that does not fit prints 16 for each line. Else one call does one of these, the first that applies: it
 * writes what waits; it takes all of the text behind a malformed line and writes nothing; it replays lines, at most 1,024 and at most one in
 * SA110_PRINTED_LINE bytes of `out`, but one line alone where a line has begun or `out` has fewer bytes than that. So a caller goes on until all of the
 * part is taken and nothing was written, with a slice of at least one byte:
 *
 *     at = 0;
 *     do {
 *         sa110_replay(&r, memory, memory_length, bad, bad_length, store, store_length, text + at, n - at, ends, out, room);
 *         fwrite(out, 1, r.written, stdout);
 *         at += r.taken;
 *     } while (at < n || r.written > 0);
 *
 * Bytes of `out` behind the first r.written stay as they were. */
uint32_t sa110_replay(struct sa110_replay *replay, uint8_t *memory, size_t memory_length, const uint8_t *bad, size_t bad_length, uint8_t *store,
                      size_t store_length, const uint8_t *text, size_t text_length, uint32_t ends, uint8_t *out, size_t out_length);

/* ---- A state stored as text ---- */

/* State and record as text, so that a run can stop and carry on in another process.
 *
 * The text has 553 lines, and nothing before, between or behind them. A line is its fields, parted by commas, and a line feed. A field is a decimal number
 * of digits alone, without leading zeros and at most 4,294,967,295.
 *
 *   lines   fields
 *   1       29   control (as kept), table base, domains, FSR, FAR; the memory's length at the start; TLB pointer; sixteen set pointers; number of
 *                write buffer entries; calls, TLB misses, Dcache hits, line fills, halves sent out
 *   32      11   a TLB entry: valid, size (0 section, 1 large, 2 small), virtual base, physical base, domain, AP0, AP1, AP2, AP3, C, B
 *   512     5    a Dcache line, set by set and in a set by way: tag, physical line number, valid, low half dirty, high half dirty
 *   8       18   a write buffer entry, oldest first: sixteen bytes, mask, block number
 *
 * Bases are addresses. Entries and lines that are not valid, and places behind the write buffer's entries, have 0 in every field.
 *
 * Memory, cache store and map are not in the text: the host keeps them. Of all that is lent the text tells the memory's length alone, so a host must see to
 * it that it goes on with the memory, the cache store and the map of the run that it stopped. A replay's own fields, such as `lines`, are not in it either.
 *
 * Reading what was stored gives that state and record, to the word. A text that is read, stored again, is that very text. A run stopped anywhere, stored,
 * read back and carried on, with memory, cache store and map kept, answers and leaves what the unbroken run does. examples/stop.c does so. */

/* Stores state and record as text at the front of the slice `text`, and answers as sa110_call does: SA110_SERVED with the text's length, or
 * SA110_REFUSED with 1, 3, 4 or 15, tested in this order, which changes nothing. Bytes of the slice behind the text stay as they were. Memory is lent
 * for its length alone, and stays. After a served start or reading, with memory of that length and no change but by calls, only 15 can be met, and
 * SA110_TEXT_MAX bytes are enough. The answer is no size: a refused storing answers more than 2^33.
 *
 *     answer = sa110_store_text(&state, &cp15, memory, memory_length, text, sizeof text);
 *     if (sa110_kind(answer) == SA110_SERVED)
 *         fwrite(text, 1, sa110_value(answer), file); */
uint64_t sa110_store_text(const struct sa110_state *state, const struct sa110_cp15 *cp15, const uint8_t *memory, size_t memory_length,
                          uint8_t *text, size_t text_length);

/* Reads a text back, which is all of the slice `text`: writes its state and record, and gives 0. Refused, it gives 1, 14, 3 or 4, tested in this order, and
 * writes a state and a record of zeros. What was in them before does not matter. A number that does not fit its field, such as 2 for valid or 256 for a
 * byte, is refused by 3 and not by 14. Memory is lent for its length alone, and stays. With a shorter memory than the start's a line or a write buffer
 * entry may lie outside it: that is 3, which is tested before 4. */
uint32_t sa110_read_text(struct sa110_state *state, struct sa110_cp15 *cp15, const uint8_t *memory, size_t memory_length, const uint8_t *text,
                         size_t text_length);

/* ---- The plain machine ---- */

/* Makes a list of calls, in the form of sa110_run, on the plain machine: memory and the five registers, all zero at the start, without TLB,
 * Dcache and write buffer. Stores are in memory at once, and a swap reads and writes memory together; writes of registers 7 and 8 do nothing.
 *
 * It reads the map by the same rule. A load where M, C and the page's C bit are set faults with SA110_FILL_SECTION or SA110_FILL_PAGE where its word or one
 * before it in its line is bad. A store to a bad word is dropped without a fault where M and W are set and the page's C or B is. Any other access to a bad
 * word faults with SA110_OTHER_SECTION or SA110_OTHER_PAGE, and a walk that reads one with SA110_WALK_FIRST or SA110_WALK_SECOND.
 *
 * For a list that keeps document 01's rules R1 to R6 the answers are those of sa110_run after a served start on the same bytes with the same map, and once
 * each line stored to was cleaned after its last store, with a drain after that, so is memory, byte for byte: this is proved (term 3). To the rules a
 * served swap is a store, and a store that is dropped is none; R6 asks of a large page that the aligned sixteen words round its level 2 word lie in
 * memory, are good and are all equal. With a map of zeros the plain machine is document 01's, so that these answers are those of document 01's plain
 * machine. Whether a list keeps the rules, compare's program counts tells, by the second model, which is tested and not proved.
 *
 * A memory whose length does not fit gives refusal 1, with no call made. A map that does not fit is refused by 16 in each call's answer, before 5. */
struct sa110_plain_ran sa110_plain_run(uint8_t *memory, size_t memory_length, const uint8_t *bad, size_t bad_length, const uint32_t *calls,
                                       size_t calls_length, uint64_t *answers, size_t answers_length);

/* ---- Parts ---- */

/* Walks the page tables in a memory of any length for a virtual address, by the table base's bits 31 to 14. The map may have any length, too: words
 * behind its end are good, and so are those of a byte above 1. An odd result is the mapping found, in the form of sa110_state.entries; an even one is
 * 2 * (domain * 16 + status) of the fault. Rights are not checked, and nothing changes. */
uint64_t sa110_walk(const uint8_t *memory, size_t memory_length, const uint8_t *bad, size_t bad_length, uint32_t base, uint32_t va);

/* Gives an entry of the rights table: 0 allowed, 1 domain fault, 2 permission fault; 255 for an index above 255. The index is
 * domain value * 64 + AP * 16 + S * 8 + R * 4 + privileged * 2 + store; store is 1 for a store and a swap, 0 for loads. */
uint8_t sa110_right(uint32_t index);

/* Fills an array of SA110_RIGHTS bytes, whatever they were, with all entries of the rights table, by the index above. They are worked out from the domain
 * values and the rows of document 001's table 2-3 (document 02, Six), and not read from the table that accesses use. That each is the entry that
 * sa110_right gives at its index, and the one by which the rights of an access are checked, is proved. */
void sa110_rights_table(uint8_t table[SA110_RIGHTS]);

#ifdef __cplusplus
}
#endif
#endif
