/* Damaged input from C: random and damaged states and replays, wrong lengths, maps of bad words that do not fit, numbers that are no call, malformed
 * traces, damaged texts of states. Each lent thing lies against a page that cannot be read or written, or in a block of its own from malloc for valgrind to
 * watch, so that an access outside ends the program; so does a write to the map. Checked are: a start writes the whole state and record; the answer is one
 * of documents 01 and 02, and refusals 1 to 4, 16 and 5 are met in this order; a refused call, a look and a soundness test change nothing; a state that was
 * sound stays so; a run of the list answers and leaves the same. No call changes a bad word. A fill that is aborted leaves its place empty and the cache
 * store as it was, and is not counted. A swap answers what a load answers before it, and a load after it answers the value swapped in. The plain machine
 * refuses all of a list by 16, or nothing of it. A walk takes any map. The rights table worked out has the entries that sa110_right gives. A replay that is refused
 * changes nothing but its last two fields; any other prints and leaves what a call for each line gives, in parts and slices of any length. A state is
 * stored as the text that is laid and read here, and read back from it, with a memory that cannot be touched; a storing that is refused changes no byte of
 * its slice, and others none behind the text; a reading that is refused leaves zeros; a run that is stopped, stored and read back ends as the unbroken
 * run. */
#define _GNU_SOURCE
#include "sa110.h"
#include <stdio.h>
#include <stdlib.h>
#include <sys/mman.h>
#include <unistd.h>

#define MOST 24 /* calls of a list */

static uint64_t seed;

static uint64_t any(void) {
    seed ^= seed << 13;
    seed ^= seed >> 7;
    seed ^= seed << 17;
    return seed * 0x2545F4914F6CDD1Du >> 16;
}
static uint32_t below(uint32_t n) { return (uint32_t)(any() % n); }
static int chance(uint32_t n) { return below(n) == 0; }
static uint32_t word(void) { return (uint32_t)any(); }

static _Noreturn void fail(const char *what) {
    printf("damaged: %s\n", what);
    exit(1);
}

/* A block to lend: its pages lie between two that cannot be touched, or it comes from malloc. */
struct block {
    uint8_t *at;
    size_t length;
    uint8_t *pages;
    size_t pages_length;
};

static struct block lend(size_t length) {
    struct block b = {NULL, length, NULL, 0};
    size_t page = (size_t)sysconf(_SC_PAGESIZE), inside = (length + page - 1) / page * page;
    uint32_t way = below(3);
    if (way == 2 && length > 0) {
        b.at = malloc(length);
        if (b.at == NULL) {
            fail("no memory left");
        }
        return b;
    }
    b.pages_length = inside + 2 * page;
    b.pages = mmap(NULL, b.pages_length, PROT_NONE, MAP_PRIVATE | MAP_ANONYMOUS, -1, 0);
    if (b.pages == MAP_FAILED || (inside > 0 && mprotect(b.pages + page, inside, PROT_READ | PROT_WRITE) != 0)) {
        fail("no memory left");
    }
    b.at = b.pages + page + (way == 1 ? inside - length : 0);
    return b;
}

static struct block copy_of(const struct block *b) {
    struct block c = lend(b->length);
    memcpy(c.at, b->at, b->length);
    return c;
}

/* The block, from which can then only be read where it has pages of its own. */
static struct block sealed(struct block b) {
    size_t page = (size_t)sysconf(_SC_PAGESIZE);
    if (b.pages != NULL && b.length > 0 && mprotect(b.pages + page, b.pages_length - 2 * page, PROT_READ) != 0) {
        fail("no memory left");
    }
    return b;
}

static void give_back(struct block *b) {
    if (b->pages != NULL) {
        munmap(b->pages, b->pages_length);
    } else {
        free(b->at);
    }
}

/* A machine with what is lent to it, each in a block. */
struct machine {
    struct block state, cp15, memory, bad, store;
};

static struct sa110_state *state(struct machine *m) { return (struct sa110_state *)m->state.at; }
static struct sa110_cp15 *cp15(struct machine *m) { return (struct sa110_cp15 *)m->cp15.at; }

static struct machine machine_of(const struct machine *m) {
    struct machine c = {copy_of(&m->state), copy_of(&m->cp15), copy_of(&m->memory), sealed(copy_of(&m->bad)), copy_of(&m->store)};
    return c;
}

static void drop(struct machine *m) {
    give_back(&m->state);
    give_back(&m->cp15);
    give_back(&m->memory);
    give_back(&m->bad);
    give_back(&m->store);
}

static int same_bytes(const struct block *a, const struct block *b) { return a->length == b->length && memcmp(a->at, b->at, a->length) == 0; }

static int same(struct machine *a, struct machine *b) {
    return sa110_same_state(state(a), state(b)) && same_bytes(&a->cp15, &b->cp15) && same_bytes(&a->memory, &b->memory) &&
           same_bytes(&a->bad, &b->bad) && same_bytes(&a->store, &b->store);
}

static int sound(struct machine *m) {
    struct machine before = machine_of(m);
    uint32_t answer = sa110_sound(state(m), cp15(m), m->memory.length);
    if (answer > 1) {
        fail("a soundness test answers neither 1 nor 0");
    }
    if (!same(m, &before)) {
        fail("a soundness test changes something");
    }
    drop(&before);
    return answer == 1;
}

static int fits(size_t memory_length) { return memory_length % 32 == 0 && memory_length <= SA110_MEMORY_MAX; }

/* Whether a map is not refused by 16. */
static int map_fits(const struct block *bad, size_t memory_length) {
    size_t i;
    for (i = 0; i < bad->length && bad->at[i] <= 1; i++) {
    }
    return i == bad->length && bad->length * SA110_WORD_BYTES == memory_length;
}

/* The first of the refusals 1 to 4, 16 and 5 that a call meets, or 0. */
static uint32_t first_refusal(struct machine *m) {
    size_t n = m->memory.length;
    return !fits(n)                                        ? SA110_REFUSED_MEMORY
           : m->store.length != SA110_STORE_BYTES          ? SA110_REFUSED_STORE
           : sa110_sound(state(m), cp15(m), n) == 0        ? SA110_REFUSED_STATE
           : state(m)->size != n                           ? SA110_REFUSED_LENGTH
           : !map_fits(&m->bad, n)                         ? SA110_REFUSED_MAP
           : state(m)->counts.calls == UINT32_MAX          ? SA110_REFUSED_COUNT
                                                           : 0;
}

/* Starts, and checks the answer, the state and the record that it writes. */
static void start(struct machine *m) {
    static const struct sa110_cp15 zeros;
    static struct sa110_state fresh;
    size_t n = m->memory.length;
    uint32_t expected = !fits(n) ? 1 : m->store.length != SA110_STORE_BYTES ? 2 : 0;
    uint32_t refusal = sa110_start(state(m), cp15(m), m->memory.at, n, m->store.at, m->store.length);
    fresh.size = refusal ? 0 : n;
    if (refusal != expected || !sa110_same_state(state(m), &fresh) || memcmp(cp15(m), &zeros, sizeof zeros) != 0) {
        fail("a start answers or writes something else");
    }
}

/* A word of a page table, level 1 or 2, for a memory of some length. */
static uint32_t descriptor(size_t length) {
    uint32_t kind = chance(8) ? below(4) : 1 + below(2);
    uint32_t base = chance(4) ? word() : length == 0 ? 0 : below((uint32_t)length);
    if (chance(3)) {
        base = below(4) << 20;
    }
    return (base & 0xFFFFF000u) | (word() & 0x0C0Cu) | (chance(2) ? 0xFF0u : word() & 0xFF0u) * chance(2) | below(3) << 5 | kind;
}

static size_t memory_length(void) {
    static const size_t odd[] = {1, 31, 33, 4097, 65535, SA110_MEMORY_MAX + 32};
    switch (below(16)) {
    case 0:
        return odd[chance(20) ? 5 : below(5)];
    case 1:
        return 32u * below(4);
    default:
        return 32u * below(2049);
    }
}

/* A map for a memory of some length: no bad words, or some, up to an eighth of all. */
static struct block some_map(size_t memory_length) {
    struct block b = lend(memory_length / SA110_WORD_BYTES);
    size_t i, times = chance(3) || b.length > 65536 ? 0 : b.length >> (3 + below(8));
    memset(b.at, 0, b.length);
    for (i = 0; i < times; i++) {
        b.at[below((uint32_t)b.length)] = 1;
    }
    return sealed(b);
}

/* Gives a machine another map, mostly one that does not fit. */
static void damage_map(struct machine *m) {
    size_t n = m->bad.length;
    const size_t lengths[] = {0, n - (n > 0), n + 1, m->memory.length, n / 2, below(64)};
    uint32_t way = below(9);
    struct block b = lend(way < 6 ? lengths[way] : n);
    memset(b.at, 0, b.length);
    memcpy(b.at, m->bad.at, b.length < n ? b.length : n);
    if (way == 6 && n > 0) {
        b.at[chance(4) ? 0 : chance(3) ? n - 1 : below((uint32_t)n)] = chance(2) ? 2 : (uint8_t)(2 + below(254));
    } else if (way == 7) {
        memset(b.at, (int)word(), n);
    } else if (way == 8 && n > 0) { /* a word that was good is bad */
        b.at[below((uint32_t)n)] = 1;
    }
    give_back(&m->bad);
    m->bad = sealed(b);
}

/* An address, often the last one again, so that lines are hit. */
static uint32_t address(void) {
    static uint32_t last;
    if (!chance(3)) {
        last = chance(8) ? word() : below(5) << 20 | below(4) << 12 | below(chance(2) ? 256 : 4096);
    }
    return last;
}

/* Five numbers, mostly a call. */
static void numbers(uint32_t *c) {
    static const uint32_t pairs[] = {7, 6, 5, SA110_PAIR(1, 6), SA110_PAIR(1, 10), SA110_PAIR(4, 10)};
    static const uint32_t controls[] = {0, 1, 9, 13, 15, 0x30D, 0x10D, 0x20F};
    static const uint32_t accesses[] = {SA110_LOAD, SA110_SIGNED_LOAD, SA110_STORE, SA110_SWAP};
    uint32_t kind = chance(200) ? 6 + word() % 9 : chance(3) ? 3 + below(2) : accesses[below(4)];
    int access = kind != SA110_READ && kind != SA110_WRITE;
    c[0] = kind;
    c[1] = chance(200) ? word() : !chance(6);
    c[2] = access ? (chance(30) ? word() % 9 : kind == SA110_SWAP ? 1u << 2 * below(2) : 1u << below(3)) : chance(20) ? word() % 20 : 1 + below(8);
    c[3] = access ? address() : chance(20) ? word() : pairs[below(6)];
    c[4] = word();
    if ((kind == SA110_STORE || kind == SA110_SWAP) && c[2] < 4 && !chance(20)) {
        c[4] &= (1u << 8 * c[2]) - 1;
    }
    if (kind == SA110_WRITE && !chance(8)) {
        c[4] = c[2] == 1 ? controls[below(8)] : c[2] == 2 ? 0x4000 * below(3) : c[2] == 3 ? (chance(2) ? 0x55555555 : word()) : address();
    }
}

/* A machine after a start and a list of calls, or refused. In one of three the first five megabytes are cacheable sections at 0. */
static struct machine some_machine(void) {
    struct machine m;
    uint32_t calls[64 * SA110_FIELDS];
    uint64_t answers[64];
    size_t i, n = memory_length(), sections = chance(3) ? 5 * SA110_WORD_BYTES : 0;
    m.state = lend(sizeof(struct sa110_state));
    m.cp15 = lend(sizeof(struct sa110_cp15));
    m.memory = lend(n);
    m.bad = some_map(n);
    m.store = lend(chance(20) ? below(2) * 16383 + 2 * below(2) : SA110_STORE_BYTES);
    memset(m.state.at, 0xAA, m.state.length);
    memset(m.cp15.at, 0xAA, m.cp15.length);
    memset(m.memory.at, chance(2) ? 0 : 0x5A, n);
    memset(m.store.at, 0x33, m.store.length);
    for (i = 0; i + 4 <= n && n <= 65536; i += 4) {
        uint32_t w = i % 0x4000 < sections ? 0x00000C0E : descriptor(n);
        memcpy(m.memory.at + i, &w, 4);
    }
    start(&m);
    for (i = 0; i < 64; i++) {
        numbers(calls + i * SA110_FIELDS);
    }
    const uint32_t first[] = {4, 1, 2, 0, 0x4000 * below(2), 4, 1, 3, 0, 0x55555555, 4, 1, 1, 0, 13 + 2 * below(2)};
    memcpy(calls, first, sizeof first);
    sa110_run(state(&m), cp15(&m), m.memory.at, n, m.bad.at, m.bad.length, m.store.at, m.store.length, calls, sizeof calls / sizeof *calls, answers,
              3 + below(62));
    return m;
}

static void damage(struct machine *m) {
    struct sa110_state *s = state(m);
    uint32_t i, times = 1 + below(4);
    if (chance(5)) {
        damage_map(m);
    }
    switch (below(14)) {
    case 0: /* bits of the state */
        for (i = 0; i < times; i++) {
            m->state.at[below(sizeof *s)] ^= (uint8_t)(1u << below(8));
        }
        break;
    case 1: /* words of TLB, lines or write buffer */
        for (i = 0; i < times; i++) {
            uint64_t w = any() << 32 ^ any();
            memcpy(m->state.at + 40 + 8 * below((sizeof *s - 40) / 8), &w, 8);
        }
        break;
    case 2: /* the record */
        m->cp15.at[below(24)] ^= (uint8_t)(1u << below(8));
        break;
    case 3: /* all of it */
        for (i = 0; i < sizeof *s; i++) {
            m->state.at[i] = (uint8_t)any();
        }
        break;
    case 4:
        memset(m->state.at, chance(2) ? 0xFF : 0, sizeof *s);
        memset(m->cp15.at, chance(2) ? 0xFF : 0, sizeof *cp15(m));
        break;
    case 5: /* the count's limit */
        s->counts.calls = 0xFFFFFFFFu - below(3);
        break;
    case 6: /* another length at the start, a number of entries */
        if (chance(2)) {
            s->size = chance(2) ? s->size + 32 : (size_t)any() << 20;
        } else {
            s->used = chance(2) ? below(12) : (size_t)any() << 20;
        }
        break;
    default: /* none */
        break;
    }
}

static uint64_t served, faults[16], refused[17], none, swaps, swap_hits, swap_faults[16], swaps_refused;

/* Notes a swap's answer. */
static void note_swap(uint64_t answer, uint32_t width) {
    uint32_t kind = sa110_kind(answer), status = sa110_status(answer);
    if (kind != SA110_REFUSED && width != 1 && width != 4) {
        fail("a swap of another width than 1 and 4");
    }
    if (kind == SA110_FAULT && (status == SA110_FILL_SECTION || status == SA110_FILL_PAGE)) {
        fail("a swap faults on a line fill");
    }
    swaps += kind == SA110_SERVED;
    swap_faults[status] += kind == SA110_FAULT;
    swaps_refused += kind == SA110_REFUSED && sa110_value(answer) == SA110_REFUSED_WIDTH && width == 2;
}

/* Notes an answer; gives whether the call changes nothing. */
static int note(uint64_t answer, const uint32_t *c) {
    uint32_t value = sa110_value(answer);
    if (c[0] == SA110_SWAP && sa110_kind(answer) != SA110_NO_CALL) {
        note_swap(answer, c[2]);
    }
    switch (sa110_kind(answer)) {
    case SA110_SERVED:
        served++;
        return 0;
    case SA110_FAULT:
        if (value > 255 || sa110_status(answer) == 0 || sa110_status(answer) == 2 || sa110_status(answer) == 3) {
            fail("a fault of no known status");
        }
        faults[sa110_status(answer)]++;
        return 0;
    case SA110_REFUSED:
        if (value < 1 || (value > 12 && value != SA110_REFUSED_MAP)) {
            fail("a refusal of no known number");
        }
        refused[value]++;
        return 1;
    default:
        if (answer != (uint64_t)SA110_NO_CALL << 32 || (c[0] <= SA110_SWAP && c[1] <= 1)) {
            fail("an answer of no known kind");
        }
        none++;
        return 1;
    }
}

static uint64_t looks[3];

/* Looks at an address: what is found lies inside, and nothing changes. */
static void look(struct machine *m) {
    struct machine before = machine_of(m);
    uint32_t va = address();
    uint64_t found = sa110_look(state(m), cp15(m), m->memory.at, m->memory.length, m->bad.at, m->bad.length, m->store.at, m->store.length, va);
    uint32_t which = sa110_which(found), offset = sa110_value(found), refusal = first_refusal(m);
    if (which > SA110_OF_MEMORY || offset % SA110_LINE_BYTES != 0 || (which == SA110_NOWHERE && found != 0) ||
        (which == SA110_OF_STORE && offset >= m->store.length) || (which == SA110_OF_MEMORY && offset >= m->memory.length)) {
        fail("a look finds what is not there");
    }
    if (which != SA110_NOWHERE && refusal != 0 && refusal != SA110_REFUSED_COUNT) {
        fail("a look under a refusal 1 to 4 or 16 finds something");
    }
    looks[which]++;
    if (!same(m, &before)) {
        fail("a look changes something");
    }
    drop(&before);
}

static uint64_t call(struct machine *m, const uint32_t *c) {
    return sa110_call(state(m), cp15(m), m->memory.at, m->memory.length, m->bad.at, m->bad.length, m->store.at, m->store.length, c[0], c[1], c[2], c[3],
                      c[4]);
}

static int is_fill_fault(uint64_t answer) {
    return sa110_kind(answer) == SA110_FAULT && (sa110_status(answer) == SA110_FILL_SECTION || sa110_status(answer) == SA110_FILL_PAGE);
}

/* Loads what a swap names, and checks the value; but not where the load's line fill sends out halves, which may be of the same physical line, or where it
 * faults, as a bad word may lie before the one that the swap reached. */
static void load_of(struct machine *m, const uint32_t *swap, uint64_t value) {
    const uint32_t load[SA110_FIELDS] = {SA110_LOAD, swap[1], swap[2], swap[3], 0};
    uint32_t halves = state(m)->counts.halves;
    uint64_t answer = call(m, load);
    if (answer != value && state(m)->counts.halves == halves && answer != ((uint64_t)SA110_REFUSED << 32 | SA110_REFUSED_COUNT) &&
        (!is_fill_fault(answer) || memchr(m->bad.at, 1, m->bad.length) == NULL)) {
        fail("a load before or after a swap answers something else");
    }
}

static uint64_t aborted_served, aborted_faults;

/* Checks the set pointers, and the line fill where one has stepped, of a call that was not refused. */
static void check_fill(struct machine *m, struct machine *before, const uint32_t *c, uint64_t answer) {
    const struct sa110_state *old = state(before), *new = state(m);
    uint32_t i, set = c[3] / SA110_LINE_BYTES % SA110_SETS, way = set * SA110_WAYS + old->pointers[set];
    int load = c[0] == SA110_LOAD || c[0] == SA110_SIGNED_LOAD, stepped = load && new->pointers[set] == (old->pointers[set] + 1) % SA110_WAYS;
    for (i = 0; i < SA110_SETS; i++) {
        if (new->pointers[i] != old->pointers[i] && !(stepped && i == set)) {
            fail("a set pointer changes without a line fill");
        }
    }
    if (!stepped) {
        if (new->counts.fills != old->counts.fills || is_fill_fault(answer)) {
            fail("a line fill without a step of the set's pointer");
        }
        return;
    }
    if (new->counts.halves - old->counts.halves != (old->lines[way] >> 1 & 1) + (old->lines[way] >> 2 & 1)) {
        fail("a line that gives way sends out other halves");
    }
    if (new->counts.fills != old->counts.fills) {
        if (new->lines[way] % 8 != 1 || new->lines[way] >> 32 != c[3] >> 9 || sa110_kind(answer) != SA110_SERVED) {
            fail("a line fill leaves another line");
        }
        return;
    }
    if (new->lines[way] != 0 || !same_bytes(&m->store, &before->store) || (sa110_kind(answer) == SA110_FAULT && !is_fill_fault(answer))) {
        fail("an aborted line fill leaves a line, changes the cache store or has another fault");
    }
    aborted_served += sa110_kind(answer) == SA110_SERVED;
    aborted_faults += sa110_kind(answer) == SA110_FAULT;
}

/* Checks that the bad words of a memory are as they were. */
static void check_bad_words(const struct block *memory, const struct block *before, const struct block *bad) {
    size_t i;
    for (i = 0; i < bad->length; i++) {
        if (bad->at[i] == 1 && memcmp(memory->at + i * SA110_WORD_BYTES, before->at + i * SA110_WORD_BYTES, SA110_WORD_BYTES) != 0) {
            fail("a bad word has changed");
        }
    }
}

static uint64_t length_before_map, map_before_count;

/* Checks that an answer is the refusal that is met first. */
static void check_refusal(struct machine *m, uint32_t expected, uint64_t answer) {
    uint32_t value = sa110_kind(answer) == SA110_REFUSED ? sa110_value(answer) : 0;
    if (expected != 0 ? value != expected : value >= 1 && (value <= 5 || value == SA110_REFUSED_MAP)) {
        fail("a refusal is met out of its order");
    }
    length_before_map += expected == SA110_REFUSED_LENGTH && !map_fits(&m->bad, m->memory.length);
    map_before_count += expected == SA110_REFUSED_MAP && state(m)->counts.calls == UINT32_MAX;
}

/* Makes a call and checks it; gives its answer. */
static uint64_t one_call(struct machine *m, const uint32_t *c) {
    struct machine before = machine_of(m);
    int was_sound = sound(m);
    uint32_t expected = first_refusal(m);
    uint64_t answer = call(m, c);
    if (sa110_kind(answer) != SA110_NO_CALL) {
        check_refusal(&before, expected, answer);
    }
    if (note(answer, c)) {
        if (!same(m, &before)) {
            fail("a refused call changes something");
        }
    } else if (!was_sound || !sound(m)) {
        fail("a call that is not refused had or leaves an unsound state");
    } else {
        check_fill(m, &before, c, answer);
        check_bad_words(&m->memory, &before.memory, &m->bad);
    }
    if (c[0] == SA110_SWAP && sa110_kind(answer) == SA110_SERVED) {
        struct machine after = machine_of(m);
        swap_hits += state(m)->counts.hits != state(&before)->counts.hits;
        load_of(&before, c, answer);
        load_of(&after, c, c[4]);
        drop(&after);
    }
    drop(&before);
    return answer;
}

static void one_case(void) {
    struct machine m = some_machine(), r;
    struct block calls, answers;
    uint64_t codes[MOST];
    size_t i, n = below(MOST + 1), stop = n;
    damage(&m);
    r = machine_of(&m);
    calls = lend((n * SA110_FIELDS + below(5)) * 4);
    memset(calls.at, 0, calls.length);
    for (i = 0; i < n; i++) {
        uint32_t *c = (uint32_t *)calls.at + i * SA110_FIELDS;
        numbers(c);
        look(&m);
        codes[i] = one_call(&m, c);
        if (sa110_kind(codes[i]) == SA110_NO_CALL) {
            stop = i;
            break;
        }
    }
    answers = lend((stop + below(3)) * 8);
    memset(answers.at, 0x77, answers.length);
    size_t made = sa110_run(state(&r), cp15(&r), r.memory.at, r.memory.length, r.bad.at, r.bad.length, r.store.at, r.store.length, (uint32_t *)calls.at,
                            calls.length / 4, (uint64_t *)answers.at, answers.length / 8);
    if (made != stop || memcmp(answers.at, codes, stop * 8) != 0 || !same(&r, &m)) {
        fail("a run differs from its calls");
    }
    for (i = stop * 8; i < answers.length; i++) {
        if (answers.at[i] != 0x77) {
            fail("a run writes behind its answers");
        }
    }
    give_back(&calls);
    give_back(&answers);
    drop(&m);
    drop(&r);
}

static uint64_t plain_refused[17], plain_served;

/* Five numbers for each place of a list; gives how many stand before the first that are no call. */
static size_t some_list(uint32_t *calls) {
    size_t i, stop = MOST;
    for (i = 0; i < MOST; i++) {
        uint32_t *c = calls + i * SA110_FIELDS;
        numbers(c);
        stop = i < stop && (c[0] > SA110_SWAP || c[1] > 1) ? i : stop;
    }
    return stop;
}

/* Checks the answers of the plain machine to the first `stop` calls, each of which is refused by `refusal` if that is not 0, and that no more are written;
 * gives how many calls were not refused. */
static size_t check_plain(const uint64_t *answers, size_t stop, uint32_t refusal) {
    size_t i, counted = 0;
    for (i = 0; i < MOST; i++) {
        uint32_t value = sa110_kind(answers[i]) == SA110_REFUSED ? sa110_value(answers[i]) : 0;
        int right = refusal != 0 ? value == refusal : value == 0 || (value >= SA110_REFUSED_WIDTH && value <= SA110_REFUSED_CONTROL);
        if (i < stop ? !right : answers[i] != 0x7777777777777777u) {
            fail("the plain machine answers something else");
        }
        counted += i < stop && value == 0;
    }
    return counted;
}

/* A list on the plain machine: it makes no call, refuses each by 16, or none by 16; and it changes no bad word. */
static void one_plain(void) {
    static const struct sa110_plain_ran zeros;
    struct machine m = some_machine();
    if (chance(2)) {
        damage_map(&m);
    }
    struct machine before = machine_of(&m);
    struct block calls = lend(MOST * SA110_FIELDS * 4), answers = lend(MOST * 8);
    size_t n = m.memory.length, stop = some_list((uint32_t *)calls.at), made = fits(n) ? stop : 0;
    uint32_t refusal = !fits(n) ? SA110_REFUSED_MEMORY : !map_fits(&m.bad, n) ? SA110_REFUSED_MAP : 0;
    memset(answers.at, 0x77, answers.length);
    struct sa110_plain_ran ran =
        sa110_plain_run(m.memory.at, n, m.bad.at, m.bad.length, (uint32_t *)calls.at, calls.length / 4, (uint64_t *)answers.at, MOST);
    size_t counted = check_plain((uint64_t *)answers.at, made, refusal);
    if (ran.made != made || ran.calls != counted || ran.refusal != (refusal == SA110_REFUSED_MEMORY)) {
        fail("the plain machine counts something else");
    }
    if (refusal != 0 && (!same(&m, &before) || memcmp(&ran, &zeros, offsetof(struct sa110_plain_ran, refusal)) != 0)) {
        fail("the plain machine refuses and changes something");
    }
    check_bad_words(&m.memory, &before.memory, &m.bad);
    plain_refused[refusal]++;
    plain_served += counted;
    give_back(&calls);
    give_back(&answers);
    drop(&before);
    drop(&m);
}

static uint64_t walks[16];

/* A walk over a memory and a map of any lengths and bytes: as with the map that says the same of the words in memory. */
static void one_walk(void) {
    size_t i, n = below(3) * 0x4000 + below(0x200), length = chance(3) ? n / 4 : below(2 * 0x4000);
    struct block memory = lend(n), bad = lend(length), fit = lend(n / 4 + 1);
    uint32_t base = below(3) * 0x4000, va = address(), first = base + (va >> 20) * 4;
    for (i = 0; i + 4 <= n; i += 4) {
        uint32_t w = descriptor(n);
        memcpy(memory.at + i, &w, 4);
    }
    memset(fit.at, 0, fit.length);
    for (i = 0; i < length; i++) {
        bad.at[i] = chance(8) ? 1 : chance(8) ? (uint8_t)any() : 0;
        fit.at[i < n / 4 ? i : n / 4] = bad.at[i] == 1;
    }
    bad = sealed(bad);
    uint64_t found = sa110_walk(memory.at, n, bad.at, length, base, va), same = sa110_walk(memory.at, n, fit.at, n / 4, base, va);
    uint32_t status = found % 2 == 1 ? 0 : sa110_status(found / 2);
    int aborts = first + 4 > n || (first / 4 < length && bad.at[first / 4] == 1);
    if (found != same || (status == SA110_WALK_FIRST) != aborts) {
        fail("a walk heeds another map");
    }
    walks[status]++;
    give_back(&memory);
    give_back(&bad);
    give_back(&fit);
}

/* The rights table, worked out into an array of any bytes, beside single entries. */
static void one_table(void) {
    struct block table = lend(SA110_RIGHTS);
    uint32_t i, behind = SA110_RIGHTS + below(UINT32_MAX - SA110_RIGHTS);
    for (i = 0; i < SA110_RIGHTS; i++) {
        table.at[i] = (uint8_t)any();
    }
    sa110_rights_table(table.at);
    for (i = 0; i < SA110_RIGHTS; i++) {
        if (table.at[i] != sa110_right(i) || table.at[i] > 2) {
            fail("an entry worked out is not that of sa110_right");
        }
    }
    if (sa110_right(behind) != 255 || sa110_right(UINT32_MAX) != 255) {
        fail("an entry behind the rights table's end is not 255");
    }
    give_back(&table);
}

#define LINES 12       /* of a text */
#define LONGEST 120    /* bytes of a line of a text, or of what a line prints */

static uint64_t replays, replays_refused, replayed, malformed;

static struct sa110_replay *replay_of(struct block *b) { return (struct sa110_replay *)b->at; }

/* Whether a replay's own fields are in their ranges. */
static int in_range(const struct sa110_replay *r) {
    return r->lines <= INT64_MAX && r->held <= 63 && r->waiting <= 64 && memchr(r->begun, '\n', r->held) == NULL;
}

/* Whether two replays are the same but for taken and written; bytes that belong to no field may differ. */
static int same_replay(const struct sa110_replay *a, const struct sa110_replay *b) {
    size_t from = offsetof(struct sa110_replay, cp15), to = offsetof(struct sa110_replay, pending) + sizeof a->pending;
    return sa110_same_state(&a->state, &b->state) && memcmp((const char *)a + from, (const char *)b + from, to - from) == 0;
}

/* Writes a line of a text, mostly a call; now and then it departs from the form, as a swap does. */
static size_t some_line(uint8_t *at) {
    static const char *const others[] = {"", "0", "0,1,4,0", "0,1,4,0,0,0", "0,1,4,0,4294967296", "5,1,4,0,0", "0,2,4,0,0", "0,1,4,,0", "0,1,4,0,-1",
                                         " 0,1,4,0,0", "0,1,4,0,0\r", "0,1,4,0,", ",1,4,0,0"};
    uint32_t c[SA110_FIELDS];
    size_t i, n = 0;
    numbers(c);
    if (c[0] == SA110_SWAP && !chance(20)) {
        c[0] = SA110_STORE;
    }
    if (chance(40)) {
        n = (size_t)sprintf((char *)at, "%s", others[below(sizeof others / sizeof *others)]);
    } else {
        n = (size_t)sprintf((char *)at, "%u,%u,%0*u,%u,%0*u", c[0], c[1], chance(8) ? 20 : 1, c[2], c[3], chance(8) ? (int)below(60) : 1, c[4]);
    }
    for (i = 0; i < n && chance(60); i++) {
        at[below((uint32_t)n)] = (uint8_t)any();
    }
    at[n] = '\n';
    return n + !chance(60);
}

/* The number of the field at *at, and behind it; gives 0 where there is no such field. */
static int field(const uint8_t **at, const uint8_t *end, uint32_t *number) {
    const uint8_t *p = *at;
    uint64_t n = 0;
    while (p < end && *p >= '0' && *p <= '9' && n <= UINT32_MAX) {
        n = n * 10 + (uint64_t)(*p++ - '0');
    }
    if (p == *at || n > UINT32_MAX) {
        return 0;
    }
    *at = p;
    *number = (uint32_t)n;
    return 1;
}

/* The five numbers of a line, which its line feed follows; gives 0 where it departs from the form. */
static int fields(const uint8_t *at, const uint8_t *end, uint32_t *c) {
    size_t i;
    for (i = 0; i < SA110_FIELDS; i++) {
        if ((i > 0 && (at == end || *at++ != ',')) || !field(&at, end, c + i)) {
            return 0;
        }
    }
    return at == end && c[0] <= 4 && c[1] <= 1;
}

/* Writes what a line prints. */
static size_t print_line(char *out, uint64_t line, uint32_t kind, uint32_t value, int is_signed) {
    int64_t number = is_signed ? (int64_t)(int32_t)value : (int64_t)value;
    return (size_t)sprintf(out, "%llu,%u,%lld\n", (unsigned long long)line, kind, (long long)number);
}

/* Makes the calls of a text that ends, and writes what a replay is to print behind a number of lines. */
static size_t expect(struct machine *m, uint64_t line, const uint8_t *text, size_t length, char *out) {
    const uint8_t *stop = text + length;
    uint32_t c[SA110_FIELDS];
    size_t n = 0;
    while (text < stop) {
        const uint8_t *end = memchr(text, '\n', (size_t)(stop - text));
        line++;
        if (end == NULL || end - text >= (ptrdiff_t)SA110_TRACE_LINE || !fields(text, end, c)) {
            malformed++;
            return n + print_line(out + n, line, SA110_REFUSED, SA110_REFUSED_LINE, 0);
        }
        uint64_t a = call(m, c);
        n += print_line(out + n, line, sa110_kind(a), sa110_value(a), c[0] == SA110_SIGNED_LOAD && sa110_kind(a) == SA110_SERVED);
        replayed++;
        text = end + 1;
    }
    return n;
}

/* A replay that goes on from a machine: lines, a line begun, whose bytes lie at the front of a text, bytes that wait, sometimes stopped. */
static struct block some_replay(struct machine *m, const uint8_t *text, size_t length) {
    struct block b = lend(sizeof(struct sa110_replay));
    struct sa110_replay *r = replay_of(&b);
    size_t begun = chance(2) ? 0 : below(12);
    memset(r, 0x99, sizeof *r);
    r->state = *state(m);
    r->cp15 = *cp15(m);
    r->lines = chance(2) ? below(100) : any() >> below(48);
    r->held = begun > length || memchr(text, '\n', begun) != NULL ? 0 : begun;
    memcpy(r->begun, text, r->held);
    r->waiting = chance(2) ? 0 : below(65);
    r->stopped = chance(10) ? word() : 0;
    return b;
}

/* Damages a replay: one field, or all of it. */
static void damage_replay(struct sa110_replay *r) {
    size_t i;
    switch (below(12)) {
    case 0:
        r->lines = chance(2) ? (uint64_t)INT64_MAX + 1 + below(2) : chance(2) ? UINT64_MAX : INT64_MAX - LINES - 1;
        break;
    case 1:
        r->held = chance(2) ? 62 + below(4) : (size_t)any() << below(40);
        break;
    case 2:
        r->waiting = chance(2) ? 63 + below(4) : (size_t)any() << below(40);
        break;
    case 3:
        r->begun[below(64)] = '\n';
        break;
    case 4:
        for (i = 0; i < sizeof *r; i++) {
            ((uint8_t *)r)[i] = (uint8_t)any();
        }
        break;
    case 5:
        memset(r, chance(2) ? 0xFF : 0, sizeof *r);
        break;
    default: /* none */
        break;
    }
}

/* Makes one call of a replay and checks what holds of every call; gives what it wrote, which is put at `printed`. */
static size_t one_part(struct block *replay, struct machine *m, const uint8_t *text, size_t length, uint32_t ends, uint8_t *printed) {
    struct block given = lend(length), out = lend(chance(6) ? 0 : below(chance(2) ? 40 : 200)), before = copy_of(replay);
    struct sa110_replay *r = replay_of(replay);
    size_t i, written;
    memcpy(given.at, text, length);
    memset(out.at, 0x77, out.length);
    uint32_t answer = sa110_replay(r, m->memory.at, m->memory.length, m->bad.at, m->bad.length, m->store.at, m->store.length, given.at, length, ends, out.at,
                                   out.length);
    written = r->written;
    if (answer != (in_range(replay_of(&before)) ? 0 : SA110_REFUSED_STATE) || r->taken > length || written > out.length) {
        fail("a replay answers, takes or writes something else");
    }
    if (memcmp(given.at, text, length) != 0) {
        fail("a replay changes its text");
    }
    for (i = written; i < out.length; i++) {
        if (out.at[i] != 0x77) {
            fail("a replay writes behind what it prints");
        }
    }
    if (answer != 0 && (r->taken != 0 || written != 0 || !same_replay(r, replay_of(&before)))) {
        fail("a refused replay changes something");
    }
    memcpy(printed, out.at, written);
    replays++;
    replays_refused += answer != 0;
    written += out.length == 0 && r->waiting > 0; /* what waits is still to be written */
    give_back(&given);
    give_back(&out);
    give_back(&before);
    return written;
}

/* Replays a text in parts of any length and gives how many bytes it printed. */
static size_t in_parts(struct block *replay, struct machine *m, const uint8_t *text, size_t length, uint8_t *printed) {
    struct sa110_replay *r = replay_of(replay);
    size_t at = 0, end = 0, n = 0, calls = 0, more;
    do {
        end = chance(4) ? length : at + below((uint32_t)(length - at) + 1);
        do {
            more = one_part(replay, m, text + at, end - at, end == length, printed + n);
            n += r->written;
            at += r->taken;
            if (calls++ > 10000) {
                fail("a replay does not come to its end");
            }
        } while (at < end || more > 0);
    } while (end < length);
    return n;
}

static void one_replay(void) {
    static uint8_t all[(LINES + 1) * LONGEST], whole[sizeof all + 64], printed[(LINES + 2) * LONGEST];
    static char expected[sizeof printed];
    struct machine m = some_machine(), before;
    size_t length = 0, n = 0, i, lines = chance(8) ? 0 : below(LINES);
    for (i = 0; i < lines; i++) {
        length += some_line(all + length);
    }
    damage(&m);
    struct block b = some_replay(&m, all, length);
    struct sa110_replay *r = replay_of(&b);
    const uint8_t *text = all + r->held;
    length -= r->held;
    damage_replay(r);
    memcpy(m.state.at, &r->state, sizeof r->state);
    memcpy(m.cp15.at, &r->cp15, sizeof r->cp15);
    before = machine_of(&m);
    if (!in_range(r)) {
        one_part(&b, &m, text, length, chance(2), printed);
    } else {
        memcpy(expected, r->pending, n = r->waiting);
        memcpy(whole, r->begun, r->held);
        memcpy(whole + r->held, text, length);
        n += r->stopped ? 0 : expect(&before, r->lines, whole, r->held + length, expected + n);
        if (in_parts(&b, &m, text, length, printed) != n || memcmp(printed, expected, n) != 0) {
            fail("a replay prints something else than its calls give");
        }
    }
    memcpy(m.state.at, &r->state, sizeof r->state);
    memcpy(m.cp15.at, &r->cp15, sizeof r->cp15);
    if (!same(&m, &before)) {
        fail("a replay leaves something else than its calls");
    }
    give_back(&b);
    drop(&m);
    drop(&before);
}

#define NUMBERS 3085                 /* of the text of a state */
#define TEXT_ROOM (NUMBERS * 21 + 64) /* for a text of numbers of 64 bits, and some bytes more */

static uint64_t stored[16], read_back[16], carried_on; /* by the refusal's number, 0 where there is none */

/* A block to lend that cannot be touched at all. */
static struct block closed(size_t length) {
    struct block b = {NULL, length, NULL, length + (size_t)sysconf(_SC_PAGESIZE)};
    b.pages = mmap(NULL, b.pages_length, PROT_NONE, MAP_PRIVATE | MAP_ANONYMOUS, -1, 0);
    if (b.pages == MAP_FAILED) {
        fail("no memory left");
    }
    b.at = b.pages;
    return b;
}

/* The byte behind number i of a text. */
static char behind(size_t i) {
    int last = i < 29 ? i == 28 : i < 381 ? (i - 29) % 11 == 10 : i < 2941 ? (i - 381) % 5 == 4 : (i - 2941) % 18 == 17;
    return last ? '\n' : ',';
}

/* The numbers of state and record, in the text's order. */
static void numbers_of(const struct sa110_state *s, const struct sa110_cp15 *c, uint64_t *n) {
    const struct sa110_registers *r = &c->registers;
    const struct sa110_counts *k = &s->counts;
    const uint64_t front[] = {r->control, r->base, r->domains, r->fsr, r->far, s->size, c->pointer};
    const uint64_t back[] = {s->used, k->calls, k->misses, k->hits, k->fills, k->halves};
    size_t i, j;
    memcpy(n, front, sizeof front);
    memcpy(n + 23, back, sizeof back);
    for (i = 0; i < SA110_SETS; i++) {
        n[7 + i] = s->pointers[i];
    }
    for (i = 0, n += 29; i < SA110_TLB_ENTRIES; i++, n += 11) {
        uint64_t w = s->entries[i];
        const uint64_t entry[] = {w & 1,       w >> 3 & 31,  (w >> 44) << 12, (w >> 24 & 0xFFFFF) << 12, w >> 8 & 255, w >> 16 & 3,
                                  w >> 18 & 3, w >> 20 & 3, w >> 22 & 3,     w >> 1 & 1,                w >> 2 & 1};
        memcpy(n, entry, sizeof entry);
    }
    for (i = 0; i < SA110_LINES; i++, n += 5) {
        uint64_t w = s->lines[i];
        const uint64_t line[] = {w >> 32, w >> 3 & 0x1FFFFFFF, w & 1, w >> 1 & 1, w >> 2 & 1};
        memcpy(n, line, sizeof line);
    }
    for (i = 0; i < SA110_BUFFER_ENTRIES; i++, n += 18) {
        for (j = 0; j < SA110_BLOCK_BYTES; j++) {
            n[j] = s->slots[i].bytes[j];
        }
        n[16] = s->words[i] & UINT32_MAX;
        n[17] = s->words[i] >> 32;
    }
}

/* Writes the text of numbers, and gives its length. */
static size_t lay_text(const uint64_t *numbers, uint8_t *text) {
    size_t i, n = 0;
    for (i = 0; i < NUMBERS; i++) {
        n += (size_t)sprintf((char *)text + n, "%llu%c", (unsigned long long)numbers[i], behind(i));
    }
    return n;
}

/* The numbers of a text; gives 0 where it departs from the form. */
static int parse_text(const uint8_t *text, size_t length, uint64_t *numbers) {
    const uint8_t *at = text, *end = text + length, *from;
    uint32_t n;
    size_t i;
    for (i = 0; i < NUMBERS; i++) {
        from = at;
        if (!field(&at, end, &n) || (*from == '0' && at - from > 1) || at == end || *at++ != behind(i)) {
            return 0;
        }
        numbers[i] = n;
    }
    return at == end;
}

/* State and record of numbers of 32 bits; gives 0 where one does not fit its field: where other numbers come out again. */
static int pack_text(const uint64_t *numbers, struct sa110_state *s, struct sa110_cp15 *c) {
    static uint64_t again[NUMBERS];
    const uint64_t *n = numbers;
    size_t i, j;
    const struct sa110_registers r = {(uint32_t)n[0], (uint32_t)n[1], (uint32_t)n[2], (uint32_t)n[3], (uint32_t)n[4]};
    const struct sa110_counts k = {(uint32_t)n[24], (uint32_t)n[25], (uint32_t)n[26], (uint32_t)n[27], (uint32_t)n[28]};
    c->registers = r;
    c->pointer = (uint32_t)n[6];
    s->size = n[5];
    s->used = n[23];
    s->counts = k;
    for (i = 0; i < SA110_SETS; i++) {
        s->pointers[i] = (uint32_t)n[7 + i];
    }
    for (i = 0, n += 29; i < SA110_TLB_ENTRIES; i++, n += 11) {
        s->entries[i] = (n[0] & 1) | (n[9] & 1) << 1 | (n[10] & 1) << 2 | (n[1] & 31) << 3 | (n[4] & 255) << 8 | (n[5] & 3) << 16 | (n[6] & 3) << 18 |
                        (n[7] & 3) << 20 | (n[8] & 3) << 22 | n[3] >> 12 << 24 | n[2] >> 12 << 44;
    }
    for (i = 0; i < SA110_LINES; i++, n += 5) {
        s->lines[i] = (n[2] & 1) | (n[3] & 1) << 1 | (n[4] & 1) << 2 | (n[1] & 0x1FFFFFFF) << 3 | n[0] << 32;
    }
    for (i = 0; i < SA110_BUFFER_ENTRIES; i++, n += 18) {
        for (j = 0; j < SA110_BLOCK_BYTES; j++) {
            s->slots[i].bytes[j] = (uint8_t)n[j];
        }
        s->words[i] = n[16] | n[17] << 32;
    }
    numbers_of(s, c, again);
    return memcmp(numbers, again, sizeof again) == 0;
}

/* What a reading is to answer, and the state and the record that it is to leave. */
static uint32_t expect_read(size_t n, const uint8_t *text, size_t length, struct sa110_state *s, struct sa110_cp15 *c) {
    static uint64_t numbers[NUMBERS];
    uint32_t expected = 0;
    memset(s, 0, sizeof *s);
    memset(c, 0, sizeof *c);
    if (!fits(n)) {
        return SA110_REFUSED_MEMORY;
    }
    if (!parse_text(text, length, numbers)) {
        return SA110_REFUSED_TEXT;
    }
    if (!pack_text(numbers, s, c) || sa110_sound(s, c, n) == 0) {
        expected = SA110_REFUSED_STATE;
    } else if (s->size != n) {
        expected = SA110_REFUSED_LENGTH;
    }
    if (expected != 0) {
        memset(s, 0, sizeof *s);
        memset(c, 0, sizeof *c);
    }
    return expected;
}

/* The length of a slice for a text. */
static size_t some_room(size_t size) {
    const size_t rooms[] = {0, size - 1, size, below((uint32_t)size), SA110_TEXT_MAX, size + below(200)};
    return rooms[below(6)];
}

/* Stores a machine's state and record for a memory of n bytes, and checks all that it does, by their text. */
static void store_one(struct machine *m, size_t n, const uint8_t *text, size_t size) {
    struct machine before = machine_of(m);
    size_t i, room = some_room(size);
    struct block out = lend(room), memory = closed(n);
    uint32_t expected = !fits(n) ? 1 : sa110_sound(state(m), cp15(m), n) == 0 ? 3 : state(m)->size != n ? 4 : room < size ? 15 : 0;
    memset(out.at, 0x77, room);
    uint64_t answer = sa110_store_text(state(m), cp15(m), memory.at, n, out.at, room);
    if (answer != (expected != 0 ? (uint64_t)SA110_REFUSED << 32 | expected : size)) {
        fail("a storing answers something else");
    }
    if (!same(m, &before)) {
        fail("a storing changes state or record");
    }
    if (expected == 0 && (memcmp(out.at, text, size) != 0 || size > SA110_TEXT_MAX)) {
        fail("a storing writes another text");
    }
    for (i = expected == 0 ? size : 0; i < room; i++) {
        if (out.at[i] != 0x77) {
            fail("a storing writes behind its text, or is refused and writes");
        }
    }
    stored[expected]++;
    give_back(&out);
    give_back(&memory);
    drop(&before);
}

/* Reads a text back for a memory of n bytes, and checks all that it does; where it is read, stores it again. */
static void read_one(size_t n, const uint8_t *text, size_t length) {
    struct block s = lend(sizeof(struct sa110_state)), c = lend(sizeof(struct sa110_cp15)), memory = closed(n), given = lend(length), again = lend(length);
    struct sa110_state expected_state;
    struct sa110_cp15 expected_cp15;
    uint32_t expected = expect_read(n, text, length, &expected_state, &expected_cp15);
    memset(s.at, 0xAA, s.length);
    memset(c.at, 0xAA, c.length);
    memcpy(given.at, text, length);
    uint32_t answer = sa110_read_text((struct sa110_state *)s.at, (struct sa110_cp15 *)c.at, memory.at, n, given.at, length);
    if (answer != expected || memcmp(given.at, text, length) != 0) {
        fail("a reading answers something else, or changes its text");
    }
    if (!sa110_same_state((struct sa110_state *)s.at, &expected_state) || memcmp(c.at, &expected_cp15, c.length) != 0) {
        fail("a reading leaves another state or record");
    }
    if (answer == 0 && (sa110_store_text((struct sa110_state *)s.at, (struct sa110_cp15 *)c.at, memory.at, n, again.at, length) != length ||
                        memcmp(again.at, text, length) != 0)) {
        fail("a text that was read is stored as another");
    }
    read_back[answer]++;
    give_back(&s);
    give_back(&c);
    give_back(&memory);
    give_back(&given);
    give_back(&again);
}

/* Puts other numbers into some places of a text. */
static void damage_numbers(uint64_t *numbers) {
    static const uint64_t others[] = {0,   1,    2,     3,     4,     7,        8,        9,          15,         16, 31, 32, 255,
                                      256, 4096, 16384, 65535, 65536, 0x7FFFFF, 0x800000, 0xFFFFFFFF, 0x100000000};
    uint32_t times = 1 + below(2);
    while (times-- > 0) {
        uint64_t *n = numbers + (chance(2) ? below(NUMBERS) : chance(2) ? below(29) : 2941 + below(144));
        *n = chance(4) ? word() : chance(3) ? *n + 1 : others[below(sizeof others / sizeof *others)];
    }
}

/* Damages the bytes of a text, and gives its new length. */
static size_t damage_text(uint8_t *text, size_t length) {
    static const char bytes[] = "0123456789,\n\r +-x";
    size_t i, at = below((uint32_t)length);
    switch (below(10)) {
    case 0: /* cut anywhere, behind a line, or before its last line feed */
        return chance(3) ? length - 1 : chance(2) ? at : (size_t)((uint8_t *)memchr(text + at, '\n', length - at) - text) + 1;
    case 1: /* a byte is another */
        text[at] = chance(2) ? (uint8_t)any() : (uint8_t)bytes[below(sizeof bytes)];
        return length;
    case 2: /* a byte is missing */
        memmove(text + at, text + at + 1, length - at - 1);
        return length - 1;
    case 3: /* a byte more */
        memmove(text + at + 1, text + at, length - at);
        text[at] = (uint8_t)bytes[below(sizeof bytes)];
        return length + 1;
    case 4: /* bytes behind the end, often one line feed */
        text[length] = '\n';
        for (i = chance(2); i < at % 40; i++) {
            text[length + i] = (uint8_t)bytes[below(sizeof bytes)];
        }
        return length + (chance(2) ? 1 : i);
    case 5: /* bytes of any kind */
        for (i = 0; i < at; i++) {
            text[i] = (uint8_t)any();
        }
        return at;
    default: /* none */
        return length;
    }
}

/* A number up to a limit, often the limit itself. */
static uint32_t up_to(uint32_t most) { return chance(4) ? most : most == UINT32_MAX ? word() : below(most + 1); }

/* The numbers of any sound TLB, some of its entries empty. */
static void sound_entries(uint64_t *n) {
    size_t i;
    for (i = 0; i < SA110_TLB_ENTRIES; i++, n += 11) {
        uint32_t size = up_to(2), mask = ~0u << (size == 0 ? 20 : size == 1 ? 16 : 12);
        const uint64_t entry[] = {1,        size,     up_to(UINT32_MAX) & mask, up_to(UINT32_MAX) & mask, up_to(15), up_to(3),
                                  up_to(3), up_to(3), up_to(3),                 up_to(1),                 up_to(1)};
        memcpy(n, entry, chance(8) ? 0 : sizeof entry);
    }
}

/* The numbers of any sound lines for a memory of some length, some of them empty; gives how many halves are dirty. */
static uint32_t sound_lines(uint64_t *n, size_t length) {
    uint32_t i, dirty = 0;
    for (i = 0; i < SA110_LINES && length > 0; i++, n += 5) {
        const uint64_t line[] = {up_to(0x3FFFF) << 5 | i % 32, up_to((uint32_t)length / 32 - 1), 1, up_to(1), up_to(1)};
        memcpy(n, line, chance(8) ? 0 : sizeof line);
        dirty += (uint32_t)(n[3] + n[4]);
    }
    return dirty;
}

/* The numbers of any sound buffer entries for a memory of some length; gives how many there are. */
static uint32_t sound_slots(uint64_t *n, size_t length) {
    uint32_t i, j, used = length == 0 ? 0 : up_to(SA110_BUFFER_ENTRIES);
    for (i = 0; i < used; i++, n += 18) {
        n[16] = 1 + up_to(0xFFFE);
        n[17] = up_to((uint32_t)length / 16 - 1);
        for (j = 0; j < SA110_BLOCK_BYTES; j++) {
            n[j] = (n[16] >> j & 1) * up_to(255);
        }
    }
    return used;
}

/* The numbers of any sound state and record for a memory of some length, many of them as large as they can be. */
static void sound_numbers(uint64_t *n, size_t length) {
    static const uint32_t controls[] = {0, 1, 9, 13};
    uint32_t i, dirty, calls = UINT32_MAX - up_to(1u << below(31));
    memset(n, 0, NUMBERS * sizeof *n);
    sound_entries(n + 29);
    dirty = sound_lines(n + 381, length);
    n[0] = controls[below(4)] | (up_to(UINT32_MAX) & (SA110_A | SA110_S | SA110_R | SA110_I));
    n[1] = up_to(UINT32_MAX) & 0xFFFFC000;
    n[2] = up_to(UINT32_MAX);
    n[3] = up_to(255);
    n[4] = up_to(UINT32_MAX);
    n[5] = length;
    for (i = 6; i < 23; i++) {
        n[i] = up_to(31);
    }
    n[23] = sound_slots(n + 2941, length);
    n[24] = calls;
    for (i = 25; i < 28; i++) {
        n[i] = up_to(calls);
    }
    n[28] = up_to(calls - dirty);
}

/* A machine of such numbers; memory, map and cache store are not lent. */
static struct machine sound_machine(size_t length) {
    static uint64_t numbers[NUMBERS];
    struct machine m = {lend(sizeof(struct sa110_state)), lend(sizeof(struct sa110_cp15)), lend(0), lend(0), lend(0)};
    memset(m.state.at, 0, m.state.length);
    sound_numbers(numbers, length);
    if (!pack_text(numbers, state(&m), cp15(&m)) || (fits(length) && sa110_sound(state(&m), cp15(&m), length) == 0)) {
        fail("a state that was made sound is not");
    }
    return m;
}

static void one_text(void) {
    static uint64_t numbers[NUMBERS];
    static uint8_t text[TEXT_ROOM];
    int any_state = chance(2);
    size_t size, n = chance(3) ? SA110_MEMORY_MAX : memory_length();
    struct machine m = any_state ? sound_machine(n / 32 * 32) : some_machine();
    n = any_state ? n : m.memory.length;
    damage(&m);
    numbers_of(state(&m), cp15(&m), numbers);
    size = lay_text(numbers, text);
    store_one(&m, n, text, size);
    if (chance(3)) {
        damage_numbers(numbers);
        size = lay_text(numbers, text);
    }
    read_one(chance(20) ? memory_length() : n, text, damage_text(text, size));
    drop(&m);
}

/* The longest text: each number has as many digits as it can have in a sound state. */
static void longest_text(void) {
    static const uint64_t front[] = {0x130F, 0xFFFFC000, UINT32_MAX, 255, UINT32_MAX, SA110_MEMORY_MAX, 31};
    static const uint64_t back[] = {8, UINT32_MAX, UINT32_MAX, UINT32_MAX, UINT32_MAX, UINT32_MAX - 2 * SA110_LINES};
    static const uint64_t entry[] = {1, 2, 0xFFFFF000, 0xFFFFF000, 15, 3, 3, 3, 3, 1, 1};
    static uint64_t numbers[NUMBERS];
    static uint8_t text[TEXT_ROOM], out[SA110_TEXT_MAX];
    static struct sa110_state s;
    static struct sa110_cp15 c;
    struct block memory = closed(SA110_MEMORY_MAX);
    uint64_t *n = numbers;
    size_t i;
    for (i = 0; i < NUMBERS; i++) {
        n[i] = i < 29 ? 31 : 255;
    }
    memcpy(n, front, sizeof front);
    memcpy(n + 23, back, sizeof back);
    for (i = 0, n += 29; i < SA110_TLB_ENTRIES; i++, n += 11) {
        memcpy(n, entry, sizeof entry);
    }
    for (i = 0; i < SA110_LINES; i++, n += 5) {
        const uint64_t line[] = {0x7FFFFF - i % 32, SA110_MEMORY_MAX / 32 - 1 - i, 1, 1, 1};
        memcpy(n, line, sizeof line);
    }
    for (i = 0; i < SA110_BUFFER_ENTRIES; i++, n += 18) {
        n[16] = 0xFFFF;
        n[17] = SA110_MEMORY_MAX / 16 - 1 - i;
    }
    if (!pack_text(numbers, &s, &c) || lay_text(numbers, text) != SA110_TEXT_MAX ||
        sa110_store_text(&s, &c, memory.at, memory.length, out, sizeof out) != SA110_TEXT_MAX || memcmp(out, text, sizeof out) != 0) {
        fail("the longest text is another");
    }
    give_back(&memory);
}

static size_t run(struct machine *m, const uint32_t *calls, size_t n, uint64_t *answers) {
    return sa110_run(state(m), cp15(m), m->memory.at, m->memory.length, m->bad.at, m->bad.length, m->store.at, m->store.length, calls, n * SA110_FIELDS,
                     answers, n);
}

/* A run that is stopped behind any of its calls, stored, read back over another state and record, and carried on. */
static void one_stop(void) {
    struct machine whole = some_machine(), cut = machine_of(&whole);
    uint32_t calls[MOST * SA110_FIELDS];
    uint64_t codes[MOST], others[MOST], answer;
    struct block text = lend(SA110_TEXT_MAX);
    size_t i, n = below(MOST + 1), made, first;
    for (i = 0; i < n; i++) {
        numbers(calls + i * SA110_FIELDS);
    }
    made = run(&whole, calls, n, codes);
    first = run(&cut, calls, below((uint32_t)n + 1), others);
    answer = sa110_store_text(state(&cut), cp15(&cut), cut.memory.at, cut.memory.length, text.at, text.length);
    if (sa110_kind(answer) == SA110_SERVED) {
        memset(cut.state.at, 0xAA, cut.state.length);
        memset(cut.cp15.at, 0xAA, cut.cp15.length);
        if (sa110_read_text(state(&cut), cp15(&cut), cut.memory.at, cut.memory.length, text.at, sa110_value(answer)) != 0) {
            fail("what was stored is not read back");
        }
        first += run(&cut, calls + first * SA110_FIELDS, n - first, others + first);
        if (first != made || memcmp(codes, others, made * sizeof *codes) != 0 || !same(&cut, &whole)) {
            fail("a run that was stopped and carried on differs from the unbroken one");
        }
        carried_on++;
    } else if (fits(cut.memory.length) && state(&cut)->size == cut.memory.length) {
        fail("the state of a run is not stored");
    }
    give_back(&text);
    drop(&whole);
    drop(&cut);
}

/* Prints what was met of texts; gives how much was not. */
static uint32_t report_texts(void) {
    static const uint32_t storing[] = {0, 1, 3, 4, 15}, reading[] = {0, 1, 14, 3, 4};
    uint32_t i, missing = carried_on == 0;
    printf("texts stored, refused by 1, 3, 4, 15:");
    for (i = 0; i < 5; i++) {
        printf(" %llu", (unsigned long long)stored[storing[i]]);
        missing += stored[storing[i]] == 0;
    }
    printf("\ntexts read back, refused by 1, 14, 3, 4:");
    for (i = 0; i < 5; i++) {
        printf(" %llu", (unsigned long long)read_back[reading[i]]);
        missing += read_back[reading[i]] == 0;
    }
    printf("\nruns stopped and carried on %llu\n", (unsigned long long)carried_on);
    return missing;
}

/* Prints what was met of maps and bad words; gives how much was not. */
static uint32_t report_maps(void) {
    printf("refused by 4 where 16 holds, too: %llu, by 16 where 5 does: %llu\n", (unsigned long long)length_before_map,
           (unsigned long long)map_before_count);
    printf("line fills aborted, load served %llu, fault %llu\n", (unsigned long long)aborted_served, (unsigned long long)aborted_faults);
    printf("lists on the plain machine refused by 1 and 16: %llu %llu, made: %llu, calls counted %llu\n", (unsigned long long)plain_refused[1],
           (unsigned long long)plain_refused[SA110_REFUSED_MAP], (unsigned long long)plain_refused[0], (unsigned long long)plain_served);
    printf("walks with mapping %llu, faults 12, 14, 5, 7: %llu %llu %llu %llu\n", (unsigned long long)walks[0], (unsigned long long)walks[12],
           (unsigned long long)walks[14], (unsigned long long)walks[5], (unsigned long long)walks[7]);
    return (length_before_map == 0) + (map_before_count == 0) + (aborted_served == 0) + (aborted_faults == 0) + (plain_refused[1] == 0) +
           (plain_refused[SA110_REFUSED_MAP] == 0) + (plain_served == 0) + (walks[0] == 0) + (walks[12] == 0) + (walks[14] == 0);
}

/* Prints what was met; gives how much was not. */
static uint32_t report(uint64_t cases) {
    uint32_t i, missing = 0;
    printf("cases %llu, served %llu, no call %llu\nrefused by 1 to 12 and 16:", (unsigned long long)cases, (unsigned long long)served,
           (unsigned long long)none);
    for (i = 1; i <= 16; i++) {
        if (i <= 12 || i == SA110_REFUSED_MAP) {
            printf(" %llu", (unsigned long long)refused[i]);
            missing += refused[i] == 0;
        }
    }
    printf("\nfaults by status 1, 4 to 15:");
    for (i = 1; i <= 15; i++) {
        if (i != 2 && i != 3) {
            printf(" %llu", (unsigned long long)faults[i]);
            missing += faults[i] == 0;
        }
    }
    printf("\nswaps served %llu, hits among them %llu, outside memory by status 8 and 10 %llu %llu, of width 2 refused by 6 %llu",
           (unsigned long long)swaps, (unsigned long long)swap_hits, (unsigned long long)swap_faults[SA110_OTHER_SECTION],
           (unsigned long long)swap_faults[SA110_OTHER_PAGE], (unsigned long long)swaps_refused);
    missing += swap_hits == 0 || swap_hits == swaps || swap_faults[SA110_OTHER_SECTION] == 0 || swap_faults[SA110_OTHER_PAGE] == 0 || swaps_refused == 0;
    printf("\nlooks nowhere, in the cache store, in memory: %llu %llu %llu\n", (unsigned long long)looks[0], (unsigned long long)looks[1],
           (unsigned long long)looks[2]);
    missing += looks[0] == 0 || looks[1] == 0 || looks[2] == 0;
    printf("calls of a replay %llu, refused by 3 %llu, lines %llu, malformed ones %llu\n", (unsigned long long)replays,
           (unsigned long long)replays_refused, (unsigned long long)replayed, (unsigned long long)malformed);
    missing += replays_refused == 0 || malformed == 0;
    return missing + report_maps() + report_texts();
}

int main(int argc, char **argv) {
    uint64_t cases = 0, i;
    char *end = NULL;
    if (argc == 3) {
        seed = strtoull(argv[1], &end, 10);
        if (*argv[1] != 0 && *end == 0) {
            cases = strtoull(argv[2], &end, 10);
        }
    }
    if (argc != 3 || *end != 0 || seed == 0 || cases == 0) {
        fprintf(stderr, "usage: %s SEED CASES\nLends damaged input to the library CASES times; both are positive decimal numbers.\n", argv[0]);
        return 2;
    }
    for (i = 0; i < cases; i++) {
        one_case();
        one_plain();
        one_walk();
        one_table();
        one_replay();
    }
    longest_text();
    for (i = 0; i < cases; i++) {
        one_text();
        one_stop();
    }
    if (report(cases) > 0 && cases >= 2000) {
        fail("not every refusal, status, swap, look, aborted fill, walk, end of a replay and answer of a text was met");
    }
    printf("damaged: ok\n");
    return 0;
}
