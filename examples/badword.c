/* A board on which one word of memory aborts on the bus (document 02, Five; document 000, 7.3). The word is reached through a cacheable section, a cacheable
 * page, a section and a page that are neither cacheable nor bufferable, a bufferable page, and as a page table's word. Each call is printed with the answers
 * of the SA-110 and of the plain machine, whether it hit the Dcache, missed, or filled a line, and the line fills, the halves sent out and the write buffer
 * entries that it leaves. examples/badword.py prints the same.
 *
 * The list keeps document 01's rules, so both machines answer the same, and after the clean and the drain at the end memory is the same (term 3): the bad
 * word's line is reached through one address between whole flushes of the Dcache (R2), before which the lines stored to are cleaned (R3); the page tables
 * are in memory at the start (R4), the TLB is flushed behind the table base write (R5), and there are no large pages (R6). */
#include "sa110.h"
#include <stdio.h>

#define MEMORY 0x40000
#define CALLS 128
#define BAD 0x20010u /* the bad word's physical address: the fifth word of its line */

static struct sa110_state state;
static struct sa110_cp15 cp15;
static uint8_t memory[MEMORY];
static uint8_t bad[MEMORY / SA110_WORD_BYTES];
static uint8_t store[SA110_STORE_BYTES];

/* The calls made, and of each the answer, the counts and buffer entries that it leaves, and what is printed: a title, or null, and words, or null where
 * the call is not printed. */
static uint32_t list[CALLS * SA110_FIELDS];
static uint64_t answers[CALLS];
static struct row {
    struct sa110_counts counts;
    size_t used;
    const char *title, *words;
} rows[CALLS];
static size_t made;
static const char *next_title;

/* Makes a call of five numbers with so much of the map. */
static uint64_t call_with(const uint32_t *c, size_t bad_length) {
    return sa110_call(&state, &cp15, memory, sizeof memory, bad, bad_length, store, sizeof store, c[0], c[1], c[2], c[3], c[4]);
}

/* Makes a call of the supervisor, and keeps what is to be printed. */
static void call(uint32_t kind, uint32_t n, uint32_t a, uint32_t v, const char *words) {
    const uint32_t numbers[SA110_FIELDS] = {kind, 1, n, a, v};
    if (made == CALLS) {
        return;
    }
    memcpy(list + made * SA110_FIELDS, numbers, sizeof numbers);
    answers[made] = call_with(numbers, sizeof bad);
    const struct row row = {state.counts, state.used, next_title, words};
    next_title = NULL;
    rows[made++] = row;
}

static void title(const char *words) { next_title = words; }
static void load(uint32_t address, const char *words) { call(SA110_LOAD, 4, address, 0, words); }
static void put(uint32_t address, uint32_t value, const char *words) { call(SA110_STORE, 4, address, value, words); }
static void swap(uint32_t address, uint32_t value, const char *words) { call(SA110_SWAP, 4, address, value, words); }
static void cache(uint32_t pair, uint32_t address, const char *words) { call(SA110_WRITE, SA110_CACHE, pair, address, words); }

/* Memory and map at the start: words that tell their address, page tables, and the bad word. */
static void board(uint8_t *at) {
    static const uint32_t tables[][2] = {
        {0x4008, 0x00000C0E}, /* 002xxxxx: section at 0, cacheable, bufferable */
        {0x400C, 0x00008021}, /* 003xxxxx: second-level table at 8000, domain 1 */
        {0x4010, 0x00000C02}, /* 004xxxxx: section at 0, neither cacheable nor bufferable */
        {0x4014, 0x00020021}, /* 005xxxxx: second-level table at 20000, domain 1, in which the word of 00504xxx is the bad one */
        {0x8000, 0x00020FFE}, /* 00300xxx: small page at 20000, cacheable, bufferable */
        {0x8004, 0x00020FF2}, /* 00301xxx: small page at 20000, neither */
        {0x8008, 0x00020FF6}, /* 00302xxx: small page at 20000, bufferable */
    };
    uint32_t i;
    for (i = 0x20000; i < 0x20400; i += SA110_WORD_BYTES) {
        const uint32_t word = 0x5A000000 + i;
        memcpy(at + i, &word, sizeof word);
    }
    for (i = 0; i < sizeof tables / sizeof *tables; i++) {
        memcpy(at + tables[i][0], &tables[i][1], sizeof tables[i][1]);
    }
    bad[BAD / SA110_WORD_BYTES] = 1;
}

static void registers(void) {
    title("Table base and domains; then MMU, Dcache and write buffer on, with alignment checked");
    call(SA110_WRITE, SA110_BASE, 0, 0x4000, "");
    call(SA110_WRITE, SA110_DOMAINS, 0, 0x5, "");
    call(SA110_WRITE, SA110_TLB, SA110_TLB_FLUSH, 0, "");
    call(SA110_WRITE, SA110_CONTROL, 0, SA110_M | SA110_A | SA110_C | SA110_W, "");
}

/* Flushes the Dcache, so that the line may be reached through another address. */
static void flush(void) { cache(SA110_CACHE_FLUSH, 0, NULL); }

static void cacheable_section(void) {
    uint32_t i;
    title("A cacheable section: a load that misses reads its line from the first word upward, here as far as the fifth");
    load(0x220000, "served, as the bad word lies behind; but the line's place stays empty");
    load(0x220004, "a miss again, and no fill is counted");
    load(0x220008, "");
    load(0x22000C, "");
    load(0x220010, "the bad word");
    load(0x220014, "the bad word lies before");
    load(0x220018, "");
    load(0x22001C, "");
    call(SA110_LOAD, 1, 0x22000F, 0, "a byte is as its word");
    call(SA110_LOAD, 1, 0x220013, 0, "");
    load(0x220020, "the next line has no bad word");
    load(0x22003C, "");
    title("Each such load takes the place at the set's pointer, and the line that is there gives way");
    load(0x220200, "another line of the set");
    put(0x220200, 0x1234, "");
    for (i = 0; i < SA110_WAYS - 1; i++) {
        load(0x220000, i == SA110_WAYS - 2 ? "31 times: the pointer comes round" : NULL);
    }
    load(0x220000, "the other line gives way, and its dirty half is sent out");
    load(0x220200, "it is read again, behind a drain");
}

static void stores_and_swaps(void) {
    title("A buffered store to the bad word is served, and dropped when it leaves the buffer; a swap that misses is not buffered");
    put(0x220010, 0x11111111, "");
    put(0x220014, 0x22222222, "joins the entry");
    load(0x220000, "drains before it reads");
    swap(0x220010, 0x33333333, "");
    swap(0x220014, 0x33333333, "reads its own word alone");
    cache(SA110_CACHE_CLEAN_LINE, 0x220000, NULL);
    cache(SA110_CACHE_CLEAN_LINE, 0x220200, NULL);
    flush();
}

static void cacheable_page(void) {
    title("A cacheable page");
    load(0x30000C, "");
    load(0x300010, "");
    flush();
}

static void uncached(void) {
    title("A section that is neither cacheable nor bufferable: the word itself alone matters");
    load(0x42000C, "");
    load(0x420010, "");
    load(0x420014, "");
    put(0x420010, 0x44444444, "no buffer takes it");
    put(0x420014, 0x44444444, "");
    swap(0x420010, 0x44444444, "");
    cache(SA110_CACHE_CLEAN_LINE, 0x420000, NULL);
    flush();
    title("Such a page");
    load(0x301010, "");
    load(0x301014, "");
    put(0x301010, 0x55555555, "");
    flush();
}

static void bufferable_page(void) {
    title("A bufferable page");
    put(0x302010, 0x66666666, "");
    put(0x302014, 0x66666666, "joins the entry");
    load(0x302010, "drains nothing");
    load(0x302014, "drains before it reads");
    cache(SA110_CACHE_CLEAN_LINE, 0x302000, NULL);
    cache(SA110_BUFFER_DRAIN, 0, NULL);
}

static void walk(void) {
    title("A walk that reads the bad word as a level 2 word");
    load(0x504000, "");
    call(SA110_READ, SA110_FSR, 0, 0, "domain 1, status 14");
    call(SA110_READ, SA110_FAR, 0, 0, "");
}

/* ---- What is printed ---- */

static void print_call(const uint32_t *c) {
    static const char *const names[] = {"load", "signed", "store", "read", "write", "swap"};
    char text[64];
    int at = sprintf(text, "%-6s", names[c[0]]);
    at += c[0] == SA110_READ || c[0] == SA110_WRITE ? sprintf(text + at, "register %02u", c[2]) : sprintf(text + at, "%02u at %08x", c[2], c[3]);
    if (c[0] == SA110_STORE || c[0] == SA110_WRITE || c[0] == SA110_SWAP) {
        sprintf(text + at, " = %08x", c[4]);
    }
    printf("%-32s", text);
}

static void print_answer(uint32_t kind, uint64_t answer) {
    char text[32];
    if (sa110_kind(answer) == SA110_FAULT) {
        sprintf(text, "fault %02u", sa110_status(answer));
    } else if (sa110_kind(answer) == SA110_REFUSED) {
        sprintf(text, "refused %02u", sa110_value(answer));
    } else if (kind == SA110_STORE || kind == SA110_WRITE) {
        sprintf(text, "served");
    } else {
        sprintf(text, "%08x", sa110_value(answer));
    }
    printf("  %-10s", text);
}

/* What an access did in the Dcache: one that faults in its walk does not come to it. */
static const char *did(size_t i) {
    const uint32_t kind = list[i * SA110_FIELDS];
    const struct sa110_counts *before = &rows[i > 0 ? i - 1 : 0].counts, *after = &rows[i].counts;
    if (kind == SA110_READ || kind == SA110_WRITE || (sa110_kind(answers[i]) == SA110_FAULT && sa110_status(answers[i]) == SA110_WALK_SECOND)) {
        return "-";
    }
    return after->hits != before->hits ? "hit" : after->fills != before->fills ? "fill" : "miss";
}

static void print_rows(const uint64_t *plain) {
    size_t i;
    printf("%-32s  %-10s  %-10s  Dcache  fills  halves  buffer\n", "", "SA-110", "plain");
    for (i = 0; i < made; i++) {
        const struct row *row = rows + i;
        if (row->title != NULL) {
            printf("\n%s\n", row->title);
        }
        if (row->words != NULL) {
            print_call(list + i * SA110_FIELDS);
            print_answer(list[i * SA110_FIELDS], answers[i]);
            print_answer(list[i * SA110_FIELDS], plain[i]);
            printf("  %-6s  %5u  %6u  %6zu%s%s\n", did(i), row->counts.fills, row->counts.halves, row->used, *row->words ? "  " : "", row->words);
        }
    }
}

/* ---- The plain machine, and the list in one run ---- */

/* Makes the calls on the plain machine, prints both machines' answers, and compares. */
static int plain(void) {
    static uint8_t other[MEMORY];
    static uint64_t codes[CALLS];
    size_t i, same = 0, bytes = 0;
    board(other);
    struct sa110_plain_ran ran = sa110_plain_run(other, sizeof other, bad, sizeof bad, list, made * SA110_FIELDS, codes, CALLS);
    print_rows(codes);
    for (i = 0; i < made; i++) {
        same += codes[i] == answers[i];
    }
    for (i = 0; i < MEMORY; i++) {
        bytes += other[i] != memory[i];
    }
    const struct sa110_counts *counts = &state.counts;
    printf("\nCounts: calls %u, TLB misses %u, Dcache hits %u, line fills %u, halves sent out %u\n", counts->calls, counts->misses, counts->hits,
           counts->fills, counts->halves);
    printf("The plain machine: %zu calls made, %u counted, %zu answers the same; bytes of memory that differ: %zu\n", ran.made, ran.calls, same, bytes);
    return ran.refusal == 0 && ran.made == made && same == made && bytes == 0;
}

/* Makes the list once more, in one run from a start, and compares everything. */
static int in_one_run(void) {
    static struct sa110_state state2;
    static struct sa110_cp15 cp15_2;
    static uint8_t memory2[MEMORY], store2[SA110_STORE_BYTES];
    static uint64_t codes[CALLS];
    board(memory2);
    uint32_t refusal = sa110_start(&state2, &cp15_2, memory2, sizeof memory2, store2, sizeof store2);
    size_t n = sa110_run(&state2, &cp15_2, memory2, sizeof memory2, bad, sizeof bad, store2, sizeof store2, list, made * SA110_FIELDS, codes, CALLS);
    int same = refusal == 0 && n == made && memcmp(codes, answers, made * sizeof *codes) == 0 && sa110_same_state(&state2, &state) &&
               memcmp(&cp15_2, &cp15, sizeof cp15) == 0 && memcmp(memory2, memory, sizeof memory) == 0 && memcmp(store2, store, sizeof store) == 0;
    printf("The list in one run: %zu calls made; answers, state, record, memory and cache store %s\n", n, same ? "the same" : "differ");
    return same;
}

/* ---- The map elsewhere ---- */

/* The status of the fault of a walk with so much of the map, or 0. */
static uint32_t walked(size_t bad_length) {
    uint64_t found = sa110_walk(memory, sizeof memory, bad, bad_length, 0x4000, 0x504000);
    return found % 2 == 0 ? sa110_status(found / 2) : 0;
}

/* Replays three lines with the map, and prints what they print. */
static void replay(void) {
    static const char text[] = "0,1,4,131084,0\n0,1,4,131088,0\n2,1,4,131088,1\n";
    static struct sa110_replay r;
    uint8_t out[SA110_PRINTED_LINE];
    size_t at = 0, n = sizeof text - 1;
    printf("A replay of flat accesses to 0002000c and, twice, the bad word:\n");
    sa110_start(&r.state, &r.cp15, memory, sizeof memory, store, sizeof store);
    do {
        sa110_replay(&r, memory, sizeof memory, bad, sizeof bad, store, sizeof store, (const uint8_t *)text + at, n - at, 1, out, sizeof out);
        fwrite(out, 1, r.written, stdout);
        at += r.taken;
    } while (at < n || r.written > 0);
}

/* A look, walks, and maps that do not fit. */
static void elsewhere(void) {
    static const uint32_t read_id[SA110_FIELDS] = {SA110_READ, 1, SA110_ID, 0, 0};
    uint64_t found = sa110_look(&state, &cp15, memory, sizeof memory, bad, sizeof bad, store, sizeof store, 0x220010);
    const uint8_t *line = sa110_line(found, memory, store);
    uint32_t word = 0;
    if (line != NULL) {
        memcpy(&word, line + BAD % SA110_LINE_BYTES, sizeof word);
    }
    printf("\nA look at the bad word: %s %05x, word %08x\n", sa110_which(found) == SA110_OF_MEMORY ? "memory" : "elsewhere", sa110_value(found), word);
    printf("A walk for 00504000: fault %02u; with an empty map: fault %02u\n", walked(sizeof bad), walked(0));
    uint64_t one = call_with(read_id, sizeof bad - 1);
    bad[0] = 2;
    uint64_t two = call_with(read_id, sizeof bad);
    bad[0] = 0;
    printf("A map that is a byte short: refused by %02u; with a byte of 2: refused by %02u\n", sa110_value(one), sa110_value(two));
    replay();
}

int main(int argc, char **argv) {
    if (argc != 1) {
        fprintf(stderr, "usage: %s\nReaches a word that aborts on the bus, on the SA-110 data side and on the plain machine, and compares. It takes no "
                        "arguments.\n",
                argv[0]);
        return 2;
    }
    board(memory);
    uint32_t refusal = sa110_start(&state, &cp15, memory, sizeof memory, store, sizeof store);
    printf("Start: refusal %u, memory %zu bytes, map %zu bytes; one bad word, at %08x, the fifth of its line\n\n", refusal, state.size, sizeof bad, BAD);
    registers();
    cacheable_section();
    stores_and_swaps();
    cacheable_page();
    uncached();
    bufferable_page();
    walk();
    int agree = plain();
    int same = in_one_run();
    elsewhere();
    printf("%s\n", agree && same ? "all agree" : "NOT ALL AGREE");
    return agree && same ? 0 : 1;
}
