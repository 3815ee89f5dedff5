/* A whole run of the library from C: start, page tables, MMU, Dcache and write buffer on, accesses, clean and drain, and the same list of calls
 * on the plain machine. It prints each call with its answer, and ends with status 0 if the two machines agree. examples/run.rs and
 * examples/run.py do the same. */
#include "sa110.h"
#include <stdio.h>
#include <string.h>

#define MEMORY 0x40000
#define CALLS 64

static struct sa110_state state;
static struct sa110_cp15 cp15;
static uint8_t memory[MEMORY];
static uint8_t bad[MEMORY / SA110_WORD_BYTES]; /* the map of bad words: there is none */
static uint8_t store[SA110_STORE_BYTES];

/* The calls made, and their answers. */
static uint32_t list[CALLS * SA110_FIELDS];
static uint64_t answers[CALLS];
static size_t made;

static const char *const names[] = {"load", "signed", "store", "read", "write", "swap"};

/* Makes a call, prints it with its answer, and keeps both. */
static void call(uint32_t kind, uint32_t privileged, uint32_t n, uint32_t a, uint32_t v) {
    const uint32_t numbers[SA110_FIELDS] = {kind, privileged, n, a, v};
    char text[64];
    int at = sprintf(text, "%-10s %-6s ", privileged ? "privileged" : "user", names[kind]);
    if (made == CALLS) {
        return;
    }
    if (kind == SA110_READ || kind == SA110_WRITE) {
        at += sprintf(text + at, "register %02u", n);
    } else {
        at += sprintf(text + at, "%02u at %08x", n, a);
    }
    if (kind == SA110_STORE || kind == SA110_WRITE || kind == SA110_SWAP) {
        at += sprintf(text + at, " = %08x", v);
    }
    if (kind == SA110_WRITE && n >= SA110_CACHE) {
        sprintf(text + at, " (%u,%u)", a / 16, a % 16);
    }
    uint64_t answer = sa110_call(&state, &cp15, memory, sizeof memory, bad, sizeof bad, store, sizeof store, kind, privileged, n, a, v);
    printf("%-48s ", text);
    switch (sa110_kind(answer)) {
    case SA110_SERVED:
        printf("value %08x\n", sa110_value(answer));
        break;
    case SA110_FAULT:
        printf("fault, status %02u domain %02u address %08x\n", sa110_status(answer), sa110_domain(answer), a);
        break;
    case SA110_REFUSED:
        printf("refused by %02u\n", sa110_value(answer));
        break;
    default:
        printf("no call\n");
    }
    memcpy(list + made * SA110_FIELDS, numbers, sizeof numbers);
    answers[made++] = answer;
}

static void load(uint32_t width, uint32_t address) { call(SA110_LOAD, 1, width, address, 0); }
static void put(uint32_t width, uint32_t address, uint32_t value) { call(SA110_STORE, 1, width, address, value); }
static void swap(uint32_t width, uint32_t address, uint32_t value) { call(SA110_SWAP, 1, width, address, value); }
static void read_register(uint32_t n) { call(SA110_READ, 1, n, 0, 0); }
static void write_register(uint32_t n, uint32_t value) { call(SA110_WRITE, 1, n, 0, value); }
static void cache(uint32_t pair, uint32_t address) { call(SA110_WRITE, 1, SA110_CACHE, pair, address); }

/* Looks at an address, and prints where its line lies and the word there. */
static void look(uint32_t address) {
    uint64_t found = sa110_look(&state, &cp15, memory, sizeof memory, bad, sizeof bad, store, sizeof store, address);
    const uint8_t *line = sa110_line(found, memory, store);
    char text[64];
    uint32_t word;
    sprintf(text, "look at %08x", address);
    printf("%-48s ", text);
    if (line == NULL) {
        printf("nowhere\n");
        return;
    }
    memcpy(&word, line + address % SA110_LINE_BYTES, sizeof word);
    printf("%s %05x, word %08x\n", sa110_which(found) == SA110_OF_STORE ? "cache store" : "memory", sa110_value(found), word);
}

static void set_up(void) {
    printf("\nThe page tables, by flat stores: level 1 at 4000, level 2 at 8000\n");
    read_register(SA110_ID);
    put(4, 0x4004, 0x00008021); /* 001xxxxx: second-level table at 8000, domain 1 */
    put(4, 0x8114, 0x0001004E); /* 00145xxx: small page at 10000, AP1 privileged only, cacheable, bufferable */
    put(4, 0x4008, 0x00000C0E); /* 002xxxxx: section at 0, domain 0, all may use it, cacheable, bufferable */
    put(4, 0x400C, 0x00000C02); /* 003xxxxx: section at 0, neither cacheable nor bufferable */
    put(4, 0x4010, 0x00000C06); /* 004xxxxx: section at 0, bufferable */
    put(4, 0x4018, 0x00F00C0E); /* 006xxxxx: section at F00000, which lies outside memory */
    cache(SA110_CACHE_CLEAN_LINE, 0x4000);
    cache(SA110_CACHE_CLEAN_LINE, 0x8100);
    cache(SA110_BUFFER_DRAIN, 0);
    printf("\nTable base and domains; then M, C and W, with alignment checked\n");
    write_register(SA110_BASE, 0x4000);
    write_register(SA110_DOMAINS, 0x5);
    call(SA110_WRITE, 1, SA110_TLB, SA110_TLB_FLUSH, 0);
    write_register(SA110_CONTROL, SA110_M | SA110_A | SA110_C | SA110_W);
    read_register(SA110_CONTROL);
}

static void accesses(void) {
    printf("\nA buffered store, a miss that fills the line, hits\n");
    put(4, 0x210010, 0xCAFE1234);
    load(4, 0x210010);
    load(4, 0x210014);
    put(1, 0x210013, 0x80);
    call(SA110_SIGNED_LOAD, 1, 1, 0x210013, 0);
    load(4, 0x145678);
    put(2, 0x145678, 0xBEEF);
    printf("\nUncached loads, the second after a buffered store\n");
    load(4, 0x330000);
    put(4, 0x420000, 0x00C0FFEE);
    load(4, 0x420000);
    printf("\nSwaps of a word and a byte that the cache holds, and of an uncached word after a buffered store\n");
    swap(4, 0x210014, 0x1);
    swap(1, 0x210013, 0x7F);
    put(4, 0x420004, 0x2);
    swap(4, 0x420004, 0x3);
    printf("\nFaults; outside memory a load and a swap fault, and a store is dropped\n");
    call(SA110_LOAD, 0, 4, 0x145678, 0);
    read_register(SA110_FSR);
    read_register(SA110_FAR);
    load(4, 0x500000);
    load(4, 0x600000);
    put(4, 0x600000, 0x1);
    swap(4, 0x600000, 0x1);
    load(4, 0x330002);
    printf("\nRefused calls\n");
    load(3, 0x210010);
    put(1, 0x210010, 0x100);
    swap(2, 0x210010, 0x1);
    call(SA110_READ, 0, SA110_CONTROL, 0, 0);
    write_register(SA110_CONTROL, SA110_M | SA110_C);
}

static void looks(void) {
    printf("\nLooks, which are no calls: two lines in the cache, one in memory, no mapping, outside memory\n");
    look(0x210010);
    look(0x145678);
    look(0x420000);
    look(0x500000);
    look(0x600000);
}

static void clean_and_drain(void) {
    printf("\nA clean of each line stored to, and a drain\n");
    cache(SA110_CACHE_CLEAN_LINE, 0x210000);
    cache(SA110_CACHE_CLEAN_LINE, 0x145660);
    cache(SA110_CACHE_CLEAN_LINE, 0x420000);
    cache(SA110_BUFFER_DRAIN, 0);
}

/* Makes the calls so far on the plain machine and compares. */
static int plain(void) {
    static uint8_t other[MEMORY];
    static uint64_t codes[CALLS];
    size_t i, same = 0, bytes = 0;
    memset(other, 0, sizeof other);
    struct sa110_plain_ran ran = sa110_plain_run(other, sizeof other, bad, sizeof bad, list, made * SA110_FIELDS, codes, CALLS);
    for (i = 0; i < made; i++) {
        same += codes[i] == answers[i];
    }
    for (i = 0; i < MEMORY; i++) {
        bytes += other[i] != memory[i];
    }
    printf("\nThe plain machine: %zu calls made, %u counted, %zu answers the same; bytes of memory that differ: %zu\n", ran.made, ran.calls, same,
           bytes);
    return ran.refusal == 0 && ran.made == made && same == made && bytes == 0;
}

/* Makes the list once more, in one run from a start, and compares everything. */
static int in_one_run(void) {
    static struct sa110_state state2;
    static struct sa110_cp15 cp15_2;
    static uint8_t memory2[MEMORY], store2[SA110_STORE_BYTES];
    static uint64_t codes[CALLS];
    uint32_t refusal = sa110_start(&state2, &cp15_2, memory2, sizeof memory2, store2, sizeof store2);
    size_t n = sa110_run(&state2, &cp15_2, memory2, sizeof memory2, bad, sizeof bad, store2, sizeof store2, list, made * SA110_FIELDS, codes, CALLS);
    int same = refusal == 0 && n == made && memcmp(codes, answers, made * sizeof *codes) == 0 && sa110_same_state(&state2, &state) &&
               memcmp(&cp15_2, &cp15, sizeof cp15) == 0 && memcmp(memory2, memory, sizeof memory) == 0 && memcmp(store2, store, sizeof store) == 0;
    printf("The list in one run: %zu calls made; answers, state, record, memory and cache store %s\n", n, same ? "the same" : "differ");
    return same;
}

int main(int argc, char **argv) {
    if (argc != 1) {
        fprintf(stderr, "usage: %s\nMakes a list of calls on the SA-110 data side and on the plain machine, and compares. It takes no arguments.\n",
                argv[0]);
        return 2;
    }
    uint32_t refusal = sa110_start(&state, &cp15, memory, sizeof memory, store, sizeof store);
    printf("Start: refusal %u, memory %zu bytes, cache store %zu bytes\n", refusal, state.size, sizeof store);
    set_up();
    accesses();
    looks();
    const struct sa110_counts *counts = &state.counts;
    printf("\nCounts: calls %u, TLB misses %u, Dcache hits %u, line fills %u, halves sent out %u\n", counts->calls, counts->misses, counts->hits,
           counts->fills, counts->halves);
    plain();
    clean_and_drain();
    printf("\nCounts: calls %u, TLB misses %u, Dcache hits %u, line fills %u, halves sent out %u\n", counts->calls, counts->misses, counts->hits,
           counts->fills, counts->halves);
    int agree = plain();
    int same = in_one_run();
    printf("%s\n", agree && same ? "all agree" : "NOT ALL AGREE");
    return agree && same ? 0 : 1;
}
