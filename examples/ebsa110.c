/* The application note's worked example (document 001, appendix A): MMU_init and MMU_reset of the EBSA-110, as lists of calls, with a small
 * program between them, on the library and on the plain machine.
 *
 * The board's map is scaled to 16 MB of memory: DRAM has 13 sections of 1 MB at 0, SSRAM lies at D00000, FLASH at E00000 and ROM at F00000. The
 * note's include file with their bases is not printed there. The rest is the note's: the map is flat but for CLEAN_BASE, I/O takes the top
 * quartile (which lies outside memory here), and the access bits are those of appendix B.
 *
 * The note cleans the Dcache by reading 16 KB at CLEAN_BASE, where document 01's rules R3 and R4 ask for cleans line by line; so term 3 does not
 * speak of this list, and the comparison shows what it does. CLEAN_BASE is a second address of SSRAM's first megabyte, so the program keeps off
 * SSRAM's first 16 KB (R2). */
#include "sa110.h"
#include <stdio.h>
#include <stdlib.h>

#define MEMORY SA110_MEMORY_MAX

#define LEVEL1 0x00008000u /* 16 KB, aligned to its size; then 1 KB each */
#define LEVEL2_SSRAM (LEVEL1 + 0x4000u)
#define LEVEL2_ROM (LEVEL1 + 0x4400u)
#define L1_TABLE_ENTRIES 0x1000u
#define L2_TABLE_ENTRIES 0x100u

#define DRAM_BASE 0x00000000u
#define DRAM_SIZE 13u
#define SSRAM_BASE 0x00D00000u
#define FLASH_BASE 0x00E00000u
#define EPROM_BASE 0x00F00000u
#define IO_BASE 0xC0000000u
#define CLEAN_BASE 0x3FF00000u
#define SSRAM_PAGE_COUNT 2u
#define EPROM_PAGE_COUNT 8u

#define DRAM_ACCESS 0xC0Eu  /* AP 11, domain 0, C, B */
#define SSRAM_ACCESS 0xFFDu /* AP 11, C, B */
#define FLASH_ACCESS 0x80Au /* AP 10, domain 0, C */
#define EPROM_ACCESS 0xAA9u /* AP 10, C */
#define IO_ACCESS 0xC02u    /* AP 11, domain 0 */
#define L2_CONTROL 0x1u     /* domain 0, second-level table */

static struct sa110_state state;
static struct sa110_cp15 cp15;
static uint8_t bad[MEMORY / SA110_WORD_BYTES]; /* the map of bad words: there is none */
static uint8_t store[SA110_STORE_BYTES];
static uint8_t *memory;
static uint32_t *list;
static size_t length, room, done;
static uint64_t *answers;

static void *grown(void *block, size_t bytes) {
    block = realloc(block, bytes);
    if (block == NULL) {
        fprintf(stderr, "ebsa110: no memory left\n");
        exit(1);
    }
    return block;
}

static void call(uint32_t kind, uint32_t privileged, uint32_t n, uint32_t a, uint32_t v) {
    const uint32_t numbers[SA110_FIELDS] = {kind, privileged, n, a, v};
    if (length == room) {
        room = room * 2 + 1024;
        list = grown(list, room * sizeof numbers);
        answers = grown(answers, room * sizeof *answers);
    }
    memcpy(list + length * SA110_FIELDS, numbers, sizeof numbers);
    length++;
}

static void str(uint32_t address, uint32_t value) { call(SA110_STORE, 1, 4, address, value); }
static void mcr(uint32_t n, uint32_t pair, uint32_t value) { call(SA110_WRITE, 1, n, pair, value); }

/* Makes the calls listed since the last time, and says what they came to. */
static void make(const char *what) {
    size_t i, n = length - done, served = 0, faults = 0, refused = 0;
    size_t made = sa110_run(&state, &cp15, memory, MEMORY, bad, sizeof bad, store, sizeof store, list + done * SA110_FIELDS, n * SA110_FIELDS,
                            answers + done, n);
    for (i = done; i < done + made; i++) {
        served += sa110_kind(answers[i]) == SA110_SERVED;
        faults += sa110_kind(answers[i]) == SA110_FAULT;
        refused += sa110_kind(answers[i]) == SA110_REFUSED;
    }
    printf("%s: %zu calls made, served %zu, faults %zu, refused %zu\n", what, made, served, faults, refused);
    for (i = done; i < done + made; i++) {
        const uint32_t *c = list + i * SA110_FIELDS;
        if (sa110_kind(answers[i]) == SA110_FAULT) {
            printf("  %s %s at %08x: fault, status %02u domain %02u\n", c[1] ? "privileged" : "user", c[0] == SA110_STORE ? "store" : "load", c[3],
                   sa110_status(answers[i]), sa110_domain(answers[i]));
        }
    }
    const struct sa110_counts *counts = &state.counts;
    printf("  counts: calls %u, TLB misses %u, Dcache hits %u, line fills %u, halves sent out %u\n", counts->calls, counts->misses, counts->hits,
           counts->fills, counts->halves);
    done += made;
}

static void large_pages(uint32_t table, uint32_t pages, uint32_t base, uint32_t access) {
    for (uint32_t page = 0; page < pages; page++) {
        for (uint32_t alias = 0; alias < 16; alias++) {
            str(table + (page * 16 + alias) * 4, base + access + (page << 16));
        }
    }
}

static void mmu_init(uint32_t enables) {
    uint32_t i;
    mcr(SA110_BASE, 0, LEVEL1);
    mcr(SA110_DOMAINS, 0, 1);
    for (i = 0; i < L1_TABLE_ENTRIES + 2 * L2_TABLE_ENTRIES; i++) {
        str(LEVEL1 + i * 4, 0);
    }
    for (i = 0; i < DRAM_SIZE; i++) {
        str(LEVEL1 + i * 4, DRAM_BASE + DRAM_ACCESS + (i << 20));
    }
    str(LEVEL1 + (CLEAN_BASE >> 18), SSRAM_BASE + FLASH_ACCESS);
    str(LEVEL1 + (SSRAM_BASE >> 18), LEVEL2_SSRAM + L2_CONTROL);
    str(LEVEL1 + (FLASH_BASE >> 18), FLASH_BASE + FLASH_ACCESS);
    str(LEVEL1 + (EPROM_BASE >> 18), LEVEL2_ROM + L2_CONTROL);
    for (i = 0; i < L1_TABLE_ENTRIES / 4; i++) {
        str(LEVEL1 + (IO_BASE >> 18) + i * 4, IO_BASE + IO_ACCESS + (i << 20));
    }
    large_pages(LEVEL2_SSRAM, SSRAM_PAGE_COUNT, SSRAM_BASE, SSRAM_ACCESS);
    large_pages(LEVEL2_ROM, EPROM_PAGE_COUNT, EPROM_BASE, EPROM_ACCESS);
    mcr(SA110_TLB, SA110_PAIR(0u, 7u), 0);   /* WRCP15_FlushITB_DTB */
    mcr(SA110_CACHE, SA110_PAIR(0u, 5u), 0); /* WRCP15_FlushIC */
    mcr(SA110_CONTROL, 0, enables | SA110_M);
}

/* A program in user mode: fills 24 KB of DRAM, adds it up into SSRAM, reads ROM and FLASH, and tries what it may not do. */
static void program(void) {
    uint32_t i;
    for (i = 0; i < 0x6000; i += 4) {
        call(SA110_STORE, 0, 4, 0x00200000 + i, i * 0x9E3779B1u);
    }
    for (i = 0; i < 0x6000; i += 4) {
        call(SA110_LOAD, 0, 4, 0x00200000 + i, 0);
        call(SA110_LOAD, 0, 4, SSRAM_BASE + 0x10000 + i % 64, 0);
        call(SA110_STORE, 0, 4, SSRAM_BASE + 0x10000 + i % 64, i * 0x85EBCA77u);
    }
    for (i = 0; i < 0x1000; i += 2) {
        call(SA110_SIGNED_LOAD, 0, 2, EPROM_BASE + i, 0);
        call(SA110_STORE, 0, 1, 0x00A00000 + i, i % 256);
    }
    call(SA110_LOAD, 0, 4, FLASH_BASE + 0x100, 0);
    call(SA110_STORE, 0, 4, FLASH_BASE + 0x100, 1); /* read only for users */
    call(SA110_STORE, 0, 4, EPROM_BASE + 0x100, 1);
    call(SA110_STORE, 1, 4, FLASH_BASE + 0x100, 1); /* but not for the supervisor */
    call(SA110_LOAD, 0, 4, SSRAM_BASE + 0x20000, 0); /* behind SSRAM's two pages */
    call(SA110_LOAD, 0, 4, 0x01000000, 0);           /* DRAM's alias */
    call(SA110_LOAD, 1, 4, IO_BASE + 0x10, 0);       /* I/O lies outside memory */
}

static void mmu_reset(void) {
    for (uint32_t a = CLEAN_BASE; a < CLEAN_BASE + 0x4000; a += SA110_LINE_BYTES) {
        call(SA110_LOAD, 1, 4, a, 0);
    }
    mcr(SA110_CACHE, SA110_BUFFER_DRAIN, 0);
    mcr(SA110_CONTROL, 0, 0);
    mcr(SA110_TLB, SA110_PAIR(0u, 7u), 0);   /* WRCP15_FlushITB_DTB */
    mcr(SA110_CACHE, SA110_PAIR(0u, 7u), 0); /* WRCP15_FlushIC_DC */
}

/* Memory at the start: ROM and FLASH have contents, the rest is zero. */
static uint8_t *first_memory(void) {
    uint8_t *bytes = grown(NULL, MEMORY);
    memset(bytes, 0, MEMORY);
    for (uint32_t i = FLASH_BASE; i < MEMORY; i++) {
        bytes[i] = (uint8_t)(i * 0x9E3779B1u >> 24);
    }
    return bytes;
}

/* Makes the calls so far on the plain machine and compares. */
static int plain(void) {
    uint8_t *other = first_memory();
    uint64_t *codes = grown(NULL, length * sizeof *codes);
    size_t i, same = 0, bytes = 0;
    struct sa110_plain_ran ran = sa110_plain_run(other, MEMORY, bad, sizeof bad, list, length * SA110_FIELDS, codes, length);
    for (i = 0; i < length; i++) {
        same += codes[i] == answers[i];
    }
    for (i = 0; i < MEMORY; i++) {
        bytes += other[i] != memory[i];
    }
    printf("  the plain machine: %zu calls made, %zu answers the same; bytes of memory that differ: %zu\n", ran.made, same, bytes);
    free(codes);
    free(other);
    return ran.made == length && same == length && bytes == 0;
}

int main(int argc, char **argv) {
    if (argc != 1) {
        fprintf(stderr, "usage: %s\nRuns the EBSA-110's set-up and reset on the SA-110 data side and on the plain machine. It takes no arguments.\n",
                argv[0]);
        return 2;
    }
    memory = first_memory();
    printf("Start: refusal %u\n", sa110_start(&state, &cp15, memory, MEMORY, store, sizeof store));
    mmu_init(SA110_I | SA110_C | SA110_W);
    make("MMU_init");
    plain();
    program();
    make("Program");
    plain();
    mmu_reset();
    make("MMU_reset");
    int agree = plain();
    printf("%s\n", agree ? "all agree" : "NOT ALL AGREE");
    return agree ? 0 : 1;
}
