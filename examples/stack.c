/* The stack that include/sa110.h promises: each function runs on a stack of that size, 40 KB for a call, 48 KB for sa110_read_text, 100 KB for
 * sa110_replay. Below it lies a page that cannot be touched, so that a function that needs more ends the program. A line says what each gave. The state has
 * a full Dcache, with dirty lines, a full TLB and eight write buffer entries. */
#define _GNU_SOURCE
#include "sa110.h"
#include <stdio.h>
#include <stdlib.h>
#include <sys/mman.h>
#include <ucontext.h>
#include <unistd.h>

#define KB 1024u
#define MEMORY (64 * KB)
#define CALLS 1024u
#define OWN 512u /* what the program takes of the stack below the function that it calls */

static struct sa110_state state, read_state;
static struct sa110_cp15 cp15, read_cp15;
static struct sa110_replay replay;
static uint8_t memory[MEMORY], plain[MEMORY], bad[MEMORY / SA110_WORD_BYTES], store[SA110_STORE_BYTES], rights[SA110_RIGHTS];
static uint8_t text[SA110_TEXT_MAX], out[64 * KB];
static uint32_t calls[CALLS * SA110_FIELDS];
static uint64_t answers[CALLS];
static size_t made, text_length;
static uint64_t gave;

static void add(uint32_t kind, uint32_t n, uint32_t a, uint32_t v) {
    uint32_t *c = calls + SA110_FIELDS * made++;
    c[0] = kind, c[1] = 1, c[2] = n, c[3] = a, c[4] = v;
}

static void put(uint32_t at, uint32_t word) { memcpy(memory + at, &word, sizeof word); }

/* Sections 1 to 40 onto the first megabyte, cacheable and bufferable. */
static void list(void) {
    for (uint32_t i = 1; i <= 40; i++) put(0x4000 + 4 * i, 0xC0E);
    add(SA110_WRITE, SA110_BASE, 0, 0x4000);
    add(SA110_WRITE, SA110_DOMAINS, 0, 1);
    add(SA110_WRITE, SA110_CONTROL, 0, SA110_M | SA110_C | SA110_W);
    for (uint32_t i = 0; i < 512; i++) add(SA110_LOAD, 4, 0x100000 * (1 + i % 40) + 0x8000 + 32 * i, 0);
    for (uint32_t i = 0; i < 256; i++) add(SA110_STORE, 4, 0x100000 * (1 + i % 40) + 0x8000 + 32 * i, i);
    for (uint32_t i = 0; i < 8; i++) add(SA110_STORE, 4, 0x100000 * (2 + i) + 0x8000 + 32 * i, i);
}

#define LENT memory, MEMORY, bad, sizeof bad, store, sizeof store
static void start(void) { gave = sa110_start(&state, &cp15, memory, MEMORY, store, sizeof store); }
static void run(void) { gave = sa110_run(&state, &cp15, LENT, calls, made * SA110_FIELDS, answers, CALLS); }
static void call(void) { gave = sa110_call(&state, &cp15, LENT, SA110_LOAD, 1, 4, 0x108000, 0); }
static void look(void) { gave = sa110_which(sa110_look(&state, &cp15, LENT, 0x108000)); }
static void sound(void) { gave = sa110_sound(&state, &cp15, MEMORY); }
static void plain_run(void) { gave = sa110_plain_run(plain, MEMORY, bad, sizeof bad, calls, made * SA110_FIELDS, answers, CALLS).made; }
static void walk(void) { gave = sa110_walk(memory, MEMORY, bad, sizeof bad, 0x4000, 0x108000) & 1; }
static void right(void) { gave = sa110_right(64); }
static void table(void) { sa110_rights_table(rights), gave = rights[64]; }
static void keep(void) { gave = sa110_store_text(&state, &cp15, memory, MEMORY, text, sizeof text), text_length = sa110_value(gave); }
static void read_back(void) { gave = sa110_read_text(&read_state, &read_cp15, memory, MEMORY, text, text_length); }
static void read_none(void) { gave = sa110_read_text(&read_state, &read_cp15, memory, MEMORY, text, 0); }
static void read_other(void) { gave = sa110_read_text(&read_state, &read_cp15, memory, MEMORY / 2, text, text_length); }
static void read_long(void) { gave = sa110_read_text(&read_state, &read_cp15, memory, 1, text, text_length); }
static void lines(void) {
    static char trace[CALLS * 16 + 1];
    size_t n = 0;
    for (uint32_t i = 0; i < CALLS; i++) n += (size_t)sprintf(trace + n, "0,1,4,%u,0\n", 0x108000 + 4 * (i % 64));
    replay.state = state, replay.cp15 = cp15;
    gave = sa110_replay(&replay, LENT, (const uint8_t *)trace, n, 0, out, sizeof out);
}

static ucontext_t back, there;

/* Runs f on a stack of `size` bytes above a page that cannot be touched. */
static void on_stack(const char *name, void (*f)(void), size_t size) {
    size_t page = (size_t)sysconf(_SC_PAGESIZE), pages = (size + OWN + page - 1) / page * page;
    uint8_t *at = mmap(NULL, page + pages, PROT_NONE, MAP_PRIVATE | MAP_ANONYMOUS, -1, 0);
    if (at == MAP_FAILED || mprotect(at + page, pages, PROT_READ | PROT_WRITE) != 0 || getcontext(&there) != 0) {
        printf("stack: no memory left\n");
        exit(1);
    }
    there.uc_stack.ss_sp = at + page;
    there.uc_stack.ss_size = size + OWN;
    there.uc_link = &back;
    makecontext(&there, f, 0);
    swapcontext(&back, &there);
    munmap(at, page + pages);
    printf("%-34s %3zu KB, gave %u\n", name, size / KB, (unsigned)gave);
    fflush(stdout);
}

int main(void) {
    list();
    memcpy(plain, memory, MEMORY);
    on_stack("sa110_start", start, 40 * KB);
    on_stack("sa110_run", run, 40 * KB);
    on_stack("sa110_call", call, 40 * KB);
    on_stack("sa110_look", look, 40 * KB);
    on_stack("sa110_sound", sound, 40 * KB);
    on_stack("sa110_plain_run", plain_run, 40 * KB);
    on_stack("sa110_walk", walk, 40 * KB);
    on_stack("sa110_right", right, 40 * KB);
    on_stack("sa110_rights_table", table, 40 * KB);
    on_stack("sa110_store_text", keep, 40 * KB);
    on_stack("sa110_read_text", read_back, 48 * KB);
    on_stack("sa110_read_text, no text", read_none, 48 * KB);
    on_stack("sa110_read_text, half the memory", read_other, 48 * KB);
    on_stack("sa110_read_text, a byte of memory", read_long, 48 * KB);
    on_stack("sa110_replay", lines, 100 * KB);
    return 0;
}
