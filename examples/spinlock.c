/* Spin locks by swaps, as lock code on a board takes them: SWP on a word in a cacheable section, SWPB on a byte in a page that is bufferable and not
 * cacheable. Two tasks add to the counter that a lock protects. Each makes a few calls in turn, so that one is stopped while it has the lock, and the
 * other spins. Each call is printed with its answer, whether it hit the Dcache, and the number of write buffer entries that it leaves. Then the same
 * list is made on the plain machine and in one run, and compared.
 *
 * The list keeps document 01's rules, so both machines answer the same, and after the cleans and the drain at the end memory is the same (term 3): each
 * physical line is reached through one virtual line, which reaches no other (R2), nothing is flushed out of the Dcache (R3), the page tables are cleaned
 * and drained before the TLB flush that comes before the first translated access (R4, R5), and there are no large pages (R6). */
#include "sa110.h"
#include <stdio.h>
#include <string.h>

#define MEMORY 0x40000
#define CALLS 128

#define FREE 0u
#define TAKEN 1u

static struct sa110_state state;
static struct sa110_cp15 cp15;
static uint8_t memory[MEMORY];
static uint8_t bad[MEMORY / SA110_WORD_BYTES]; /* the map of bad words: there is none */
static uint8_t store[SA110_STORE_BYTES];

/* The calls made, and their answers. */
static uint32_t list[CALLS * SA110_FIELDS];
static uint64_t answers[CALLS];
static size_t made;

static const char *const names[] = {"load", "signed", "store", "read", "write", "swap"};

/* Who makes calls: a task in user mode, or the supervisor. */
struct caller {
    const char *name;
    uint32_t privileged;
};

static const struct caller task_1 = {"task 1", 0}, task_2 = {"task 2", 0}, supervisor = {"supervisor", 1};

/* Prints a call. */
static void print_call(const struct caller *who, const uint32_t *c) {
    char text[64];
    int at = sprintf(text, "%-6s", names[c[0]]);
    if (c[0] == SA110_READ || c[0] == SA110_WRITE) {
        at += sprintf(text + at, "register %02u", c[2]);
    } else {
        at += sprintf(text + at, "%02u at %08x", c[2], c[3]);
    }
    if (c[0] == SA110_STORE || c[0] == SA110_WRITE || c[0] == SA110_SWAP) {
        sprintf(text + at, " = %08x", c[4]);
    }
    printf("%-10s  %-31s  ", who->name, text);
}

/* Prints an answer; a swap's value is the old one. */
static void print_answer(uint32_t kind, uint64_t answer) {
    char text[64];
    if (sa110_kind(answer) == SA110_FAULT) {
        sprintf(text, "fault, status %02u domain %02u", sa110_status(answer), sa110_domain(answer));
    } else if (sa110_kind(answer) == SA110_REFUSED) {
        sprintf(text, "refused by %02u", sa110_value(answer));
    } else if (sa110_kind(answer) == SA110_NO_CALL) {
        sprintf(text, "no call");
    } else if (kind == SA110_STORE || kind == SA110_WRITE) {
        sprintf(text, "served");
    } else {
        sprintf(text, "%s %08x", kind == SA110_SWAP ? "old value" : "value", sa110_value(answer));
    }
    printf("%-26s  ", text);
}

/* Makes a call, prints it with its answer and what it did, and keeps both. The line has room for words, which `say` prints. */
static uint64_t call(const struct caller *who, uint32_t kind, uint32_t n, uint32_t a, uint32_t v) {
    const uint32_t numbers[SA110_FIELDS] = {kind, who->privileged, n, a, v};
    const struct sa110_counts before = state.counts;
    const char *did = "-";
    if (made == CALLS) {
        return (uint64_t)SA110_NO_CALL << 32;
    }
    uint64_t answer = sa110_call(&state, &cp15, memory, sizeof memory, bad, sizeof bad, store, sizeof store, kind, who->privileged, n, a, v);
    if (state.counts.hits != before.hits) {
        did = "hit";
    } else if (state.counts.fills != before.fills) {
        did = "line fill";
    } else if (sa110_kind(answer) == SA110_SERVED && kind != SA110_READ && kind != SA110_WRITE) {
        did = "miss";
    }
    print_call(who, numbers);
    print_answer(kind, answer);
    printf("%-9s  buffer %zu  ", did, state.used);
    memcpy(list + made * SA110_FIELDS, numbers, sizeof numbers);
    answers[made++] = answer;
    return answer;
}

static void say(const char *words) { printf("%s\n", words); }

/* Makes a call whose answer decides nothing. */
static void make(const struct caller *who, uint32_t kind, uint32_t n, uint32_t a, uint32_t v, const char *words) {
    call(who, kind, n, a, v);
    say(words);
}

static void set_up(void) {
    const struct caller *s = &supervisor;
    printf("\nThe page tables, by flat stores; then MMU, Dcache and write buffer on, with alignment checked\n");
    make(s, SA110_STORE, 4, 0x4008, 0x00000C0E, "002xxxxx: section at 0, cacheable, bufferable");
    make(s, SA110_STORE, 4, 0x400C, 0x00008021, "003xxxxx: second-level table at 8000, domain 1");
    make(s, SA110_STORE, 4, 0x4010, 0x00F00C0E, "004xxxxx: section at F00000, outside memory, likewise");
    make(s, SA110_STORE, 4, 0x8000, 0x00030FF6, "00300xxx: small page at 30000, bufferable");
    make(s, SA110_STORE, 4, 0x8004, 0x00E00FF6, "00301xxx: small page at E00000, outside memory, likewise");
    make(s, SA110_STORE, 4, 0x8008, 0x00031AA2, "00302xxx: small page at 31000 that users may read");
    make(s, SA110_WRITE, SA110_CACHE, SA110_CACHE_CLEAN_LINE, 0x4000, "clean of the level 1 words");
    make(s, SA110_WRITE, SA110_CACHE, SA110_CACHE_CLEAN_LINE, 0x8000, "clean of the level 2 words");
    make(s, SA110_WRITE, SA110_CACHE, SA110_BUFFER_DRAIN, 0, "drain");
    make(s, SA110_WRITE, SA110_BASE, 0, 0x4000, "table base");
    make(s, SA110_WRITE, SA110_DOMAINS, 0, 0x5, "domains 0 and 1 are checked");
    make(s, SA110_WRITE, SA110_TLB, SA110_TLB_FLUSH, 0, "flush of the TLB");
    make(s, SA110_WRITE, SA110_CONTROL, 0, SA110_M | SA110_A | SA110_C | SA110_W, "M, A, C and W");
}

/* A lock, and the counter that it protects, a word. */
struct lock {
    uint32_t width;   /* of the lock, 1 or 4 */
    uint32_t address;
    uint32_t counter; /* the counter's address */
    uint32_t release; /* the kind of call that stores FREE, a store or a swap */
};

enum step { TRY, LOAD, STORE, RELEASE };

/* A task: what it does next, how often it still adds one, the value of the counter that it loaded, and how often it has spun. */
struct task {
    const struct caller *who;
    enum step next;
    uint32_t rounds;
    uint32_t seen;
    uint32_t spins;
};

/* Tries to take a lock: swaps TAKEN in. Where the old value is FREE, the task has the lock; else another has it, and it is TAKEN as before. */
static void try(struct task *t, const struct lock *l) {
    uint64_t old = call(t->who, SA110_SWAP, l->width, l->address, TAKEN);
    if (sa110_kind(old) == SA110_SERVED && sa110_value(old) == FREE) {
        say("takes the lock");
        t->next = LOAD;
    } else {
        say("spins");
        t->spins++;
    }
}

/* Makes a task's next call. */
static void step(struct task *t, const struct lock *l) {
    switch (t->next) {
    case TRY:
        try(t, l);
        break;
    case LOAD:
        t->seen = sa110_value(call(t->who, SA110_LOAD, 4, l->counter, 0));
        say("loads the counter");
        t->next = STORE;
        break;
    case STORE:
        make(t->who, SA110_STORE, 4, l->counter, t->seen + 1, "adds one");
        t->next = RELEASE;
        break;
    case RELEASE:
        make(t->who, l->release, l->width, l->address, FREE, "releases the lock");
        t->next = TRY;
        t->rounds--;
        break;
    }
}

/* Has two tasks use a lock in turn, `calls` calls each, until both have added what they are to add. */
static void share(struct task *tasks, const struct lock *l, uint32_t calls) {
    uint32_t i, turn;
    for (turn = 0; tasks[0].rounds + tasks[1].rounds > 0 && made < CALLS; turn = 1 - turn) {
        for (i = 0; i < calls && tasks[turn].rounds > 0; i++) {
            step(&tasks[turn], l);
        }
    }
    printf("%s has spun %u times, %s %u times\n", tasks[0].who->name, tasks[0].spins, tasks[1].who->name, tasks[1].spins);
}

static const struct lock word_lock = {4, 0x220000, 0x220004, SA110_STORE}, byte_lock = {1, 0x300000, 0x300010, SA110_SWAP};

static void locks(void) {
    struct task users[] = {{&task_1, TRY, 2, 0, 0}, {&task_2, TRY, 2, 0, 0}};
    struct task both[] = {{&task_1, TRY, 1, 0, 0}, {&supervisor, TRY, 1, 0, 0}};
    printf("\nA word as lock in a cacheable section, in one line with its counter: a swap that misses fills no line, the load does; then swaps hit\n");
    share(users, &word_lock, 2);
    printf("\nA byte as lock in a page that is bufferable and not cacheable: each swap drains the buffer, then reads and writes memory\n");
    share(both, &byte_lock, 3);
}

static void faults(void) {
    printf("\nA swap that faults or is refused drains and writes nothing: the buffered store stays in the buffer\n");
    make(&supervisor, SA110_STORE, 4, 0x300014, 0x5, "a buffered store");
    make(&task_1, SA110_LOAD, 4, 0x302000, 0, "users may read this page");
    make(&task_1, SA110_SWAP, 4, 0x302000, TAKEN, "but a swap is checked as a store");
    make(&supervisor, SA110_LOAD, 4, 0x400000, 0, "outside memory, a load faults on its line fill");
    make(&supervisor, SA110_STORE, 4, 0x400000, TAKEN, "a store is dropped");
    make(&supervisor, SA110_SWAP, 4, 0x400000, TAKEN, "a swap fills no line and is not dropped");
    make(&task_1, SA110_SWAP, 1, 0x301000, TAKEN, "so in a page, also a bufferable one");
    make(&supervisor, SA110_READ, SA110_FSR, 0, 0, "FSR: domain 1, status 10");
    make(&supervisor, SA110_READ, SA110_FAR, 0, 0, "FAR");
    make(&task_1, SA110_SWAP, 2, 0x220000, TAKEN, "there are no swaps of a halfword");
    make(&task_1, SA110_SWAP, 1, 0x300000, 0x100, "the value does not fit a byte");
}

static void clean_and_drain(void) {
    printf("\nA clean of each line stored to, and a drain\n");
    make(&supervisor, SA110_WRITE, SA110_CACHE, SA110_CACHE_CLEAN_LINE, word_lock.address, "clean of the word's line");
    make(&supervisor, SA110_WRITE, SA110_CACHE, SA110_CACHE_CLEAN_LINE, byte_lock.address, "clean of the byte's line");
    make(&supervisor, SA110_WRITE, SA110_CACHE, SA110_BUFFER_DRAIN, 0, "drain");
}

/* Makes the calls so far on the plain machine and compares. */
static int plain(void) {
    static uint8_t other[MEMORY];
    static uint64_t codes[CALLS];
    size_t i, same = 0, bytes = 0;
    memset(other, 0, sizeof other);
    struct sa110_plain_ran ran = sa110_plain_run(other, sizeof other, bad, sizeof bad, list, made * SA110_FIELDS, codes, CALLS);
    for (i = 0; i < made; i++) {
        same += codes[i] == answers[i];
    }
    for (i = 0; i < MEMORY; i++) {
        bytes += other[i] != memory[i];
    }
    printf("\nThe plain machine: %zu calls made, %u counted, %zu answers the same; bytes of memory that differ: %zu\n", ran.made, ran.calls, same,
           bytes);
    return ran.refusal == 0 && ran.made == made && same == made && bytes == 0;
}

/* Makes the list once more, in one run from a start, and compares everything. */
static int in_one_run(void) {
    static struct sa110_state state2;
    static struct sa110_cp15 cp15_2;
    static uint8_t memory2[MEMORY], store2[SA110_STORE_BYTES];
    static uint64_t codes[CALLS];
    uint32_t refusal = sa110_start(&state2, &cp15_2, memory2, sizeof memory2, store2, sizeof store2);
    size_t n = sa110_run(&state2, &cp15_2, memory2, sizeof memory2, bad, sizeof bad, store2, sizeof store2, list, made * SA110_FIELDS, codes, CALLS);
    int same = refusal == 0 && n == made && memcmp(codes, answers, made * sizeof *codes) == 0 && sa110_same_state(&state2, &state) &&
               memcmp(&cp15_2, &cp15, sizeof cp15) == 0 && memcmp(memory2, memory, sizeof memory) == 0 && memcmp(store2, store, sizeof store) == 0;
    printf("The list in one run: %zu calls made; answers, state, record, memory and cache store %s\n", n, same ? "the same" : "differ");
    return same;
}

/* Prints locks and counters as they are in memory, where 00220000 lies at 20000 and 00300000 at 30000; gives whether no addition was lost. */
static int in_memory(void) {
    uint32_t word, words, bytes;
    memcpy(&word, memory + 0x20000, sizeof word);
    memcpy(&words, memory + 0x20004, sizeof words);
    memcpy(&bytes, memory + 0x30010, sizeof bytes);
    printf("In memory: the word %u and its counter %u, the byte %u and its counter %u\n", word, words, memory[0x30000], bytes);
    return word == FREE && words == 4 && memory[0x30000] == FREE && bytes == 2;
}

int main(int argc, char **argv) {
    if (argc != 1) {
        fprintf(stderr, "usage: %s\nTakes and releases spin locks by swaps on the SA-110 data side and on the plain machine, and compares. It takes no "
                        "arguments.\n",
                argv[0]);
        return 2;
    }
    uint32_t refusal = sa110_start(&state, &cp15, memory, sizeof memory, store, sizeof store);
    printf("Start: refusal %u, memory %zu bytes, cache store %zu bytes\n", refusal, state.size, sizeof store);
    set_up();
    locks();
    faults();
    plain();
    clean_and_drain();
    const struct sa110_counts *counts = &state.counts;
    printf("\nCounts: calls %u, TLB misses %u, Dcache hits %u, line fills %u, halves sent out %u\n", counts->calls, counts->misses, counts->hits,
           counts->fills, counts->halves);
    int agree = plain();
    int same = in_one_run();
    int kept = in_memory();
    printf("%s\n", agree && same && kept ? "all agree" : "NOT ALL AGREE");
    return agree && same && kept ? 0 : 1;
}
