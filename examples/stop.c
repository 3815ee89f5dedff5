/* A run that is stopped and carried on in another process. The run is a list of calls, such as tools/lackey-calls makes of a recorded program, on 16 MB of
 * zero bytes without bad words. `whole` makes all of it. `first` makes the first N calls and writes four files: the text of state and record, memory, cache
 * store, and the number of calls made with the checksum of their answers. `then` reads these files and makes the other calls. Each prints the counts, what
 * is in use, and checksums of all answers, of memory, of the cache store and of the last state's text; `then` prints what `whole` prints, wherever the run
 * was stopped. examples/stop.py does such a thing in Python. */
#include "sa110.h"
#include <errno.h>
#include <stdarg.h>
#include <stdio.h>
#include <stdlib.h>

#define BLOCK 4096                    /* calls made at a time */
#define NAME 4096                     /* bytes of a file's name, with the zero that ends it */
#define FNV_BASIS 0xCBF29CE484222325u /* checksums are FNV-1a of 64 bits; this is the one of no bytes */
#define FNV_PRIME 0x100000001B3u

static struct sa110_state state;
static struct sa110_cp15 cp15;
static uint8_t memory[SA110_MEMORY_MAX];
static uint8_t bad[SA110_MEMORY_MAX / SA110_WORD_BYTES]; /* the map of bad words: there is none */
static uint8_t store[SA110_STORE_BYTES];
static uint8_t text[SA110_TEXT_MAX];

static uint32_t *list;
static size_t calls; /* of the list */

/* The calls made so far, and the checksum of their answers. */
static struct {
    uint64_t made;
    uint64_t answers;
} progress = {0, FNV_BASIS};

/* Says in a sentence what is wrong, and ends. */
static _Noreturn void fail(const char *format, ...) {
    va_list arguments;
    va_start(arguments, format);
    fprintf(stderr, "stop: ");
    vfprintf(stderr, format, arguments);
    fprintf(stderr, "\n");
    va_end(arguments);
    exit(1);
}

/* A refusal in words: those that a start, storing and reading meet. */
static const char *sentence(uint32_t refusal) {
    switch (refusal) {
    case SA110_REFUSED_MEMORY:
        return "the memory's length is not a multiple of 32 or exceeds 16,777,216";
    case SA110_REFUSED_STORE:
        return "the cache store is not 16,384 bytes";
    case SA110_REFUSED_STATE:
        return "the state is unsound";
    case SA110_REFUSED_LENGTH:
        return "the memory's length differs from the one at the start";
    case SA110_REFUSED_TEXT:
        return "the text departs from its form";
    case SA110_REFUSED_ROOM:
        return "the slice is too short for the text";
    default:
        return "a number that is not known here";
    }
}

/* The checksum of bytes behind those that `sum` is of. */
static uint64_t checksum(uint64_t sum, const void *bytes, size_t length) {
    const uint8_t *p = bytes;
    size_t i;
    for (i = 0; i < length; i++) {
        sum = (sum ^ p[i]) * FNV_PRIME;
    }
    return sum;
}

/* ---- Files ---- */

struct file {
    char name[NAME];
    FILE *stream;
};

/* Opens the file FILES.part. */
static struct file opened(const char *files, const char *part, const char *mode) {
    struct file f;
    if (snprintf(f.name, sizeof f.name, "%s.%s", files, part) >= (int)sizeof f.name) {
        fail("a file's name has more than %d bytes", NAME - 1);
    }
    f.stream = fopen(f.name, mode);
    if (f.stream == NULL) {
        fail("%s: %s", f.name, strerror(errno));
    }
    return f;
}

/* Reads FILES.part, which has `least` to `most` bytes, and gives how many. */
static size_t read_part(const char *files, const char *part, void *at, size_t least, size_t most) {
    struct file f = opened(files, part, "rb");
    size_t n = fread(at, 1, most, f.stream);
    int more = n == most && getc(f.stream) != EOF;
    if (ferror(f.stream)) {
        fail("%s: %s", f.name, strerror(errno));
    }
    if (more) {
        fail("%s has more than %zu bytes", f.name, most);
    }
    if (n < least) {
        fail("%s has %zu bytes, not %zu", f.name, n, least);
    }
    fclose(f.stream);
    return n;
}

static void write_part(const char *files, const char *part, const void *at, size_t length) {
    struct file f = opened(files, part, "wb");
    size_t n = fwrite(at, 1, length, f.stream);
    if (fclose(f.stream) != 0 || n != length) {
        fail("%s: %s", f.name, strerror(errno));
    }
}

/* Reads the list: five numbers a call, 32 bits each, little-endian, as this machine has them. */
static void read_list(const char *name) {
    size_t room = 0, n = 0;
    FILE *f = fopen(name, "rb");
    if (f == NULL) {
        fail("%s: %s", name, strerror(errno));
    }
    do {
        room = room * 2 + (1u << 20);
        list = realloc(list, room);
        if (list == NULL) {
            fail("no memory left for the list");
        }
        n += fread((uint8_t *)list + n, 1, room - n, f);
    } while (n == room);
    if (ferror(f)) {
        fail("%s: %s", name, strerror(errno));
    }
    fclose(f);
    calls = n / (SA110_FIELDS * sizeof *list);
    if (calls * SA110_FIELDS * sizeof *list != n) {
        fail("%s has %zu bytes, not a whole number of calls of 20", name, n);
    }
}

/* ---- The run ---- */

static void start(void) {
    uint32_t refusal = sa110_start(&state, &cp15, memory, sizeof memory, store, sizeof store);
    if (refusal != 0) {
        fail("the start is refused by %u: %s", refusal, sentence(refusal));
    }
}

/* Makes the calls up to the number `end`. */
static void run_to(size_t end) {
    static uint64_t answers[BLOCK];
    while (progress.made < end) {
        size_t n = end - progress.made < BLOCK ? end - progress.made : BLOCK;
        size_t made = sa110_run(&state, &cp15, memory, sizeof memory, bad, sizeof bad, store, sizeof store, list + progress.made * SA110_FIELDS,
                                n * SA110_FIELDS, answers, n);
        progress.answers = checksum(progress.answers, answers, made * sizeof *answers);
        progress.made += made;
        if (made < n) {
            fail("the five numbers behind call %llu are no call", (unsigned long long)progress.made);
        }
    }
}

/* Stores state and record in `text`, and gives the text's length. */
static size_t store_text(void) {
    uint64_t answer = sa110_store_text(&state, &cp15, memory, sizeof memory, text, sizeof text);
    if (sa110_kind(answer) != SA110_SERVED) {
        fail("storing is refused by %u: %s", sa110_value(answer), sentence(sa110_value(answer)));
    }
    return sa110_value(answer);
}

static void save(const char *files) {
    size_t length = store_text();
    write_part(files, "text", text, length);
    write_part(files, "memory", memory, sizeof memory);
    write_part(files, "store", store, sizeof store);
    write_part(files, "answers", &progress, sizeof progress);
}

static void load(const char *files) {
    size_t length = read_part(files, "text", text, 0, sizeof text);
    uint32_t refusal = sa110_read_text(&state, &cp15, memory, sizeof memory, text, length);
    if (refusal != 0) {
        fail("%s.text is refused by %u: %s", files, refusal, sentence(refusal));
    }
    read_part(files, "memory", memory, sizeof memory, sizeof memory);
    read_part(files, "store", store, sizeof store, sizeof store);
    read_part(files, "answers", &progress, sizeof progress, sizeof progress);
    if (progress.made > calls) {
        fail("%s.answers has %llu calls made, and the list has %zu", files, (unsigned long long)progress.made, calls);
    }
}

/* Prints what the run comes to. */
static void report(void) {
    const struct sa110_counts *counts = &state.counts;
    size_t i, length = store_text(), entries = 0, lines = 0, dirty = 0;
    for (i = 0; i < SA110_TLB_ENTRIES; i++) {
        entries += state.entries[i] & 1;
    }
    for (i = 0; i < SA110_LINES; i++) {
        lines += state.lines[i] & 1;
        dirty += (state.lines[i] >> 1 & 1) + (state.lines[i] >> 2 & 1);
    }
    printf("calls made: %llu of %zu\n", (unsigned long long)progress.made, calls);
    printf("counts: calls %u, TLB misses %u, Dcache hits %u, line fills %u, halves sent out %u\n", counts->calls, counts->misses, counts->hits,
           counts->fills, counts->halves);
    printf("in use: TLB entries %zu, Dcache lines %zu, dirty halves %zu, write buffer entries %zu\n", entries, lines, dirty, state.used);
    printf("checksums: answers %016llx, memory %016llx, cache store %016llx\n", (unsigned long long)progress.answers,
           (unsigned long long)checksum(FNV_BASIS, memory, sizeof memory), (unsigned long long)checksum(FNV_BASIS, store, sizeof store));
    printf("text: %zu bytes, checksum %016llx\n", length, (unsigned long long)checksum(FNV_BASIS, text, length));
    if (fflush(stdout) != 0) {
        fail("standard output: %s", strerror(errno));
    }
}

/* A decimal number; gives 0 where the argument is none. */
static int number(const char *given, size_t *n) {
    char *end;
    errno = 0;
    *n = strtoull(given, &end, 10);
    return *given >= '0' && *given <= '9' && *end == 0 && errno == 0;
}

static void usage(const char *program) {
    fprintf(stderr,
            "usage: %s CALLS whole          makes all calls\n"
            "       %s CALLS first N FILES  makes the first N calls, and writes FILES.text, FILES.memory, FILES.store and FILES.answers\n"
            "       %s CALLS then FILES     reads these four files, and makes the calls behind the first N\n"
            "CALLS is a file of calls, five numbers each (kind, privileged, n, a, v), 32 bits, little-endian; tools/lackey-calls writes one.\n"
            "Memory has 16,777,216 bytes; memory and cache store are zero at the start.\n",
            program, program, program);
}

int main(int argc, char **argv) {
    size_t n = 0;
    int whole = argc == 3 && strcmp(argv[2], "whole") == 0;
    int first = argc == 5 && strcmp(argv[2], "first") == 0 && number(argv[3], &n);
    int then = argc == 4 && strcmp(argv[2], "then") == 0;
    if (!whole && !first && !then) {
        usage(argv[0]);
        return 2;
    }
    read_list(argv[1]);
    if (n > calls) {
        fail("the list has %zu calls, and the first %zu are to be made", calls, n);
    }
    if (then) {
        load(argv[3]);
    } else {
        start();
    }
    run_to(first ? n : calls);
    if (first) {
        save(argv[4]);
    }
    report();
    return 0;
}
