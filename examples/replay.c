/* Replays a trace kept as text: reads calls from standard input, a line each, makes them on the SA-110 data side with a memory of 65,536 zero bytes,
 * and prints a line for each to standard output, as include/sa110.h says at sa110_replay. It prints nothing else. A malformed line is printed as
 * refused by 13 and is the last one printed; the rest of the input is read and left. examples/replay.py does the same. */
#include "sa110.h"
#include <stdio.h>

#ifndef BLOCK
#define BLOCK 65536 /* bytes read at a time, and bytes of the slice that is lent for the lines printed */
#endif

static struct sa110_replay replay;
static uint8_t memory[65536];
static uint8_t bad[sizeof memory / SA110_WORD_BYTES]; /* the map of bad words: there is none */
static uint8_t store[SA110_STORE_BYTES];
static uint8_t text[BLOCK];
static uint8_t out[BLOCK];

/* Replays a part of the input and writes the lines that it prints. Gives 0 where something fails. */
static int part(size_t length, uint32_t ends) {
    size_t at = 0;
    do {
        if (sa110_replay(&replay, memory, sizeof memory, bad, sizeof bad, store, sizeof store, text + at, length - at, ends, out, sizeof out) != 0) {
            fprintf(stderr, "replay: the replay is unsound\n");
            return 0;
        }
        if (fwrite(out, 1, replay.written, stdout) != replay.written) {
            perror("replay: standard output");
            return 0;
        }
        at += replay.taken;
    } while (at < length || replay.written > 0);
    return 1;
}

int main(int argc, char **argv) {
    size_t length;
    if (argc != 1) {
        fprintf(stderr,
                "usage: %s\nReads a trace from standard input, a call a line: call (0 load, 1 signed load, 2 store, 3 CP15 read, 4 CP15 write), "
                "privileged, width or register,\naddress or opcode 2 * 16 + CRm, value. Prints a line for each: number, kind (0 served, 1 fault, "
                "2 refused), value.\n",
                argv[0]);
        return 2;
    }
    if (sa110_start(&replay.state, &replay.cp15, memory, sizeof memory, store, sizeof store) != 0) {
        fprintf(stderr, "replay: the start is refused\n");
        return 1;
    }
    do {
        length = fread(text, 1, sizeof text, stdin);
        if (ferror(stdin)) {
            perror("replay: standard input");
            return 1;
        }
        if (!part(length, length < sizeof text)) {
            return 1;
        }
    } while (length == sizeof text);
    if (fflush(stdout) != 0) {
        perror("replay: standard output");
        return 1;
    }
    return 0;
}
