/* The rights table as the library works it out from the domain values and document 001's table 2-3: a line `index,entry` for each of its 256 entries, rising,
 * as the program rights_table prints them. It ends with status 0 if each is the entry by which accesses are checked. */
#include "sa110.h"
#include <stdio.h>

int main(int argc, char **argv) {
    uint8_t table[SA110_RIGHTS];
    uint32_t i;
    if (argc != 1) {
        fprintf(stderr, "usage: %s\nPrints the 256 entries of the rights table, worked out, one a line: index,entry.\n", argv[0]);
        return 2;
    }
    sa110_rights_table(table);
    for (i = 0; i < SA110_RIGHTS; i++) {
        if (table[i] != sa110_right(i)) {
            fprintf(stderr, "rights: the entry at %u is %u, and not %u\n", i, sa110_right(i), table[i]);
            return 1;
        }
        printf("%u,%u\n", i, table[i]);
    }
    if (fflush(stdout) != 0) {
        perror("rights: standard output");
        return 1;
    }
    return 0;
}
