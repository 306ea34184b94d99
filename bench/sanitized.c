/* Runs queue_check on pairs of files from standard input (see `bench pairs`), each in memory of its exact length, and
   compares with the answer that comes with it. Built with address and undefined-behaviour sanitizers: README.md. */
#include "queue_check.h"

#include <stdio.h>
#include <stdlib.h>

/* False at the end of the input. */
static int read_all(void *to, size_t length) { return fread(to, 1, length, stdin) == length; }

/* Never NULL, which `queue_check` is not given: where malloc(0) answers it, the run ends too. */
static uint8_t *read_file(size_t length) {
    uint8_t *bytes = malloc(length);
    if (bytes == NULL || !read_all(bytes, length)) {
        fprintf(stderr, "the input ends within a pair, or memory is short\n");
        exit(2);
    }
    return bytes;
}

int main(void) {
    uint32_t lengths[2];
    uint64_t expected;
    unsigned long pairs = 0, different = 0;
    while (read_all(lengths, sizeof lengths) && read_all(&expected, sizeof expected)) {
        uint8_t *table = read_file(lengths[0]);
        uint8_t *set = read_file(lengths[1]);
        uint64_t answer = queue_check(table, lengths[0], set, lengths[1]);
        if (answer != expected) {
            printf("pair %lu: got %#llx, expected %#llx\n", pairs, (unsigned long long)answer,
                   (unsigned long long)expected);
            different++;
        }
        free(table);
        free(set);
        pairs++;
    }
    printf("%lu pairs, %lu different\n", pairs, different);
    return different != 0;
}
