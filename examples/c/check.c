/* Checks two files and says the verdict: check TABLE SET */
#include "queue_check.h"
#include <stdio.h>
#include <stdlib.h>

/* What each number says; A, B and C are the three numbers after it. */
static const char *const words_for[] = {
    "every state that the system reaches is in the set, and none is bad",
    "the table is under 16 bytes, or not as long as its counts give",
    "the table's header field at byte A is wrong",
    "the table's line at byte A breaks its rules",
    "the set is under 16 bytes, or not as long as its counts give",
    "the set's header field at byte A is wrong",
    "record A has a local state that its machine lacks, or a code that is not good",
    "record A is not above the one before",
    "no record represents the start",
    "record A lets machine B be surprised by event C",
    "record A lets pattern B be met",
    "record A, rule B, removal C leads outside the set"};

static uint8_t *read_all(const char *path, size_t *length) {
    FILE *file = fopen(path, "rb");
    if (!file) { perror(path); exit(2); }
    uint8_t *bytes = NULL;
    size_t room = 2048, n = *length = 0;
    do {
        *length += n;
        if (!bytes || *length == room) bytes = realloc(bytes, room *= 2);
        if (!bytes) { fputs("no memory\n", stderr); exit(2); }
        n = fread(bytes + *length, 1, room - *length, file);
    } while (n > 0);
    fclose(file);
    return bytes;
}

int main(int count, char **words) {
    if (count != 3) { fprintf(stderr, "usage: %s TABLE SET\n", words[0]); return 2; }
    size_t table_length, set_length;
    uint8_t *table = read_all(words[1], &table_length), *set = read_all(words[2], &set_length);
    uint64_t v = queue_check(table, table_length, set, set_length);
    if (v == 0) puts("pass");
    else printf("refused %u %u %u %u\n", queue_check_number(v), queue_check_a(v), queue_check_b(v), queue_check_c(v));
    puts(words_for[queue_check_number(v)]);
    free(table);
    free(set);
    return v != 0;
}
