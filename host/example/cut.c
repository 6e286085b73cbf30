/* cut LIST DOCUMENT [ROOM]: cuts a file by a list of paths and prints the cut; or says which number it was refused by, and its place. ROOM
 * is the size of the output buffer, to see answer 9; without it the buffer has 2n - 1 bytes for a document of n, which always suffices:
 * that no cut is longer is proved (`cut_at_most` and `never_short` in crates/demands/proofs/Room.antt).
 * The exit status is the number; 64 where the words are wrong, 66 where a file can't be read. */
#include "choughbell.h"

#include <stdio.h>
#include <stdlib.h>

/* The bytes of a file, at most one more than `limit`: that is enough for the library to refuse it. */
static uint8_t *file(const char *name, size_t limit, size_t *length)
{
    uint8_t *bytes = malloc(limit + 1);
    FILE *f = fopen(name, "rb");
    if (bytes == NULL || f == NULL) {
        perror(name);
        exit(66);
    }
    *length = fread(bytes, 1, limit + 1, f);
    if (ferror(f)) {
        perror(name);
        exit(66);
    }
    fclose(f);
    return bytes;
}

/* The most bytes that a cut of a document of so many can have. */
static size_t longest(size_t doc_len)
{
    return doc_len == 0 ? 0 : 2 * doc_len - 1;
}

int main(int argc, char **argv)
{
    if (argc < 3 || argc > 4) {
        fprintf(stderr, "usage: cut LIST DOCUMENT [ROOM]\n");
        return 64;
    }
    size_t list_len, doc_len;
    uint8_t *list = file(argv[1], 8192, &list_len);
    uint8_t *doc = file(argv[2], 16777216, &doc_len);
    size_t room = argc == 4 ? strtoul(argv[3], NULL, 10) : longest(doc_len);
    /* One byte more, since malloc(0) may give NULL, which the library does not take. */
    uint8_t *out = malloc(room + 1);
    if (out == NULL) {
        perror("cut");
        return 71;
    }

    struct choughbell_four_numbers n = choughbell_cut(list, list_len, doc, doc_len, out, room);
    if (n.number == 0) {
        fwrite(out, 1, n.second, stdout);
        fprintf(stderr, "%llu selected, %llu name tests\n", (unsigned long long)n.third, (unsigned long long)n.fourth);
    } else {
        fprintf(stderr, "refused %llu %llu\n", (unsigned long long)n.number, (unsigned long long)n.second);
    }
    free(out);
    free(doc);
    free(list);
    return fflush(stdout) == 0 ? (int)n.number : 74;
}
