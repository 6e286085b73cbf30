/* judge DOCUMENT: says whether a file is a document that would be taken, or by which number it is refused, and its place; and how many of
 * its bytes, from the front on, are characters. The exit status is the number; 64 where the words are wrong, 66 where the file can't be
 * read. */
#include "choughbell.h"

#include <stdio.h>

/* One byte more than a document may have: that is enough for the library to refuse it. */
static uint8_t doc[16777217];

int main(int argc, char **argv)
{
    if (argc != 2) {
        fprintf(stderr, "usage: judge DOCUMENT\n");
        return 64;
    }
    FILE *f = fopen(argv[1], "rb");
    if (f == NULL) {
        perror(argv[1]);
        return 66;
    }
    size_t doc_len = fread(doc, 1, sizeof doc, f);
    if (ferror(f)) {
        perror(argv[1]);
        return 66;
    }
    fclose(f);

    struct choughbell_numbers n = choughbell_judge(doc, doc_len);
    if (n.number == 0) {
        printf("sound\n");
    } else {
        printf("refused %llu %llu\n", (unsigned long long)n.number, (unsigned long long)n.second);
    }
    printf("characters: %zu of %zu bytes\n", choughbell_characters(doc, doc_len), doc_len);
    return fflush(stdout) == 0 ? (int)n.number : 74;
}
