/* What the header's constants are held to, and what the library answers where a pointer is null and the length 0. The contract speaks of
 * slices, not of pointers: this says only what is so. Prints the version. */
#include <choughbell.h>
#include <stdio.h>

static int wrong;

static void expect(const char *name, uint64_t number, uint64_t second, uint64_t expected, uint64_t expected_second)
{
    if (number != expected || second != expected_second) {
        printf("%s: %llu %llu\n", name, (unsigned long long)number, (unsigned long long)second);
        wrong = 1;
    }
}

static uint8_t room[CHOUGHBELL_DOCUMENT_LIMIT + 1];

int main(void)
{
    const uint8_t doc[] = "<g/>", list[] = "/g\n";
    uint8_t out[8];
    struct choughbell_four_numbers four = choughbell_cut(NULL, 0, doc, 4, out, 7);
    expect("no list", four.number, four.second, CHOUGHBELL_WRITTEN, 7);
    four = choughbell_cut(list, 3, NULL, 0, NULL, 0);
    expect("no document", four.number, four.second, CHOUGHBELL_NOT_WELL_FORMED, 0);
    four = choughbell_cut(list, 3, doc, 4, NULL, 0);
    expect("no room", four.number, four.second, CHOUGHBELL_SHORT, 7);
    four = choughbell_cut_with(list, 3, doc, 4, out, 7, NULL, 0);
    expect("no log", four.number, four.second, CHOUGHBELL_WRITTEN, 7);
    four = choughbell_mend(NULL, 0, NULL, 0);
    expect("nothing to mend", four.number, four.second, CHOUGHBELL_NO_ROOT, 0);
    struct choughbell_numbers three = choughbell_judge(NULL, 0);
    expect("nothing to judge", three.number, three.second, CHOUGHBELL_NOT_WELL_FORMED, 0);
    three = choughbell_covers(NULL, 0, NULL, 0);
    expect("no lists", three.number, three.second, CHOUGHBELL_WRITTEN, 1);
    three = choughbell_unpack(NULL, 0, NULL, 0);
    expect("nothing packed", three.number, three.second, CHOUGHBELL_NOT_PACKED, 0);
    three = choughbell_batch(list, 3, NULL, 0, NULL, 0);
    expect("no batch", three.number, three.second, CHOUGHBELL_NOT_BATCH, 0);
    three = choughbell_rows(NULL, 0, doc, 4, NULL, 0);
    expect("no table", three.number, three.second, CHOUGHBELL_SHORT, 11);
    struct choughbell_four_numbers seats[4];
    choughbell_four(list, 3, NULL, 0, NULL, 0, NULL, 0, doc, 4, out, 7, NULL, 0, NULL, 0, NULL, 0, seats);
    expect("one client", seats[0].number, seats[0].second, CHOUGHBELL_WRITTEN, 7);
    for (int seat = 1; seat < 4; seat++)
        expect("an unused seat", seats[seat].number, seats[seat].second, CHOUGHBELL_SHORT, 7);
    /* Zeros are no list and no document; one byte over a limit is told before that. */
    four = choughbell_cut(room, CHOUGHBELL_LIST_LIMIT + 1, doc, 4, out, 7);
    expect("list limit", four.number, four.second, CHOUGHBELL_LIST_TOO_LONG, 0);
    four = choughbell_cut(room, CHOUGHBELL_LIST_LIMIT, doc, 4, out, 7);
    expect("list at the limit", four.number, four.second, CHOUGHBELL_MALFORMED_LINE, 1);
    three = choughbell_judge(room, CHOUGHBELL_DOCUMENT_LIMIT + 1);
    expect("document limit", three.number, three.second, CHOUGHBELL_DOCUMENT_TOO_LONG, 0);
    three = choughbell_judge(room, CHOUGHBELL_DOCUMENT_LIMIT);
    expect("document at the limit", three.number, three.second, CHOUGHBELL_NOT_CHARACTER, 0);
    printf("%s\n", CHOUGHBELL_VERSION);
    return wrong;
}
