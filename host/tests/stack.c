/* stack LIST DOCUMENT: whether a cut, one with a log that is lent, one by the plain engine, a batch of that document, the check of two
 * lists, mending, rows, and four clients without and with logs take less stack than the header says. Each call runs on a stack of its own,
 * which is painted before; afterwards the paint that is left tells how deep it went. Prints the number and that it was less; the exit
 * status is 0 where all were. */
#define _GNU_SOURCE
#include "choughbell.h"

#include <stdio.h>
#include <stdlib.h>
#include <string.h>
#include <ucontext.h>

#define SAID (96 * 1024)
#define SAID_WITH (64 * 1024)
#define SAID_PLAIN (192 * 1024)
#define SAID_MEND (8 * 1024)
#define SAID_FOUR (512 * 1024)
#define SAID_FOUR_WITH (384 * 1024)
#define PAINTED (1024 * 1024)

static uint8_t stack[PAINTED], list[8193], doc[32768], batch[sizeof doc + 5], out[2 * sizeof batch];
static size_t list_len, doc_len;
static uint64_t log_lent[1024];
static uint8_t outs[3][2 * sizeof doc];
static uint64_t logs[3][1024];
static struct choughbell_four_numbers numbers;

static size_t file(const char *name, uint8_t *bytes, size_t limit)
{
    FILE *f = fopen(name, "rb");
    if (f == NULL) {
        perror(name);
        exit(66);
    }
    size_t length = fread(bytes, 1, limit, f);
    fclose(f);
    return length;
}

static void call(void)
{
    numbers = choughbell_cut(list, list_len, doc, doc_len, out, sizeof out);
}

static void call_with(void)
{
    numbers = choughbell_cut_with(list, list_len, doc, doc_len, out, sizeof out, log_lent, sizeof log_lent / sizeof log_lent[0]);
}

static void call_plain(void)
{
    struct choughbell_numbers three = choughbell_plain(list, list_len, doc, doc_len, out, sizeof out);
    numbers.number = three.number;
}

/* Into a buffer that is shorter than twice the batch, so that it is measured too. */
static void call_batch(void)
{
    struct choughbell_numbers three = choughbell_batch(list, list_len, batch, doc_len + 5, out, 2 * doc_len + 8);
    numbers.number = three.number;
}

static void call_covers(void)
{
    struct choughbell_numbers said = choughbell_covers(list, list_len, list, list_len);
    numbers.number = said.number;
}

static void call_mend(void)
{
    numbers = choughbell_mend(doc, doc_len, out, sizeof out);
}

static void call_rows(void)
{
    struct choughbell_numbers three = choughbell_rows(list, list_len, doc, doc_len, out, sizeof out);
    numbers.number = three.number;
}

/* The number of four clients is that of the first that is refused. */
static void first_of(const struct choughbell_four_numbers results[4])
{
    numbers = results[0];
    for (int seat = 1; seat < 4 && numbers.number == 0; seat++)
        numbers = results[seat];
}

static void call_four(void)
{
    struct choughbell_four_numbers results[4];
    choughbell_four(list, list_len, list, list_len, list, list_len, list, list_len, doc, doc_len, out, sizeof out, outs[0], sizeof outs[0],
                    outs[1], sizeof outs[1], outs[2], sizeof outs[2], results);
    first_of(results);
}

static void call_four_with(void)
{
    struct choughbell_four_numbers results[4];
    choughbell_four_with(list, list_len, list, list_len, list, list_len, list, list_len, doc, doc_len, out, sizeof out, outs[0],
                         sizeof outs[0], outs[1], sizeof outs[1], outs[2], sizeof outs[2], log_lent, 1024, logs[0], 1024, logs[1], 1024,
                         logs[2], 0, results);
    first_of(results);
}

static int takes(void (*called)(void), size_t said)
{
    memset(stack, 0xA5, PAINTED);
    ucontext_t here, there;
    getcontext(&there);
    there.uc_stack.ss_sp = stack;
    there.uc_stack.ss_size = PAINTED;
    there.uc_link = &here;
    makecontext(&there, called, 0);
    swapcontext(&here, &there);

    size_t left = 0;
    while (left < PAINTED && stack[left] == 0xA5)
        left++;
    size_t taken = PAINTED - left;
    if (taken >= said) {
        printf("answer %llu: %zu bytes of stack\n", (unsigned long long)numbers.number, taken);
        return 1;
    }
    printf("answer %llu: less than %zu bytes of stack\n", (unsigned long long)numbers.number, said);
    return 0;
}

int main(int argc, char **argv)
{
    if (argc != 3)
        return 64;
    list_len = file(argv[1], list, sizeof list);
    doc_len = file(argv[2], doc, sizeof doc);
    batch[0] = 1;
    for (int i = 0; i < 4; i++)
        batch[1 + i] = (uint8_t)(doc_len >> (24 - 8 * i));
    memcpy(batch + 5, doc, doc_len);
    int wrong = takes(call, SAID);
    wrong |= takes(call_with, SAID_WITH);
    wrong |= takes(call_plain, SAID_PLAIN);
    wrong |= takes(call_batch, SAID);
    wrong |= takes(call_covers, SAID);
    wrong |= takes(call_mend, SAID_MEND);
    wrong |= takes(call_rows, SAID);
    wrong |= takes(call_four, SAID_FOUR);
    wrong |= takes(call_four_with, SAID_FOUR_WITH);
    return wrong;
}
