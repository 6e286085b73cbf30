/* The proved filter, for callers in C: thirteen functions of a static library, choughbell 0.4.0. Link with -lchoughbell, or with
 * target/native/libexported.a as `make library` leaves it. They allocate nothing, keep nothing between calls and call nothing but memset
 * and memcpy, so threads may call them at once. A call takes less than 96 KiB of stack; one with a log that is lent less than 64; mending
 * less than 8; one for four clients less than 512, with logs that are lent less than 384.
 *
 * A byte slice is passed as a pointer and a length. What the caller owes, and nothing else is asked:
 *   - each pointer leads to as many bytes as its length says, and is not null, also where the length is 0;
 *   - `out` overlaps neither `list` nor `doc`, which may be the same bytes;
 *   - no other thread writes to these bytes during the call.
 * The bytes of the list and the document may be any. A null pointer with length 0 is outside the contract; as the library is built it is
 * taken as no bytes, which tests/null.c tries.
 *
 * Layout: in 0.1.0 choughbell_cut gave three numbers, and from 0.2.0 on it gives four, in a larger struct. The library writes all of it
 * where the caller has made room: so a caller that was compiled with the header of 0.1.0 must be compiled anew before it is linked.
 */
#ifndef CHOUGHBELL_H
#define CHOUGHBELL_H

#include <stddef.h>
#include <stdint.h>

#define CHOUGHBELL_VERSION "0.4.0"

/* The numbers, as told below. */
#define CHOUGHBELL_WRITTEN 0
#define CHOUGHBELL_LIST_TOO_LONG 1
#define CHOUGHBELL_MALFORMED_LINE 2
#define CHOUGHBELL_LINE_TOO_LARGE 3
#define CHOUGHBELL_DOCUMENT_TOO_LONG 4
#define CHOUGHBELL_NOT_CHARACTER 5
#define CHOUGHBELL_DOCUMENT_TYPE 6
#define CHOUGHBELL_NOT_WELL_FORMED 7
#define CHOUGHBELL_OVER_SIZE 8
#define CHOUGHBELL_SHORT 9
#define CHOUGHBELL_OTHER_ENCODING 10
#define CHOUGHBELL_NOT_BATCH 11
#define CHOUGHBELL_NO_ROOT 12
#define CHOUGHBELL_NOT_PACKED 13

/* The most bytes that are taken, and how many more than a document its mended form can have. */
#define CHOUGHBELL_LIST_LIMIT 8192
#define CHOUGHBELL_PACKED_LIMIT 8833
#define CHOUGHBELL_DOCUMENT_LIMIT 16777216
#define CHOUGHBELL_BATCH_LIMIT 67108864
#define CHOUGHBELL_MENDED_MORE 16512

#ifdef __cplusplus
extern "C" {
#endif

/* The numbers handed back.
 *
 *   number                                  second
 *   0  written                              length written; third: how many elements are selected, those inside a kept entry too;
 *                                           fourth, of a cut: how many name tests were tried
 *   1  list over 8,192 bytes                0
 *   2  malformed line                       line, from 1
 *   3  line too large, or line 33           line
 *   4  document over 16,777,216 bytes       0
 *   5  not UTF-8, or not a Char             offset where the first bad sequence begins
 *   6  document type                        offset of the item
 *   7  not well-formed                      offset of the item, or the document's length: an element is open, or there is no root
 *   8  over a size                          offset of the item
 *   9  output shorter than the cut          length needed
 *   10 another encoding is declared         offset of the declaration: 0, or 3 behind EF BB BF
 *   11 not a batch                          offset of the version byte or length at fault (choughbell_batch alone)
 *   12 no root tag kept, of mending alone   offset of the first fault, in the document or in what stands before its first bad sequence
 *   13 not the packed form of a list        0
 *
 * They apply in the order 1; 2 and 3 by line; 4; 10; 5; 6 to 8 by item; 9. The third number and the fourth are 0 except under 0.
 *
 * Name tests: for each element and each step of each line one is tried exactly when the steps before it can be laid so that the step's
 * place would be that element. `*` counts as a name does; the test of an attribute is none. They are counted over the whole document,
 * inside kept entries too, and are at most elements times steps in the list, repeated lines counted again. */
struct choughbell_numbers {
    uint64_t number;
    uint64_t second;
    uint64_t third;
};

struct choughbell_four_numbers {
    uint64_t number;
    uint64_t second;
    uint64_t third;
    uint64_t fourth;
};

/* Writes the cut of a document by a list to the front of `out`. Under 0 the bytes after the cut stay as they were, under any other number
 * the whole of `out` does. A cut of a document of n bytes has at most 2n - 1 bytes, which is proved: where out_len is as much, the number
 * is never 9. */
struct choughbell_four_numbers choughbell_cut(const uint8_t *list, size_t list_len, const uint8_t *doc, size_t doc_len, uint8_t *out,
                                              size_t out_len);

/* The same, with a log that the caller lends: room for log_len notes on what is written. A document is gone through once where all notes
 * fit, and a second time where they do not; `choughbell_cut` has a small log of its own. A kept entry is one note, another element two.
 * Numbers and bytes do not depend on the log: it may be of any length, 0 too, and hold anything. What it holds afterwards says nothing. It
 * overlaps none of the others. */
struct choughbell_four_numbers choughbell_cut_with(const uint8_t *list, size_t list_len, const uint8_t *doc, size_t doc_len, uint8_t *out,
                                                   size_t out_len, uint64_t *log, size_t log_len);

/* The same by the plain engine, a second one that is there to be read: it goes down the tree, and tries the paths at each element from the
 * top. It is proved that for every list, document and room its three numbers are the first three of choughbell_cut, and `out` is the same
 * in every byte. It counts no name tests, and takes longer. A call takes less than 192 KiB of stack. */
struct choughbell_numbers choughbell_plain(const uint8_t *list, size_t list_len, const uint8_t *doc, size_t doc_len, uint8_t *out,
                                           size_t out_len);

/* Cuts one document for four clients, each with a list and an output of its own, in one call. results[0] to results[3] are filled with the
 * numbers of the clients, in their order. What a client gets, its four numbers and every byte of its output, is what choughbell_cut gives
 * for its list, the document and its output alone, which is proved: nothing of the other three is seen in it. So a fault in the document
 * reaches each client whose list is sound, and a fault in a list or too little room its owner only. A seat that is not used has an empty
 * list, and no room is needed for it: its number is then 9. The lists and the document may be the same bytes; the outputs and `results`
 * overlap nothing else. */
void choughbell_four(const uint8_t *list1, size_t list1_len, const uint8_t *list2, size_t list2_len, const uint8_t *list3,
                     size_t list3_len, const uint8_t *list4, size_t list4_len, const uint8_t *doc, size_t doc_len, uint8_t *out1,
                     size_t out1_len, uint8_t *out2, size_t out2_len, uint8_t *out3, size_t out3_len, uint8_t *out4, size_t out4_len,
                     struct choughbell_four_numbers results[4]);

/* The same, with a log for each client that the caller lends, as choughbell_cut_with has one. They overlap nothing else. */
void choughbell_four_with(const uint8_t *list1, size_t list1_len, const uint8_t *list2, size_t list2_len, const uint8_t *list3,
                          size_t list3_len, const uint8_t *list4, size_t list4_len, const uint8_t *doc, size_t doc_len, uint8_t *out1,
                          size_t out1_len, uint8_t *out2, size_t out2_len, uint8_t *out3, size_t out3_len, uint8_t *out4, size_t out4_len,
                          uint64_t *log1, size_t log1_len, uint64_t *log2, size_t log2_len, uint64_t *log3, size_t log3_len,
                          uint64_t *log4, size_t log4_len, struct choughbell_four_numbers results[4]);

/* Cuts each document of a batch by one list, and writes the result to the front of `out`. A batch is the byte 1, then for each document its
 * length, four bytes with the highest first, and its bytes. The result has the same layout, with the cut of each document, or length 0
 * where the document is refused by 4 to 8 or 10 (a cut is never empty): an entry is what choughbell_cut writes for the document alone.
 *
 * Under 0 the second number is the length of the whole result and the third the sum of elements selected; the bytes after the result stay
 * as they were. Else the batch as a whole is refused and the whole of `out` stays: 1 to 3; 11, for an empty batch, one over 67,108,864
 * bytes (both offset 0), another version, or the first length that is cut short or runs past the end; 9 with the length of the whole
 * result; in this order. A result has at most twice the bytes of its batch, which is proved: where out_len is as much, the number is never
 * 9, and each document is gone through once; else a second time, to measure. `out` overlaps neither `list` nor `batch`. */
struct choughbell_numbers choughbell_batch(const uint8_t *list, size_t list_len, const uint8_t *batch, size_t batch_len, uint8_t *out,
                                           size_t out_len);

/* Writes a table for a spreadsheet to the front of `out`: RFC 4180 records, each ended by CR LF. First the header `path,text`, then one
 * record for each element that the list selects, in the order of start tags: the names from the root joined by `/`, and the text directly
 * in the element, CDATA content included, literal CR LF and CR made LF, references replaced. A field is quoted exactly when it holds a
 * comma, a quote, CR or LF, and quotes inside are doubled. The mark # changes nothing here.
 *
 * Under 0 the second number is the length written and the third how many elements are selected, and the bytes after the table stay as they
 * were. It is else refused as a cut is, and the whole of `out` stays; 9 has the length of the whole table, which may be far longer than the
 * document, and over 2^32. A text may go on behind children, so a selected element is read on to its end tag: the time is at most that of
 * depth times bytes. */
struct choughbell_numbers choughbell_rows(const uint8_t *list, size_t list_len, const uint8_t *doc, size_t doc_len, uint8_t *out,
                                          size_t out_len);

/* The numbers of a document alone, as above: 4 to 8 or 10 with the second number, or 0 where the document is sound, and then the second
 * number is 0 too. The third is 0. A sound document is cut by every sound list, in a room that suffices. */
struct choughbell_numbers choughbell_judge(const uint8_t *doc, size_t doc_len);

/* Whether every path of a narrow list is covered by a path of a wide list, marked if it is. Under 0 the second number is 1 if it is so and
 * else 0, and the third is 0. A list is refused by 1 to 3 with the line, the narrow one first; the third number is then 1 for the narrow
 * list and 2 for the wide one. The lists may be the same bytes. Where the second number is 1, cutting the wide list's cut of a document by
 * the narrow list gives, byte for byte, what cutting the document by it gives. */
struct choughbell_numbers choughbell_covers(const uint8_t *narrow, size_t narrow_len, const uint8_t *wide, size_t wide_len);

/* How many bytes at the front are characters that XML allows, in UTF-8: `s_len`, or the offset of the first bad sequence. There is no limit
 * to the length. */
size_t choughbell_characters(const uint8_t *s, size_t s_len);

/* The packed form of a list, for loaders that exchange lists: the byte 1; then for each line two bytes, big-endian, the length of what
 * follows; a mark byte, 0 or 1; the number of steps; for each step its kind (0 child, 1 descendant, 2 self, 3 descendant-or-self), a name
 * length where 0 means `*`, and the name; last the length of the attribute's name, 0 for no test, and if not 0 the name, the value's length
 * and the value. A sound list has one packed form, of at most 8,833 bytes, which is proved.
 *
 * choughbell_pack writes the packed form of a text list to the front of `out`, or refuses by 1 to 3, then 9. choughbell_unpack writes the
 * text back, or refuses by 13, exactly when the input is the packed form of no sound list, then by 9: a text has at most 8,192 bytes. Text
 * to packed to text gives the same bytes, and so does packed to text to packed. Under 0 the second number is the length written and the
 * bytes after it stay as they were; under any other number the whole of `out` does. The third number is always 0. `out` overlaps nothing
 * else. */
struct choughbell_numbers choughbell_pack(const uint8_t *text, size_t text_len, uint8_t *out, size_t out_len);
struct choughbell_numbers choughbell_unpack(const uint8_t *packed, size_t packed_len, uint8_t *out, size_t out_len);

/* Writes a document that stops half way, mended, to the front of `out`: the three bytes EF BB BF where they stand, every whole item before
 * the first fault of 5 to 8, and then the end tags that are missing, the innermost first. For 5 the document is first cut at the bad
 * sequence. A text that touches the end with an element open is dropped. A sound document comes back as it is, and what is written is
 * always taken by choughbell_cut if it has at most 16,777,216 bytes.
 * Under 0 the second number is the length written, the third the bytes kept, the fourth the end tags added. It is else, in this order, 4,
 * 10, 12 or 9, and the third and the fourth are 0. Under 0 the bytes after the mended document stay as they were, under any other number
 * the whole of `out` does. Where out_len is doc_len + 16,512 the number is never 9, which is proved. */
struct choughbell_four_numbers choughbell_mend(const uint8_t *doc, size_t doc_len, uint8_t *out, size_t out_len);

#ifdef __cplusplus
}
#endif

#endif
