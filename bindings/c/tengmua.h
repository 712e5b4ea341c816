/* The proved loop pair checker. Link with target/staticlib/libcabi.a, which `tools/build cabi` writes (x86-64 Linux).
 *
 * Call it through tengmua_work, at the end of this page: the functions over it lend the work memory, and no slice twice.
 *
 * A slice is a pointer and its number of elements. The pointer is not null, also where the number is 0, and is aligned for its
 * type. A slice that is written overlaps no other slice of the call, be it written or read. The library checks none of this, and
 * an overlap costs a FALSE EQUAL: with one slice lent as left_list and right_list the second program's list stands where the first's
 * stood, one program is compared with itself, and most pairs that differ are EQUAL. So it is with a program or a list that lies in
 * work memory. Nothing else is asked: each function answers every content and every length, keeps nothing between calls and asks the
 * system for nothing, so any thread may call it, with work memory of its own. Its stack stays below 128 KB.
 *
 * What each reply means is in docs/FORMAT.md: "equal" says that both programs leave the same value in each compared element for every
 * starting content and every meaning of the operators and constants in which each marked operator gives the same result for both
 * orders of its arguments; "differs" names the first element of which that is not so. In and inout arrays start alike on both sides;
 * each side has out contents of its own, so a compared out element differs if either side leaves it unwritten. What a refusal's number
 * asks, and what to do about it, is in docs/QUESTIONS.md. The promises are crates/cabi/src/lib.rt's. */
#ifndef TENGMUA_H
#define TENGMUA_H

#include <stddef.h>
#include <stdint.h>

#ifdef __cplusplus
extern "C" {
#endif

/* Elements that question 25 asks of a slice, at least. */
#define TENGMUA_LIST_WORDS 32768
#define TENGMUA_CELL_WORDS 4096
#define TENGMUA_TERM_WORDS 32768

/* Bytes of a program file, at most: an output of so many is long enough for each file that can be written. */
#define TENGMUA_FILE_BYTES 16384

/* The mask that compares every out and inout array. */
#define TENGMUA_ALL 0xFFFF

enum tengmua_kind { TENGMUA_EQUAL = 0, TENGMUA_DIFFERS = 1, TENGMUA_REFUSED = 2, TENGMUA_OVERLAP = 3 };
enum tengmua_side { TENGMUA_LEFT = 0, TENGMUA_RIGHT = 1, TENGMUA_BOTH = 2, TENGMUA_INPUT = 3 };

/* kind      first                          second            third
 * EQUAL     number of elements compared    0                 0
 * DIFFERS   array                          cell              0
 * REFUSED   side                           question, 2..29   place
 * OVERLAP   0                              0                 0
 * Of tengmua_unroll, EQUAL has the number of updates; of tengmua_check_list, 0; of tengmua_write_file, the file's length in bytes.
 * OVERLAP is no reply, and only of the functions over tengmua_work: a program or a list lies in the work memory. */
typedef struct {
    size_t kind;
    size_t first;
    size_t second;
    size_t third;
} tengmua_reply;

/* Compares two programs in the out and inout arrays whose bit of the mask is 1. The four lists of words are work memory: they
 * may hold anything, and hold zeros afterwards; under question 25 they hold what they held. No two of them may overlap (above). */
tengmua_reply tengmua_compare_programs(const uint8_t *left, size_t left_length,
                                       const uint8_t *right, size_t right_length,
                                       uint16_t mask,
                                       uint32_t *left_list, size_t left_list_length,
                                       uint32_t *right_list, size_t right_list_length,
                                       uint32_t *cells, size_t cells_length,
                                       uint32_t *terms, size_t terms_length);

/* The plain comparison: two programs in their out arrays. Inout arrays are left out: they may be scratch memory, and what is left there
 * need not be alike. So EQUAL with 0 elements, as of programs without an out array, says that nothing was compared;
 * tengmua_compare_programs with TENGMUA_ALL compares inout arrays too. The reply is the one that it gives under the mask with the
 * bits of the out arrays. A difference is explained by tengmua_explain with the mask 1 << array, which names the same element. Work
 * memory as above. */
tengmua_reply tengmua_compare_plain(const uint8_t *left, size_t left_length,
                                    const uint8_t *right, size_t right_length,
                                    uint32_t *left_list, size_t left_list_length,
                                    uint32_t *right_list, size_t right_list_length,
                                    uint32_t *cells, size_t cells_length,
                                    uint32_t *terms, size_t terms_length);

/* Compares two lists (docs/LAYOUT.md), which may hold anything and are only read. Work memory as above. */
tengmua_reply tengmua_compare_lists(const uint32_t *left, size_t left_length,
                                    const uint32_t *right, size_t right_length,
                                    uint16_t mask,
                                    uint32_t *cells, size_t cells_length,
                                    uint32_t *terms, size_t terms_length);

/* Writes the list of a program, with zeros after it. On a refusal the list is all zeros; under question 25 it is untouched. */
tengmua_reply tengmua_unroll(const uint8_t *program, size_t program_length,
                             uint32_t *list, size_t list_length);

/* Is this the layout of an allowed list (26), in a slice that is long enough (25)? */
tengmua_reply tengmua_check_list(const uint32_t *list, size_t list_length);

/* Writes a list as a program file without loops and guards to the front of out, which may have any length: a statement for each
 * update, in the lowest version that can hold it. Reading and unrolling the file returns the list. Bytes behind the file stay as they
 * were. So do all of them on a refusal: 25 or 26 of the list; 28, a literal does not fit in 16 signed bits, with the number of the first
 * such update as its place; 29, the file is longer than TENGMUA_FILE_BYTES or than out. The output may not overlap the list. */
tengmua_reply tengmua_write_file(const uint32_t *list, size_t list_length,
                                 uint8_t *out, size_t out_length);

/* Kinds of an explanation; the others are TENGMUA_REFUSED and TENGMUA_OVERLAP. */
enum tengmua_origin { TENGMUA_WRITTEN = 0, TENGMUA_STARTING = 1 };

/* Loops that can enclose a statement, at most. */
#define TENGMUA_LOOPS 8

/* kind       has
 * WRITTEN    array and cell of the element; from and to: the bytes of the chosen program, from one place up to and without the
 *            other, that hold the statement which wrote the element last; count: the loops around it; indices: their values in
 *            that update, outermost first
 * STARTING   array and cell of the element, which that program never wrote; of an out element both programs can have it
 * REFUSED    side, question (2..27) and place, as of a reply; 27: there is no difference to explain
 * The numbers that a kind does not have are 0, and so are the indices beyond the count. */
typedef struct {
    size_t kind;
    size_t side;
    size_t question;
    size_t place;
    size_t array;
    size_t cell;
    size_t from;
    size_t to;
    size_t count;
    int16_t indices[TENGMUA_LOOPS];
} tengmua_explanation;

/* Explains the first element that differs, as tengmua_compare_programs finds it with the same mask, by one of the two programs:
 * the left where `side` is TENGMUA_LEFT, otherwise the right. Work memory as there. */
tengmua_explanation tengmua_explain(const uint8_t *left, size_t left_length,
                                    const uint8_t *right, size_t right_length,
                                    uint16_t mask, size_t side,
                                    uint32_t *left_list, size_t left_list_length,
                                    uint32_t *right_list, size_t right_list_length,
                                    uint32_t *cells, size_t cells_length,
                                    uint32_t *terms, size_t terms_length);

/* Work memory for every call, used again from call to call. It may hold anything before the first. It is too big for many a thread's
 * stack: make it static, or take it from malloc. */
typedef struct {
    uint32_t left_list[TENGMUA_LIST_WORDS];
    uint32_t right_list[TENGMUA_LIST_WORDS];
    uint32_t cells[TENGMUA_CELL_WORDS];
    uint32_t terms[TENGMUA_TERM_WORDS];
} tengmua_work;

/* sizeof(tengmua_work) */
#define TENGMUA_WORK_BYTES 409600

/* The functions below are those above over this memory. What is to be read lies outside of it: where a program or a list lies in it,
 * even in part, the kind is TENGMUA_OVERLAP, nothing was compared and nothing touched. */
static inline int tengmua_work_overlaps(const tengmua_work *work, const void *slice, size_t bytes) {
    uintptr_t start = (uintptr_t)slice, from = (uintptr_t)work;
    return bytes != 0 && start < from + sizeof *work && from < start + bytes;
}

/* tengmua_compare_plain: the out arrays. */
static inline tengmua_reply tengmua_work_plain(tengmua_work *work,
                                               const uint8_t *left, size_t left_length,
                                               const uint8_t *right, size_t right_length) {
    const tengmua_reply overlap = {TENGMUA_OVERLAP, 0, 0, 0};
    if (tengmua_work_overlaps(work, left, left_length) || tengmua_work_overlaps(work, right, right_length))
        return overlap;
    return tengmua_compare_plain(left, left_length, right, right_length,
                                 work->left_list, TENGMUA_LIST_WORDS, work->right_list, TENGMUA_LIST_WORDS,
                                 work->cells, TENGMUA_CELL_WORDS, work->terms, TENGMUA_TERM_WORDS);
}

/* tengmua_compare_programs: the out and inout arrays whose bit of the mask is 1. */
static inline tengmua_reply tengmua_work_programs(tengmua_work *work,
                                                  const uint8_t *left, size_t left_length,
                                                  const uint8_t *right, size_t right_length,
                                                  uint16_t mask) {
    const tengmua_reply overlap = {TENGMUA_OVERLAP, 0, 0, 0};
    if (tengmua_work_overlaps(work, left, left_length) || tengmua_work_overlaps(work, right, right_length))
        return overlap;
    return tengmua_compare_programs(left, left_length, right, right_length, mask,
                                    work->left_list, TENGMUA_LIST_WORDS, work->right_list, TENGMUA_LIST_WORDS,
                                    work->cells, TENGMUA_CELL_WORDS, work->terms, TENGMUA_TERM_WORDS);
}

/* tengmua_compare_lists */
static inline tengmua_reply tengmua_work_lists(tengmua_work *work,
                                               const uint32_t *left, size_t left_length,
                                               const uint32_t *right, size_t right_length,
                                               uint16_t mask) {
    const tengmua_reply overlap = {TENGMUA_OVERLAP, 0, 0, 0};
    if (tengmua_work_overlaps(work, left, left_length * sizeof *left) ||
        tengmua_work_overlaps(work, right, right_length * sizeof *right))
        return overlap;
    return tengmua_compare_lists(left, left_length, right, right_length, mask,
                                 work->cells, TENGMUA_CELL_WORDS, work->terms, TENGMUA_TERM_WORDS);
}

/* tengmua_explain */
static inline tengmua_explanation tengmua_work_explain(tengmua_work *work,
                                                       const uint8_t *left, size_t left_length,
                                                       const uint8_t *right, size_t right_length,
                                                       uint16_t mask, size_t side) {
    const tengmua_explanation overlap = {TENGMUA_OVERLAP, 0, 0, 0, 0, 0, 0, 0, 0, {0, 0, 0, 0, 0, 0, 0, 0}};
    if (tengmua_work_overlaps(work, left, left_length) || tengmua_work_overlaps(work, right, right_length))
        return overlap;
    return tengmua_explain(left, left_length, right, right_length, mask, side,
                           work->left_list, TENGMUA_LIST_WORDS, work->right_list, TENGMUA_LIST_WORDS,
                           work->cells, TENGMUA_CELL_WORDS, work->terms, TENGMUA_TERM_WORDS);
}

#ifdef __cplusplus
}
#endif

#endif
