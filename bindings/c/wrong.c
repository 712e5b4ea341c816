/* A library that is wrong in one thing (FAULT 1 to 19), in place of libcabi.a: the harness must find each, or it could not fail.
 * Without a fault (0) it is the separately written checker, and must pass. */
#include <string.h>

#include "tengmua.h"

tengmua_reply twin_compare_programs(const uint8_t *, size_t, const uint8_t *, size_t, uint16_t, uint32_t *, size_t,
                                    uint32_t *, size_t, uint32_t *, size_t, uint32_t *, size_t);
tengmua_reply twin_compare_plain(const uint8_t *, size_t, const uint8_t *, size_t, uint32_t *, size_t, uint32_t *, size_t,
                                 uint32_t *, size_t, uint32_t *, size_t);
tengmua_reply twin_compare_lists(const uint32_t *, size_t, const uint32_t *, size_t, uint16_t, uint32_t *, size_t,
                                 uint32_t *, size_t);
tengmua_reply twin_unroll(const uint8_t *, size_t, uint32_t *, size_t);
tengmua_reply twin_check_list(const uint32_t *, size_t);
tengmua_reply twin_write_file(const uint32_t *, size_t, uint8_t *, size_t);
tengmua_explanation twin_explain(const uint8_t *, size_t, const uint8_t *, size_t, uint16_t, size_t, uint32_t *, size_t,
                                 uint32_t *, size_t, uint32_t *, size_t, uint32_t *, size_t);

tengmua_reply tengmua_compare_programs(const uint8_t *left, size_t left_length, const uint8_t *right, size_t right_length,
                                       uint16_t mask, uint32_t *left_list, size_t left_list_length, uint32_t *right_list,
                                       size_t right_list_length, uint32_t *cells, size_t cells_length, uint32_t *terms,
                                       size_t terms_length) {
    tengmua_reply reply = twin_compare_programs(left, left_length, right, right_length, mask, left_list, left_list_length,
                                                right_list, right_list_length, cells, cells_length, terms, terms_length);
    if (FAULT == 1 && terms_length)
        terms[terms_length - 1]++; /* work memory is not as promised */
    return reply;
}

tengmua_reply tengmua_compare_plain(const uint8_t *left, size_t left_length, const uint8_t *right, size_t right_length,
                                    uint32_t *left_list, size_t left_list_length, uint32_t *right_list,
                                    size_t right_list_length, uint32_t *cells, size_t cells_length, uint32_t *terms,
                                    size_t terms_length) {
    tengmua_reply reply = twin_compare_plain(left, left_length, right, right_length, left_list, left_list_length, right_list,
                                             right_list_length, cells, cells_length, terms, terms_length);
    tengmua_reply all = twin_compare_programs(left, left_length, right, right_length, TENGMUA_ALL, left_list,
                                              left_list_length, right_list, right_list_length, cells, cells_length, terms,
                                              terms_length);
    if (FAULT == 11 && all.kind == TENGMUA_DIFFERS)
        reply = all; /* a difference in an inout array is seen too */
    if (FAULT == 12 && all.kind == TENGMUA_EQUAL)
        reply = all; /* elements of inout arrays are counted too */
    if (FAULT == 13 && reply.second != 25)
        left_list[0] = 1; /* work memory is not all zeros */
    return reply;
}

tengmua_reply tengmua_compare_lists(const uint32_t *left, size_t left_length, const uint32_t *right, size_t right_length,
                                    uint16_t mask, uint32_t *cells, size_t cells_length, uint32_t *terms,
                                    size_t terms_length) {
    if (FAULT == 2)
        mask = TENGMUA_ALL; /* another reply under some masks */
    return twin_compare_lists(left, left_length, right, right_length, mask, cells, cells_length, terms, terms_length);
}

tengmua_reply tengmua_unroll(const uint8_t *program, size_t program_length, uint32_t *list, size_t list_length) {
    tengmua_reply reply = twin_unroll(program, program_length, list, list_length);
    if (FAULT == 3)
        memset(list + list_length, 0, 4); /* a word behind the slice is written */
    return reply;
}

static volatile uint32_t seen;

tengmua_reply tengmua_check_list(const uint32_t *list, size_t list_length) {
    if (FAULT == 4)
        seen = list[list_length]; /* a word behind the slice is read */
    if (FAULT == 5)
        seen = list[-1]; /* and one before it */
    return twin_check_list(list, list_length);
}

tengmua_reply tengmua_write_file(const uint32_t *list, size_t list_length, uint8_t *out, size_t out_length) {
    size_t room = out_length - (FAULT == 14 && out_length); /* an output of just the file's length is too short */
    tengmua_reply reply = twin_write_file(list, list_length, out, room);
    if (FAULT == 15 && reply.kind == TENGMUA_EQUAL && reply.first < out_length)
        out[reply.first]++; /* a byte behind the file is touched */
    if (FAULT == 16 && reply.kind == TENGMUA_REFUSED && out_length)
        out[out_length - 1]++; /* a refusal touches the output */
    if (FAULT == 17 && reply.second == 28)
        reply.third++; /* the update behind the first with a wide literal */
    if (FAULT == 18 && reply.kind == TENGMUA_EQUAL)
        out[3] = 2; /* the second version without a mark */
    if (FAULT == 19)
        memset(out + out_length, 0, 4); /* bytes behind the output are written */
    return reply;
}

tengmua_explanation tengmua_explain(const uint8_t *left, size_t left_length, const uint8_t *right, size_t right_length,
                                    uint16_t mask, size_t side, uint32_t *left_list, size_t left_list_length,
                                    uint32_t *right_list, size_t right_list_length, uint32_t *cells, size_t cells_length,
                                    uint32_t *terms, size_t terms_length) {
    if (FAULT == 6)
        side = !side; /* the other side's explanation */
    tengmua_explanation explanation =
        twin_explain(left, left_length, right, right_length, mask, side, left_list, left_list_length, right_list,
                     right_list_length, cells, cells_length, terms, terms_length);
    tengmua_explanation nothing = {.kind = TENGMUA_REFUSED, .side = TENGMUA_BOTH, .question = 27};
    if (FAULT == 7 && explanation.kind != TENGMUA_REFUSED)
        explanation = nothing; /* nothing to explain, where there is a difference */
    if (FAULT == 10 && explanation.kind == TENGMUA_STARTING &&
        twin_explain(left, left_length, right, right_length, mask, !side, left_list, left_list_length, right_list,
                     right_list_length, cells, cells_length, terms, terms_length).kind == TENGMUA_STARTING)
        explanation = nothing; /* an out element that neither side writes passes */
    if (FAULT == 8 && explanation.question != 25)
        right_list[0] = 1; /* work memory is not all zeros */
    if (FAULT == 9 && explanation.count < TENGMUA_LOOPS)
        explanation.indices[explanation.count] = 1; /* a value beyond the count */
    return explanation;
}
