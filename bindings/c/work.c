/* The functions over tengmua_work, compiled as C and as C++: known pairs, and programs and lists that lie in the work memory or
 * beside it; and a list that is written as a file. Says what is wrong and ends with status 1, or ends with 0. */
#include <stdio.h>
#include <string.h>

#include "tengmua.h"

/* C99 and C++98 have no assertion at compile time; an array's length serves. */
typedef char work_bytes[sizeof(tengmua_work) == TENGMUA_WORK_BYTES ? 1 : -1];

/* Copies two elements, of an in array to an out array. */
static const uint8_t forwards[] = {'A', 'L', 'P', 1, 0, 0, 2, 0, 1, 2, 0, 1, 1, 2, 0, 2, 0, 0,
                                   1, 0, 1, 0, 1, 1, 0, 0, 1, 16, 0, 0, 0, 1, 0, 0};

#define LENGTH sizeof forwards
#define WORDS TENGMUA_LIST_WORDS

static uint8_t turned[LENGTH];  /* each element gets the other's value */
static uint8_t shorter[LENGTH]; /* one element less */
static uint8_t inout[LENGTH];   /* the array that is copied to is inout */

/* Room on both sides of the work memory, for programs and lists that touch it. */
static struct {
    uint32_t before[WORDS];
    tengmua_work work;
    uint32_t behind[WORDS];
} memory;

static uint32_t left_list[WORDS], right_list[WORDS];

static int wrong = 0;

static void reply_is(const char *what, tengmua_reply reply, size_t kind, size_t first, size_t second) {
    if (reply.kind == kind && reply.first == first && reply.second == second && reply.third == 0)
        return;
    printf("%s: %u %u %u %u, expected %u %u %u 0\n", what, (unsigned)reply.kind, (unsigned)reply.first, (unsigned)reply.second,
           (unsigned)reply.third, (unsigned)kind, (unsigned)first, (unsigned)second);
    wrong = 1;
}

static void origin_is(const char *what, tengmua_explanation explanation, size_t kind, size_t from, size_t to) {
    if (explanation.kind == kind && explanation.from == from && explanation.to == to)
        return;
    printf("%s: %u, bytes %u to before %u, expected %u, %u, %u\n", what, (unsigned)explanation.kind, (unsigned)explanation.from,
           (unsigned)explanation.to, (unsigned)kind, (unsigned)from, (unsigned)to);
    wrong = 1;
}

/* All bytes of the work memory are this one. */
static void work_is(const char *what, int byte) {
    const uint8_t *bytes = (const uint8_t *)&memory.work;
    size_t at = 0;
    while (at < sizeof memory.work && bytes[at] == byte)
        at++;
    if (at == sizeof memory.work)
        return;
    printf("%s: byte %u of the work memory is %d, expected %d\n", what, (unsigned)at, bytes[at], byte);
    wrong = 1;
}

/* Garbage before each call, zeros behind it. */
static tengmua_work *garbage(void) {
    memset(&memory.work, 0xA5, sizeof memory.work);
    return &memory.work;
}

static void known_pairs(void) {
    reply_is("two that differ", tengmua_work_plain(garbage(), forwards, LENGTH, turned, LENGTH), TENGMUA_DIFFERS, 1, 0);
    reply_is("plain, alike", tengmua_work_plain(garbage(), forwards, LENGTH, forwards, LENGTH), TENGMUA_EQUAL, 2, 0);
    work_is("plain, alike", 0);
    reply_is("plain", tengmua_work_plain(garbage(), forwards, LENGTH, shorter, LENGTH), TENGMUA_DIFFERS, 1, 1);
    work_is("plain", 0);
    reply_is("plain, of inout", tengmua_work_plain(garbage(), inout, LENGTH, inout, LENGTH), TENGMUA_EQUAL, 0, 0);
    reply_is("programs", tengmua_work_programs(garbage(), forwards, LENGTH, shorter, LENGTH, TENGMUA_ALL), TENGMUA_DIFFERS, 1, 1);
    work_is("programs", 0);
    reply_is("programs, mask 1", tengmua_work_programs(garbage(), forwards, LENGTH, shorter, LENGTH, 1), TENGMUA_EQUAL, 0, 0);
    reply_is("programs, of inout", tengmua_work_programs(garbage(), inout, LENGTH, inout, LENGTH, TENGMUA_ALL), TENGMUA_EQUAL, 2,
             0);
    origin_is("explain left", tengmua_work_explain(garbage(), forwards, LENGTH, shorter, LENGTH, TENGMUA_ALL, TENGMUA_LEFT),
              TENGMUA_WRITTEN, 22, 32);
    work_is("explain left", 0);
    origin_is("explain right", tengmua_work_explain(garbage(), forwards, LENGTH, shorter, LENGTH, TENGMUA_ALL, TENGMUA_RIGHT),
              TENGMUA_STARTING, 0, 0);
    reply_is("lists", tengmua_work_lists(garbage(), left_list, WORDS, right_list, WORDS, TENGMUA_ALL),
             TENGMUA_DIFFERS, 1, 1);
    reply_is("lists, alike", tengmua_work_lists(garbage(), left_list, WORDS, left_list, WORDS, TENGMUA_ALL),
             TENGMUA_EQUAL, 2, 0);
}

/* A program there, as the left and as the right: it lies in the work memory, or does not. */
static void program_at(const char *where, uint8_t *place, int lies_in) {
    size_t kind = lies_in ? TENGMUA_OVERLAP : TENGMUA_DIFFERS, origin = TENGMUA_WRITTEN, one = !lies_in;
    int side;
    if (lies_in)
        origin = TENGMUA_OVERLAP;
    for (side = 0; side < 2; side++) {
        const uint8_t *left = side ? shorter : place, *right = side ? place : shorter;
        tengmua_work *work = garbage();
        memcpy(place, forwards, LENGTH);
        reply_is(where, tengmua_work_plain(work, left, LENGTH, right, LENGTH), kind, one, one);
        reply_is(where, tengmua_work_programs(work, left, LENGTH, right, LENGTH, TENGMUA_ALL), kind, one, one);
        origin_is(where, tengmua_work_explain(work, left, LENGTH, right, LENGTH, TENGMUA_ALL, (size_t)side), origin,
                  lies_in ? 0 : 22, lies_in ? 0 : 32);
        if (memcmp(place, forwards, LENGTH) != 0) {
            printf("%s: the program was changed\n", where);
            wrong = 1;
        }
    }
}

static void list_at(const char *where, uint32_t *place, int lies_in) {
    size_t kind = lies_in ? TENGMUA_OVERLAP : TENGMUA_DIFFERS, one = !lies_in;
    tengmua_work *work = garbage();
    memcpy(place, left_list, sizeof left_list);
    reply_is(where, tengmua_work_lists(work, place, WORDS, right_list, WORDS, TENGMUA_ALL), kind, one, one);
    reply_is(where, tengmua_work_lists(work, right_list, WORDS, place, WORDS, TENGMUA_ALL), kind, one, one);
}

static void overlaps(void) {
    uint8_t *start = (uint8_t *)&memory + sizeof memory.before, *end = start + sizeof memory.work;
    uint32_t *words = (uint32_t *)start, *behind = (uint32_t *)end;
    program_at("a program at the start", start, 1);
    program_at("a program at the end", end - LENGTH, 1);
    program_at("a program within", start + sizeof memory.work / 2, 1);
    program_at("the last byte in the work memory", start + 1 - LENGTH, 1);
    program_at("the first byte in the work memory", end - 1, 1);
    program_at("a program before it", start - LENGTH, 0);
    program_at("a program behind it", end, 0);
    list_at("a list at the start", words, 1);
    list_at("the last word in the work memory", words + 1 - WORDS, 1);
    list_at("the first word in the work memory", behind - 1, 1);
    list_at("a list before it", words - WORDS, 0);
    list_at("a list behind it", behind, 0);
    garbage();
    reply_is("an empty program in it", tengmua_work_plain(&memory.work, start, 0, forwards, LENGTH), TENGMUA_REFUSED,
             TENGMUA_LEFT, 3);
    garbage();
    reply_is("no reply", tengmua_work_plain(&memory.work, start, LENGTH, forwards, LENGTH), TENGMUA_OVERLAP, 0, 0);
    work_is("no reply", 0xA5);
}

/* The file unrolls to the same list; what lies behind it, and all of an output that is too short, stays as it was. */
static void written_list(void) {
    static uint8_t file[TENGMUA_FILE_BYTES];
    static uint32_t again[WORDS];
    memset(file, 0xA5, sizeof file);
    reply_is("write, too short", tengmua_write_file(left_list, WORDS, file, 31), TENGMUA_REFUSED, TENGMUA_LEFT, 29);
    reply_is("write, no list", tengmua_write_file(left_list, WORDS - 1, file, 32), TENGMUA_REFUSED, TENGMUA_BOTH, 25);
    if (file[0] != 0xA5) {
        printf("write: a refusal touched the output\n");
        wrong = 1;
    }
    reply_is("write", tengmua_write_file(left_list, WORDS, file, sizeof file), TENGMUA_EQUAL, 32, 0);
    reply_is("unroll what was written", tengmua_unroll(file, 32, again, WORDS), TENGMUA_EQUAL, 2, 0);
    if (memcmp(again, left_list, sizeof again) != 0 || file[32] != 0xA5) {
        printf("write: the file has another list, or a byte behind it was touched\n");
        wrong = 1;
    }
}

int main(void) {
    (void)sizeof(work_bytes);
    memcpy(turned, forwards, LENGTH);
    turned[29] = 1;
    turned[31] = 0xFF;
    memcpy(shorter, forwards, LENGTH);
    shorter[18] = 0;
    memcpy(inout, forwards, LENGTH);
    inout[11] = 2;
    reply_is("unroll", tengmua_unroll(forwards, LENGTH, left_list, WORDS), TENGMUA_EQUAL, 2, 0);
    reply_is("unroll", tengmua_unroll(shorter, LENGTH, right_list, WORDS), TENGMUA_EQUAL, 1, 0);
    known_pairs();
    overlaps();
    written_list();
    return wrong;
}
