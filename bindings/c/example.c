/* example [--all] [--explain] LEFT RIGHT: compares two program files in their out arrays and prints the line, as `tengmua` does; with
 * --all in their inout arrays too. The exit status is the reply's kind. With --explain a difference has a line for each side more: the
 * bytes of the statement that wrote the element last and the index values, or that the element has its starting content.
 *
 * example --straight FILE OUT: writes the program without loops and guards that has the same updates to the file OUT. Where it is
 * refused the line is the reply's, and no file is written. */
#include <stdio.h>
#include <string.h>

#include "tengmua.h"

/* One byte more than the longest program has: so a longer one is seen to be too long (question 2). */
#define MOST 16385

static uint8_t left[MOST], right[MOST];
static tengmua_work work;

/* Reads a file, up to MOST bytes; -1 if it can't be read. */
static long read_file(const char *name, uint8_t *bytes) {
    FILE *file = fopen(name, "rb");
    if (!file) {
        perror(name);
        return -1;
    }
    size_t length = fread(bytes, 1, MOST, file);
    int failed = ferror(file);
    fclose(file);
    return failed ? -1 : (long)length;
}

static void print_reply(tengmua_reply reply) {
    static const char *const sides[] = {"left", "right", "both", "input"};
    switch (reply.kind) {
    case TENGMUA_EQUAL:
        printf("equal %zu\n", reply.first);
        break;
    case TENGMUA_DIFFERS:
        printf("differs %zu %zu\n", reply.first, reply.second);
        break;
    case TENGMUA_REFUSED:
        printf("refused %s %zu %zu\n", sides[reply.first], reply.second, reply.third);
        break;
    default:
        fprintf(stderr, "no reply: a program lies in the work memory\n");
    }
}

static void print_explanation(const char *side, tengmua_explanation explanation) {
    if (explanation.kind == TENGMUA_STARTING) {
        printf("%s starting content\n", side);
        return;
    }
    printf("%s written %zu %zu", side, explanation.from, explanation.to);
    for (size_t loop = 0; loop < explanation.count; loop++)
        printf(" %d", explanation.indices[loop]);
    printf("\n");
}

static tengmua_reply compare(int all, size_t left_length, size_t right_length) {
    if (all)
        return tengmua_work_programs(&work, left, left_length, right, right_length, TENGMUA_ALL);
    return tengmua_work_plain(&work, left, left_length, right, right_length);
}

/* Both sides of a difference. The mask of its array alone names the same element, whichever comparison found it. */
static void explain(size_t array, size_t left_length, size_t right_length) {
    uint16_t mask = (uint16_t)(1 << array);
    for (size_t side = TENGMUA_LEFT; side <= TENGMUA_RIGHT; side++)
        print_explanation(side == TENGMUA_LEFT ? "left" : "right",
                          tengmua_work_explain(&work, left, left_length, right, right_length, mask, side));
}

/* All of the file, or none that is left. */
static int write_bytes(const char *name, const uint8_t *bytes, size_t length) {
    FILE *file = fopen(name, "wb");
    if (!file) {
        perror(name);
        return 3;
    }
    int written = fwrite(bytes, 1, length, file) == length;
    if (fclose(file) == 0 && written)
        return 0;
    perror(name);
    remove(name);
    return 3;
}

static int straight(const char *from, const char *to) {
    long length = read_file(from, left);
    if (length < 0)
        return 3;
    tengmua_reply reply = tengmua_unroll(left, (size_t)length, work.left_list, TENGMUA_LIST_WORDS);
    if (reply.kind == TENGMUA_EQUAL)
        reply = tengmua_write_file(work.left_list, TENGMUA_LIST_WORDS, right, TENGMUA_FILE_BYTES);
    if (reply.kind == TENGMUA_EQUAL)
        return write_bytes(to, right, reply.first);
    print_reply(reply);
    return (int)reply.kind;
}

int main(int count, char **words) {
    if (count == 4 && strcmp(words[1], "--straight") == 0)
        return straight(words[2], words[3]);
    int all = 0, explained = 0, known = count >= 3;
    for (int word = 1; word < count - 2; word++)
        if (strcmp(words[word], "--all") == 0)
            all = 1;
        else if (strcmp(words[word], "--explain") == 0)
            explained = 1;
        else
            known = 0;
    if (!known) {
        fprintf(stderr, "usage: example [--all] [--explain] LEFT RIGHT\n       example --straight FILE OUT\n");
        return 3;
    }
    long left_length = read_file(words[count - 2], left);
    long right_length = read_file(words[count - 1], right);
    if (left_length < 0 || right_length < 0)
        return 3;
    tengmua_reply reply = compare(all, (size_t)left_length, (size_t)right_length);
    print_reply(reply);
    if (explained && reply.kind == TENGMUA_DIFFERS)
        explain(reply.first, (size_t)left_length, (size_t)right_length);
    return (int)reply.kind;
}
