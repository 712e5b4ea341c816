/* fuzz COUNT SEED: so many calls of each entry with random bytes and words, and half as many of each function over tengmua_work,
 * beside the separately written checker (libtwin.a).
 *
 * Build with -fsanitize=address. The library itself is not built so: therefore each slice either stands in memory of its own from
 * malloc, where the sanitizer sees what memcpy and memset touch, or against a page that can't be touched, before it or behind
 * it. Work memory holds garbage first. The replies and all memory afterwards must be the same on both sides. */
#include <stdio.h>
#include <stdlib.h>
#include <string.h>
#include <sys/mman.h>
#include <unistd.h>

#include "tengmua.h"

/* The separately written checker (bindings/twin). */
tengmua_reply twin_compare_programs(const uint8_t *, size_t, const uint8_t *, size_t, uint16_t, uint32_t *, size_t,
                                    uint32_t *, size_t, uint32_t *, size_t, uint32_t *, size_t);
tengmua_reply twin_compare_plain(const uint8_t *, size_t, const uint8_t *, size_t, uint32_t *, size_t, uint32_t *, size_t,
                                 uint32_t *, size_t, uint32_t *, size_t);
tengmua_reply twin_compare_lists(const uint32_t *, size_t, const uint32_t *, size_t, uint16_t, uint32_t *, size_t,
                                 uint32_t *, size_t);
tengmua_reply twin_unroll(const uint8_t *, size_t, uint32_t *, size_t);
tengmua_reply twin_check_list(const uint32_t *, size_t);
tengmua_reply twin_write_file(const uint32_t *, size_t, uint8_t *, size_t);
tengmua_explanation twin_explain(const uint8_t *, size_t, const uint8_t *, size_t, uint16_t, size_t, uint32_t *, size_t,
                                 uint32_t *, size_t, uint32_t *, size_t, uint32_t *, size_t);
void twin_seed(uint64_t seed);
void twin_programs(uint8_t *left, uint8_t *right, size_t room, size_t *lengths);
void twin_differing(uint8_t *left, uint8_t *right, size_t room, size_t *lengths);
void twin_lists(uint32_t *left, uint32_t *right, size_t room, size_t *lengths);
void twin_written(uint32_t *list, size_t words, uint8_t *out, size_t bytes, size_t *lengths);

#define MOST_BYTES 20000
#define MOST_WORDS 36000

static uint64_t state;

static uint64_t draw(void) {
    uint64_t bits = state += 0x9E3779B97F4A7C15u;
    bits = (bits ^ bits >> 30) * 0xBF58476D1CE4E5B9u;
    bits = (bits ^ bits >> 27) * 0x94D049BB133111EBu;
    return bits ^ bits >> 31;
}

static size_t below(size_t count) { return (size_t)(draw() % count); }

/* A slice, and the memory it stands in. */
typedef struct {
    void *data;
    size_t bytes;
    void *pages;
    size_t mapped;
} slice;

static void must(int yes, const char *what) {
    if (!yes) {
        printf("%s\n", what);
        exit(1);
    }
}

/* Between two pages that can't be touched, flush with the one behind it or, by chance, with the one before it. */
static slice guarded(size_t bytes) {
    size_t page = (size_t)sysconf(_SC_PAGESIZE);
    size_t inner = (bytes + page - 1) / page * page;
    slice s = {NULL, bytes, NULL, inner + 2 * page};
    s.pages = mmap(NULL, s.mapped, PROT_NONE, MAP_PRIVATE | MAP_ANONYMOUS, -1, 0);
    must(s.pages != MAP_FAILED, "mmap failed");
    char *start = (char *)s.pages + page;
    if (inner)
        must(mprotect(start, inner, PROT_READ | PROT_WRITE) == 0, "mprotect failed");
    s.data = start + (below(2) ? inner - bytes : 0);
    return s;
}

static slice lend(size_t bytes) {
    if (below(2))
        return guarded(bytes);
    slice s = {malloc(bytes), bytes, NULL, 0};
    must(s.data != NULL, "malloc failed");
    return s;
}

static slice copied(const void *from, size_t bytes) {
    slice s = lend(bytes);
    memcpy(s.data, from, bytes);
    return s;
}

static void give_back(slice s) {
    if (s.mapped)
        munmap(s.pages, s.mapped);
    else
        free(s.data);
}

/* Work memory of garbage, for both checkers alike. Lengths around the least, rarely far below. */
typedef struct {
    slice ours, theirs;
    size_t words;
} twins;

static size_t around(size_t least) {
    switch (below(40)) {
    case 0:
        return below(least);
    case 1:
        return least - 1;
    case 2:
    case 3:
        return least + below(500);
    default:
        return least;
    }
}

static twins garbage(size_t least) {
    twins t;
    t.words = around(least);
    t.ours = lend(4 * t.words);
    for (size_t i = 0; i < t.words; i++)
        ((uint32_t *)t.ours.data)[i] = (uint32_t)draw();
    t.theirs = copied(t.ours.data, 4 * t.words);
    return t;
}

/* What both left; gives the memory back. */
static int alike(twins t) {
    int same = memcmp(t.ours.data, t.theirs.data, 4 * t.words) == 0;
    give_back(t.ours);
    give_back(t.theirs);
    return same;
}

static int same_reply(tengmua_reply one, tengmua_reply other) {
    return one.kind == other.kind && one.first == other.first && one.second == other.second && one.third == other.third;
}

/* The last four go through tengmua_work. */
enum entry { PROGRAMS, PLAIN, LISTS, UNROLL, CHECK, WRITE, EXPLAIN, WORK_PROGRAMS, WORK_PLAIN, WORK_LISTS, WORK_EXPLAIN, ENTRIES };

static const char *const names[] = {"compare_programs", "compare_plain", "compare_lists", "unroll",     "check_list",  "write_file",
                                    "explain",          "work_programs", "work_plain",    "work_lists", "work_explain"};

/* How often each kind of reply came, for the report: a run that only refuses shows. */
static size_t kinds[ENTRIES][3];

static void note(enum entry entry, tengmua_reply ours, tengmua_reply theirs, int memory, size_t number) {
    if (!same_reply(ours, theirs) || !memory) {
        printf("%s, call %zu: ours %zu %zu %zu %zu, separate %zu %zu %zu %zu, memory %s\n", names[entry], number, ours.kind,
               ours.first, ours.second, ours.third, theirs.kind, theirs.first, theirs.second, theirs.third,
               memory ? "alike" : "not alike");
        exit(1);
    }
    must(ours.kind < 3, "no such kind");
    kinds[entry][ours.kind]++;
}

static int same_explanation(const tengmua_explanation *one, const tengmua_explanation *other) {
    return one->kind == other->kind && one->side == other->side && one->question == other->question &&
           one->place == other->place && one->array == other->array && one->cell == other->cell && one->from == other->from &&
           one->to == other->to && one->count == other->count &&
           memcmp(one->indices, other->indices, sizeof one->indices) == 0;
}

static void print_explanation(const char *who, const tengmua_explanation *e) {
    printf("%s %zu, refusal %zu %zu %zu, element %zu %zu, bytes %zu %zu, %zu indices", who, e->kind, e->side, e->question,
           e->place, e->array, e->cell, e->from, e->to, e->count);
    for (int loop = 0; loop < TENGMUA_LOOPS; loop++)
        printf(" %d", e->indices[loop]);
    printf("\n");
}

static void note_explanation(enum entry entry, tengmua_explanation ours, tengmua_explanation theirs, int memory, size_t number) {
    if (!same_explanation(&ours, &theirs) || !memory) {
        printf("%s, call %zu, memory %s:\n", names[entry], number, memory ? "alike" : "not alike");
        print_explanation("ours", &ours);
        print_explanation("separate", &theirs);
        exit(1);
    }
    must(ours.kind < 3, "no such kind");
    kinds[entry][ours.kind]++;
}

static uint8_t left_bytes[MOST_BYTES], right_bytes[MOST_BYTES];
static uint32_t left_words[MOST_WORDS], right_words[MOST_WORDS];
static size_t lengths[2];

#define MARKED 0x82 /* an operator of two arguments that may swap */

static uint8_t small_byte(void) { return (uint8_t)(below(4) ? below(20) : below(4) ? draw() : MARKED); }

/* Four ways: random bytes; such behind ALP and a version; two programs of the source with a few bytes changed, or as they
 * are. */
static void make_programs_from(void (*source)(uint8_t *, uint8_t *, size_t, size_t *), size_t way) {
    if (way >= 2) {
        source(left_bytes, right_bytes, MOST_BYTES, lengths);
        for (size_t k = way == 2 ? below(6) : 0; k > 0; k--) {
            uint8_t *bytes = below(2) ? left_bytes : right_bytes;
            size_t length = lengths[bytes == right_bytes];
            if (length)
                bytes[below(length)] = small_byte();
        }
        return;
    }
    for (int side = 0; side < 2; side++) {
        uint8_t *bytes = side ? right_bytes : left_bytes;
        lengths[side] = below(below(8) ? 200 : MOST_BYTES);
        for (size_t i = 0; i < lengths[side]; i++)
            bytes[i] = way ? small_byte() : (uint8_t)draw();
        if (way && lengths[side] >= 5)
            memcpy(bytes, below(2) ? "ALP\1" : "ALP\2", 5);
    }
}

static void make_programs(void) { make_programs_from(twin_programs, below(4)); }

static uint32_t small_word(void) { return (uint32_t)(below(4) ? below(24) : below(4) ? draw() : MARKED); }

/* Random words, all or few of them; or two lists, often with a few words changed. The lengths are those of the slices. */
static void make_lists(void) {
    memset(left_words, 0, sizeof left_words);
    memset(right_words, 0, sizeof right_words);
    size_t way = below(4);
    if (way >= 2)
        twin_lists(left_words, right_words, MOST_WORDS, lengths);
    for (int side = 0; side < 2; side++) {
        uint32_t *words = side ? right_words : left_words;
        size_t used = way >= 2 ? lengths[side] : below(below(4) ? 400 : MOST_WORDS);
        size_t changes = way == 3 ? 0 : way == 2 ? below(4) : used;
        for (size_t k = 0; k < changes; k++)
            words[way == 2 ? below(used + 8) : k] = way ? small_word() : (uint32_t)draw();
        lengths[side] = around(TENGMUA_LIST_WORDS);
    }
}

static uint16_t any_mask(void) { return (uint16_t)(below(2) ? TENGMUA_ALL : draw()); }

static void call_programs(size_t number) {
    make_programs();
    slice left = copied(left_bytes, lengths[0]), right = copied(right_bytes, lengths[1]);
    twins a = garbage(TENGMUA_LIST_WORDS), b = garbage(TENGMUA_LIST_WORDS), c = garbage(TENGMUA_CELL_WORDS),
          d = garbage(TENGMUA_TERM_WORDS);
    uint16_t mask = any_mask();
    tengmua_reply ours =
        tengmua_compare_programs(left.data, left.bytes, right.data, right.bytes, mask, a.ours.data, a.words,
                                 b.ours.data, b.words, c.ours.data, c.words, d.ours.data, d.words);
    tengmua_reply theirs =
        twin_compare_programs(left.data, left.bytes, right.data, right.bytes, mask, a.theirs.data, a.words,
                              b.theirs.data, b.words, c.theirs.data, c.words, d.theirs.data, d.words);
    int memory = alike(a) & alike(b) & alike(c) & alike(d);
    give_back(left);
    give_back(right);
    note(PROGRAMS, ours, theirs, memory, number);
}

/* Half of the pairs mostly differ, in out or in inout arrays. */
static void call_plain(size_t number) {
    make_programs_from(below(2) ? twin_differing : twin_programs, below(3) ? 3 : below(4));
    slice left = copied(left_bytes, lengths[0]), right = copied(right_bytes, lengths[1]);
    twins a = garbage(TENGMUA_LIST_WORDS), b = garbage(TENGMUA_LIST_WORDS), c = garbage(TENGMUA_CELL_WORDS),
          d = garbage(TENGMUA_TERM_WORDS);
    tengmua_reply ours = tengmua_compare_plain(left.data, left.bytes, right.data, right.bytes, a.ours.data, a.words,
                                               b.ours.data, b.words, c.ours.data, c.words, d.ours.data, d.words);
    tengmua_reply theirs = twin_compare_plain(left.data, left.bytes, right.data, right.bytes, a.theirs.data, a.words,
                                              b.theirs.data, b.words, c.theirs.data, c.words, d.theirs.data, d.words);
    int memory = alike(a) & alike(b) & alike(c) & alike(d);
    give_back(left);
    give_back(right);
    note(PLAIN, ours, theirs, memory, number);
}

static void call_lists(size_t number) {
    make_lists();
    slice left = copied(left_words, 4 * lengths[0]), right = copied(right_words, 4 * lengths[1]);
    twins c = garbage(TENGMUA_CELL_WORDS), d = garbage(TENGMUA_TERM_WORDS);
    uint16_t mask = any_mask();
    tengmua_reply ours = tengmua_compare_lists(left.data, lengths[0], right.data, lengths[1], mask, c.ours.data, c.words,
                                               d.ours.data, d.words);
    tengmua_reply theirs = twin_compare_lists(left.data, lengths[0], right.data, lengths[1], mask, c.theirs.data, c.words,
                                              d.theirs.data, d.words);
    int memory = alike(c) & alike(d);
    give_back(left);
    give_back(right);
    note(LISTS, ours, theirs, memory, number);
}

static void call_unroll(size_t number) {
    make_programs();
    slice program = copied(left_bytes, lengths[0]);
    twins list = garbage(TENGMUA_LIST_WORDS);
    tengmua_reply ours = tengmua_unroll(program.data, program.bytes, list.ours.data, list.words);
    tengmua_reply theirs = twin_unroll(program.data, program.bytes, list.theirs.data, list.words);
    int memory = alike(list);
    give_back(program);
    note(UNROLL, ours, theirs, memory, number);
}

static void call_check(size_t number) {
    make_lists();
    slice list = copied(left_words, 4 * lengths[0]);
    tengmua_reply ours = tengmua_check_list(list.data, lengths[0]);
    tengmua_reply theirs = twin_check_list(list.data, lengths[0]);
    int memory = memcmp(list.data, left_words, 4 * lengths[0]) == 0;
    give_back(list);
    note(CHECK, ours, theirs, memory, number);
}

/* A list and an output: two ways of three a random list with an output of its file's length, of one byte less or of another;
 * otherwise words and lengths of any kind. */
static void make_output(void) {
    if (below(3)) {
        twin_written(left_words, MOST_WORDS, left_bytes, MOST_BYTES, lengths);
        return;
    }
    make_lists();
    lengths[1] = below(below(2) ? 300 : MOST_BYTES);
    for (size_t i = 0; i < lengths[1]; i++)
        left_bytes[i] = (uint8_t)draw();
}

static void call_write(size_t number) {
    make_output();
    slice list = copied(left_words, 4 * lengths[0]), out = copied(left_bytes, lengths[1]), other = copied(left_bytes, lengths[1]);
    tengmua_reply ours = tengmua_write_file(list.data, lengths[0], out.data, out.bytes);
    tengmua_reply theirs = twin_write_file(list.data, lengths[0], other.data, other.bytes);
    int memory = memcmp(out.data, other.data, out.bytes) == 0 && memcmp(list.data, left_words, list.bytes) == 0;
    give_back(list);
    give_back(out);
    give_back(other);
    note(WRITE, ours, theirs, memory, number);
}

static void call_explain(size_t number) {
    make_programs_from(twin_differing, below(3) ? 3 : below(4));
    slice left = copied(left_bytes, lengths[0]), right = copied(right_bytes, lengths[1]);
    twins a = garbage(TENGMUA_LIST_WORDS), b = garbage(TENGMUA_LIST_WORDS), c = garbage(TENGMUA_CELL_WORDS),
          d = garbage(TENGMUA_TERM_WORDS);
    uint16_t mask = any_mask();
    size_t side = below(8) ? below(2) : (size_t)draw(); /* any number but 0 is right */
    tengmua_explanation ours =
        tengmua_explain(left.data, left.bytes, right.data, right.bytes, mask, side, a.ours.data, a.words, b.ours.data,
                        b.words, c.ours.data, c.words, d.ours.data, d.words);
    tengmua_explanation theirs =
        twin_explain(left.data, left.bytes, right.data, right.bytes, mask, side, a.theirs.data, a.words, b.theirs.data,
                     b.words, c.theirs.data, c.words, d.theirs.data, d.words);
    int memory = alike(a) & alike(b) & alike(c) & alike(d);
    give_back(left);
    give_back(right);
    note_explanation(EXPLAIN, ours, theirs, memory, number);
}

/* Work memory in one piece, with garbage; the other checker's has the same. */
static tengmua_work others;

static slice garbage_work(void) {
    slice s = lend(sizeof others);
    for (size_t i = 0; i < s.bytes / 4; i++)
        ((uint32_t *)s.data)[i] = (uint32_t)draw();
    memcpy(&others, s.data, s.bytes);
    return s;
}

static int work_alike(slice s) {
    int same = memcmp(s.data, &others, s.bytes) == 0;
    give_back(s);
    return same;
}

static void call_work_lists(size_t number) {
    make_lists();
    slice left = copied(left_words, 4 * lengths[0]), right = copied(right_words, 4 * lengths[1]), work = garbage_work();
    uint16_t mask = any_mask();
    tengmua_reply ours = tengmua_work_lists(work.data, left.data, lengths[0], right.data, lengths[1], mask);
    tengmua_reply theirs = twin_compare_lists(left.data, lengths[0], right.data, lengths[1], mask, others.cells,
                                              TENGMUA_CELL_WORDS, others.terms, TENGMUA_TERM_WORDS);
    int memory = work_alike(work);
    give_back(left);
    give_back(right);
    note(WORK_LISTS, ours, theirs, memory, number);
}

/* Half of the pairs mostly differ. */
static void call_work_programs(enum entry entry, size_t number) {
    make_programs_from(below(2) ? twin_differing : twin_programs, below(3) ? 3 : below(4));
    slice left = copied(left_bytes, lengths[0]), right = copied(right_bytes, lengths[1]), work = garbage_work();
    uint16_t mask = any_mask();
    tengmua_reply ours, theirs;
    if (entry == WORK_PLAIN) {
        ours = tengmua_work_plain(work.data, left.data, left.bytes, right.data, right.bytes);
        theirs = twin_compare_plain(left.data, left.bytes, right.data, right.bytes, others.left_list, TENGMUA_LIST_WORDS,
                                    others.right_list, TENGMUA_LIST_WORDS, others.cells, TENGMUA_CELL_WORDS, others.terms,
                                    TENGMUA_TERM_WORDS);
    } else {
        ours = tengmua_work_programs(work.data, left.data, left.bytes, right.data, right.bytes, mask);
        theirs = twin_compare_programs(left.data, left.bytes, right.data, right.bytes, mask, others.left_list,
                                       TENGMUA_LIST_WORDS, others.right_list, TENGMUA_LIST_WORDS, others.cells,
                                       TENGMUA_CELL_WORDS, others.terms, TENGMUA_TERM_WORDS);
    }
    int memory = work_alike(work);
    give_back(left);
    give_back(right);
    note(entry, ours, theirs, memory, number);
}

static void call_work_explain(size_t number) {
    make_programs_from(twin_differing, below(3) ? 3 : below(4));
    slice left = copied(left_bytes, lengths[0]), right = copied(right_bytes, lengths[1]), work = garbage_work();
    uint16_t mask = any_mask();
    size_t side = below(2);
    tengmua_explanation ours =
        tengmua_work_explain(work.data, left.data, left.bytes, right.data, right.bytes, mask, side);
    tengmua_explanation theirs =
        twin_explain(left.data, left.bytes, right.data, right.bytes, mask, side, others.left_list, TENGMUA_LIST_WORDS,
                     others.right_list, TENGMUA_LIST_WORDS, others.cells, TENGMUA_CELL_WORDS, others.terms,
                     TENGMUA_TERM_WORDS);
    int memory = work_alike(work);
    give_back(left);
    give_back(right);
    note_explanation(WORK_EXPLAIN, ours, theirs, memory, number);
}

static void call_work(size_t number) {
    call_work_programs(WORK_PROGRAMS, number);
    call_work_programs(WORK_PLAIN, number);
    call_work_lists(number);
    call_work_explain(number);
}

int main(int count, char **words) {
    if (count != 3) {
        fprintf(stderr, "usage: fuzz COUNT SEED\n");
        return 2;
    }
    size_t calls = strtoull(words[1], NULL, 10);
    uint64_t seed = strtoull(words[2], NULL, 10);
    state = seed;
    twin_seed(seed);
    for (size_t k = 0; k < calls; k++) {
        call_programs(k);
        call_plain(k);
        call_lists(k);
        call_unroll(k);
        call_check(k);
        call_write(k);
        call_explain(k);
        if (k % 2 == 0)
            call_work(k);
    }
    printf("fuzz %zu, seed %llu: the same replies and memory (equal, differs, refused; of explanations written, starting content, "
           "refused:",
           calls, (unsigned long long)seed);
    for (int entry = 0; entry < ENTRIES; entry++)
        printf(" %s %zu %zu %zu%s", names[entry], kinds[entry][0], kinds[entry][1], kinds[entry][2],
               entry + 1 < ENTRIES ? "," : ")\n");
    return 0;
}
