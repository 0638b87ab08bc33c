/* Times the library's calls against careful C of the same rules (careful.c), both in this process and in turn, and compares
   their answers and what they write while it does.

   bench            prints the table of ratios; status 1 where an answer differs
   bench --answers  makes the calls for their answers alone, also on files with changed bytes, and counts: 'N passed, M
                    failed' is its last line */
#include "careful.h"

#include <stdio.h>
#include <stdlib.h>
#include <string.h>
#include <time.h>

/* The most bytes of a file and of the data of one entry, and the most sections. */
enum { FILE_BYTES = 1 << 24, DATA_BYTES = 1 << 20, SECTIONS_MAX = 64 };

/* The runs of each side, of which the median is taken; the least nanoseconds of one; and the changes made to each file. */
enum { RUNS = 63, RUN_NS = 300000, CHANGES = 400 };

/* A file: its settings, the bytes lent, its entries, and the sections and words of data of each. */
typedef struct {
    const char *name;
    int32_t reclen, lind, lex1, gex;
    size_t bytes, entries, sections, data_words;
} shape;

/* The calls. */
typedef enum { VALIDATE, EXTENSION, OPEN, INDEX_WORDS, SECTION, DATA, CHECK, APPEND, CALLS } call;

static const char *const call_names[CALLS] = {"validate", "extension", "open",        "index words",
                                              "section",  "data",      "order check", "append"};

/* An answer of any of them. */
typedef union {
    classic_descriptor descriptor;
    classic_extension extension;
    classic_entry entry;
    classic_part part;
    classic_checked checked;
    classic_appended appended;
} answer;

/* What is timed: the library, or the careful C, on a file of an order. */
typedef struct {
    int careful;
    int32_t order;
} side;

/* What a call took on two sides: the ratio, and the nanoseconds of each. */
typedef struct {
    double ratio, ns[2];
} timing;

/* The files that are read, by their order; one for each of two sides to append to; and what is handed to an append. */
static uint8_t files[2][FILE_BYTES], written[2][FILE_BYTES];
static uint8_t index_words[4 * 256], content[DATA_BYTES];
static int32_t ids[SECTIONS_MAX];
static int64_t lengths[SECTIONS_MAX];

static long compared, differing;

static void stop(const char *fault) {
    fprintf(stderr, "bench: %s\n", fault);
    exit(2);
}

/* ---- the calls of both sides */

static classic_appended append_by(int careful, const shape *s, uint8_t *to) {
    size_t index_bytes = 4 * ((size_t)s->lind - 3), section_bytes = 4 * s->sections, data_bytes = 4 * s->data_words;
    return careful ? careful_append(to, s->bytes, 7, index_words, index_bytes, ids, s->sections, lengths, s->sections,
                                    content, section_bytes, content, data_bytes)
                   : classic_append(to, s->bytes, 7, index_words, index_bytes, ids, s->sections, lengths, s->sections,
                                    content, section_bytes, content, data_bytes);
}

/* Ends a case: the answer is that of a call, made where it stays, and is handed on where it is asked for. */
#define ANSWER(type, field, made) \
    { \
        type given = made; \
        if (a != NULL) a->field = given; \
        break; \
    }

/* Makes a call of the library on a file, or an append to one: of an entry or an extension by its number, of the section that
   stands last. The answer stands so many bytes above the variables of the call. */
static void by_library(call c, const shape *s, const uint8_t *file, uint8_t *to, uint64_t number, size_t above, answer *a) {
    volatile uint8_t between[above];
    between[0] = 0, (void)between;
    switch (c) {
    case VALIDATE: ANSWER(classic_descriptor, descriptor, classic_validate(file, s->bytes))
    case EXTENSION: ANSWER(classic_extension, extension, classic_extension_of(file, s->bytes, number))
    case OPEN: ANSWER(classic_entry, entry, classic_open(file, s->bytes, number))
    case INDEX_WORDS: ANSWER(classic_part, part, classic_index_words(file, s->bytes, number))
    case SECTION: ANSWER(classic_part, part, classic_section(file, s->bytes, number, (int32_t)s->sections))
    case DATA: ANSWER(classic_part, part, classic_data(file, s->bytes, number))
    case CHECK: ANSWER(classic_checked, checked, classic_check(file, s->bytes))
    default: ANSWER(classic_appended, appended, append_by(0, s, to))
    }
}

/* Makes the same call in C. */
static void by_careful(call c, const shape *s, const uint8_t *file, uint8_t *to, uint64_t number, size_t above, answer *a) {
    volatile uint8_t between[above];
    between[0] = 0, (void)between;
    switch (c) {
    case VALIDATE: ANSWER(classic_descriptor, descriptor, careful_validate(file, s->bytes))
    case EXTENSION: ANSWER(classic_extension, extension, careful_extension_of(file, s->bytes, number))
    case OPEN: ANSWER(classic_entry, entry, careful_open(file, s->bytes, number))
    case INDEX_WORDS: ANSWER(classic_part, part, careful_index_words(file, s->bytes, number))
    case SECTION: ANSWER(classic_part, part, careful_section(file, s->bytes, number, (int32_t)s->sections))
    case DATA: ANSWER(classic_part, part, careful_data(file, s->bytes, number))
    case CHECK: ANSWER(classic_checked, checked, careful_check(file, s->bytes))
    default: ANSWER(classic_appended, appended, append_by(1, s, to))
    }
}

/* ---- comparing */

static int same_descriptor(const classic_descriptor *a, const classic_descriptor *b) {
    return a->refusal == b->refusal && a->order == b->order && a->reclen == b->reclen && a->kind == b->kind &&
           a->vind == b->vind && a->lind == b->lind && a->flags == b->flags && a->xnext == b->xnext &&
           a->nextrec == b->nextrec && a->nextword == b->nextword && a->lex1 == b->lex1 && a->nex == b->nex &&
           a->gex == b->gex && memcmp(a->aex, b->aex, sizeof a->aex) == 0;
}

static int same_extension(const classic_extension *a, const classic_extension *b) {
    return a->refusal == b->refusal && a->capacity == b->capacity && a->first == b->first && a->records == b->records;
}

static int same_entry(const classic_entry *a, const classic_entry *b) {
    return a->refusal == b->refusal && a->record == b->record && a->word == b->word && a->version == b->version &&
           a->nsec == b->nsec && a->nword == b->nword && a->adata == b->adata && a->ldata == b->ldata &&
           memcmp(a->ids, b->ids, sizeof a->ids) == 0 && memcmp(a->lengths, b->lengths, sizeof a->lengths) == 0 &&
           memcmp(a->addresses, b->addresses, sizeof a->addresses) == 0;
}

static int same_answer(call c, const answer *a, const answer *b) {
    switch (c) {
    case VALIDATE: return same_descriptor(&a->descriptor, &b->descriptor);
    case EXTENSION: return same_extension(&a->extension, &b->extension);
    case OPEN: return same_entry(&a->entry, &b->entry);
    case CHECK: return a->checked.refusal == b->checked.refusal && a->checked.entry == b->checked.entry;
    case APPEND: return a->appended.refusal == b->appended.refusal && a->appended.number == b->appended.number;
    default: return a->part.refusal == b->part.refusal && a->part.start == b->part.start && a->part.length == b->part.length;
    }
}

/* Makes a call by the library and by the C and compares what they answer, and the two files after an append. */
static void compare(call c, const shape *s, int32_t order, uint64_t number) {
    static answer a, b;
    int same;
    if (c == APPEND) memcpy(written[0], files[order], s->bytes), memcpy(written[1], files[order], s->bytes);
    by_library(c, s, files[order], written[0], number, 1, &a);
    by_careful(c, s, files[order], written[1], number, 1, &b);
    same = same_answer(c, &a, &b) && (c != APPEND || memcmp(written[0], written[1], s->bytes) == 0);
    compared++;
    if (!same && ++differing <= 10) printf("DIFFERS %s of %llu, %s\n", call_names[c], (unsigned long long)number, s->name);
}

/* ---- files */

/* Makes a file of a shape in an order. */
static void make(const shape *s, int32_t order) {
    uint8_t *file = files[order];
    classic_settings settings = {order, s->reclen, 1, 2, s->lind, 0, s->lex1, s->gex};
    memset(file, 0, s->bytes);
    for (size_t i = 0; i < SECTIONS_MAX; i++) ids[i] = (int32_t)i + 1, lengths[i] = 1;
    if (classic_create(file, s->bytes, settings) != 0) stop("a file is not created");
    for (size_t i = 0; i < s->entries; i++) {
        if (append_by(0, s, file).refusal != 0) stop("an entry is not appended");
    }
}

/* ---- timing */

static double now(void) {
    struct timespec t;
    clock_gettime(CLOCK_MONOTONIC, &t);
    return 1e9 * (double)t.tv_sec + (double)t.tv_nsec;
}

static int by_size(const void *a, const void *b) {
    double x = *(const double *)a, y = *(const double *)b;
    return (x > y) - (x < y);
}

static double median(double *numbers, size_t count) {
    qsort(numbers, count, sizeof *numbers, by_size);
    return numbers[count / 2];
}

/* The nanoseconds of so many calls of a side, in a run. Before an append the counts of its file are put back, so that it is
   made again. Each run has its answers at another place of a page: where an answer lies at the place of the table that it is
   copied from, the copy takes longer. */
static double time_of(side w, call c, const shape *s, uint8_t *to, uint64_t number, size_t times, int run) {
    const uint8_t *file = files[w.order];
    size_t above = 64 * ((size_t)run + 1);
    double began = now();
    for (size_t i = 0; i < times; i++) {
        if (c == APPEND) memcpy(to + 24, file + 24, 20);
        if (w.careful) by_careful(c, s, file, to, number, above, NULL);
        else by_library(c, s, file, to, number, above, NULL);
    }
    return now() - began;
}

/* Times a call on two sides, in turn. */
static timing timed(side one, side other, call c, const shape *s, uint64_t number) {
    static double ratios[RUNS], times_of[2][RUNS];
    const side sides[2] = {one, other};
    timing t;
    size_t times = 1;
    for (int k = 0; k < 2 && c == APPEND; k++) memcpy(written[k], files[sides[k].order], s->bytes);
    while (time_of(other, c, s, written[1], number, times, 0) < RUN_NS) times *= 2;
    for (int i = 0; i < RUNS; i++) {
        for (int k = 0; k < 2; k++) {
            int which = (i + k) % 2;
            times_of[which][i] = time_of(sides[which], c, s, written[which], number, times, i);
        }
        ratios[i] = times_of[0][i] / times_of[1][i];
    }
    t.ratio = median(ratios, RUNS);
    for (int k = 0; k < 2; k++) t.ns[k] = median(times_of[k], RUNS) / (double)times;
    return t;
}

/* Times the library against the C, on a file of an order, and compares their answers. */
static timing against_careful(call c, const shape *s, int32_t order, uint64_t number) {
    compare(c, s, order, number);
    return timed((side){0, order}, (side){1, order}, c, s, number);
}

/* ---- the table */

/* The files of the table. */
static const shape shapes[] = {
    {"no sections, nex 16", 512, 8, 4, 13, 1 << 20, 800, 0, 4},
    {"8 sections", 512, 8, 64, 20, 1 << 20, 300, 8, 4},
    {"64 sections", 512, 8, 64, 20, 1 << 20, 300, 64, 4},
};

enum { SHAPES = sizeof shapes / sizeof shapes[0] };

/* The number that a call is asked for: the last entry, or the last extension. */
static uint64_t last_of(call c, const shape *s) {
    return c == EXTENSION ? classic_validate(files[CLASSIC_LITTLE], s->bytes).nex : s->entries;
}

static void print_table(void) {
    double turned = 0;
    printf("%-14s", "");
    for (int i = 0; i < SHAPES; i++) printf("  %-19s", shapes[i].name);
    printf("\n%-14s", "");
    for (int i = 0; i < SHAPES; i++) printf("  %-9s %-9s", "little", "big");
    printf("\n");
    for (call c = VALIDATE; c < CALLS; c++) {
        printf("%-14s", call_names[c]);
        for (int i = 0; i < SHAPES; i++) {
            const shape *s = &shapes[i];
            timing orders;
            make(s, CLASSIC_LITTLE), make(s, CLASSIC_BIG);
            printf("  %-9.2f", against_careful(c, s, CLASSIC_LITTLE, last_of(c, s)).ratio);
            printf(" %-9.2f", against_careful(c, s, CLASSIC_BIG, last_of(c, s)).ratio);
            orders = timed((side){0, CLASSIC_BIG}, (side){0, CLASSIC_LITTLE}, c, s, last_of(c, s));
            if (orders.ratio > turned) turned = orders.ratio;
        }
        printf("\n");
    }
    printf("\nbig-endian over little-endian, the library's own, at most: %.2f\n", turned);
}

/* Prints a row of its own: a ratio, and the nanoseconds of both sides for each of so many. */
static void print_row(const char *what, call c, const shape *s, size_t each) {
    timing t;
    make(s, CLASSIC_LITTLE);
    t = against_careful(c, s, CLASSIC_LITTLE, last_of(c, s));
    printf("%-48s %5.2f   %8.1f ns, in C %8.1f ns\n", what, t.ratio, t.ns[0] / (double)each, t.ns[1] / (double)each);
}

static void print_growth(void) {
    shape none = {"nex 0", 512, 8, 4, 13, 1 << 20, 0, 0, 4}, wide = {"reclen 4,096", 4096, 8, 4, 13, 1 << 20, 8, 0, 4};
    shape few = {"1,000 entries", 512, 8, 1000, 10, 1 << 20, 1000, 0, 4};
    shape many = {"65,536 entries", 512, 8, 4096, 10, FILE_BYTES, 65536, 0, 4};
    shape long_data = {"1 MiB", 512, 8, 64, 20, 1 << 22, 2, 1, DATA_BYTES / 4};
    print_row("append of 1 MiB", APPEND, &long_data, 1);
    print_row("validate, nex 0", VALIDATE, &none, 1);
    print_row("validate, nex 16", VALIDATE, &shapes[0], 1);
    print_row("validate, reclen 4,096", VALIDATE, &wide, 1);
    print_row("order check, an entry of 1,000", CHECK, &few, few.entries);
    print_row("order check, an entry of 65,536 in 16 extensions", CHECK, &many, many.entries);
}

/* ---- the answers alone */

static uint32_t random_state = 1;

static uint32_t random_number(void) {
    random_state = random_state * 1664525 + 1013904223;
    return random_state >> 8;
}

/* Compares all calls on the file of an order as it is, for some numbers of entries and extensions. */
static void compare_all(const shape *s, int32_t order) {
    uint64_t numbers[] = {0, 1, s->entries / 2, s->entries, s->entries + 1};
    for (size_t i = 0; i < sizeof numbers / sizeof numbers[0]; i++) {
        for (call c = EXTENSION; c <= DATA; c++) compare(c, s, order, c == EXTENSION ? numbers[i] % 19 : numbers[i]);
    }
    compare(VALIDATE, s, order, 0);
    compare(CHECK, s, order, 0);
    compare(APPEND, s, order, 0);
}

/* Changes a byte of the first record, of an index area or of an entry, compares, and puts it back. */
static void compare_changed(const shape *s, int32_t order) {
    uint8_t *file = files[order];
    classic_entry e = classic_open(file, s->bytes, 1 + random_number() % s->entries);
    size_t at = random_number() % 200, part = random_number() % 3;
    uint8_t before;
    if (part == 1) at = (e.record - 1) * 4 * (size_t)s->reclen + 4 * (e.word - 1) + random_number() % (44 + 20 * e.nsec);
    if (part == 2) at = 4 * (size_t)s->reclen + random_number() % 96;
    before = file[at];
    file[at] = random_number() % 2 ? (uint8_t)random_number() : (uint8_t)(before ^ 1u << random_number() % 8);
    compare_all(s, order);
    file[at] = before;
}

static int count_answers(void) {
    int passed = 0, failed = 0;
    for (int i = 0; i < SHAPES; i++) {
        for (int32_t order = 0; order < 2; order++) {
            long before = differing, from = compared;
            make(&shapes[i], order);
            compare_all(&shapes[i], order);
            for (int k = 0; k < CHANGES; k++) compare_changed(&shapes[i], order);
            if (differing == before) passed++;
            else failed++;
            printf("%s %s, order %d: %ld answers agree\n", differing == before ? "ok" : "FAILED", shapes[i].name, (int)order,
                   compared - from - (differing - before));
        }
    }
    printf("%d passed, %d failed\n", passed, failed);
    return failed != 0;
}

int main(int argc, char **argv) {
    for (size_t i = 0; i < sizeof content; i++) content[i] = (uint8_t)(i % 251 + 1);
    for (size_t i = 0; i < sizeof index_words; i++) index_words[i] = (uint8_t)(i % 241 + 1);
    if (argc == 2 && strcmp(argv[1], "--answers") == 0) return count_answers();
    if (argc != 1) stop("usage: bench [--answers]");
    print_table();
    print_growth();
    printf("\n%ld answers compared, %ld differ\n", compared, differing);
    return differing != 0;
}
