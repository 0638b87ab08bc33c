/* Traces appends and sees that an accepted one stores the words that it has to write, each once and in the order of
   storing/specs/AsMade.antt, and no other word, and that a refused one stores nothing. Which words they are is worked out
   from document 01, the file's descriptor before the append and what is handed in. */
#include "tracer.h"

#include "classic.h"

/* A series of appends to a new file: its settings, the file's records, the sections of an entry, the words of each and of
   the data, and how many appends are made. */
typedef struct {
    const char *name;
    int32_t order, reclen, lind, lex1, gex;
    size_t records, sections, section_words, data_words, appends;
} series;

static const series all_series[] = {
    {"A's settings, little-endian", CLASSIC_LITTLE, 20, 4, 2, 20, 50, 1, 3, 5, 12},
    {"A's settings, big-endian", CLASSIC_BIG, 20, 4, 2, 20, 50, 1, 3, 5, 12},
    {"nothing but a descriptor, little-endian", CLASSIC_LITTLE, 18, 3, 1, 20, 20, 0, 0, 0, 3},
    {"nothing but a descriptor, big-endian", CLASSIC_BIG, 18, 3, 1, 20, 20, 0, 0, 0, 3},
    {"slot 1 fills the area", CLASSIC_LITTLE, 32, 32, 1, 10, 40, 2, 1, 1, 9},
    {"a slot longer than a record", CLASSIC_BIG, 32, 256, 1, 10, 100, 1, 2, 7, 9},
    {"slots that cross records", CLASSIC_LITTLE, 46, 5, 3, 15, 90, 3, 2, 13, 25},
    {"long areas", CLASSIC_BIG, 128, 9, 30, 20, 60, 0, 0, 40, 95},
    {"64 sections, little-endian", CLASSIC_LITTLE, 46, 4, 1, 20, 120, 64, 1, 3, 7},
    {"64 sections, big-endian", CLASSIC_BIG, 46, 4, 1, 20, 120, 64, 1, 3, 7},
    {"long data", CLASSIC_LITTLE, 512, 4, 2, 10, 30, 4, 100, 700, 9},
};

/* The words of the block, and the most that a call is handed of one kind. */
enum { WORDS = BLOCK / 4, HANDED = 1024 };

static int passed, failed;

/* What is handed to an append. */
static uint8_t index_words[4 * HANDED], section_words[4 * HANDED], data_words[4 * HANDED];
static int32_t ids[64];
static int64_t lengths[64];

/* The same file without the tracer. */
static uint8_t plain[BLOCK];

/* The positions of the words that have to be stored, in their order. */
static size_t due[WORDS], due_count;

/* Counts a test: it passed where there is no fault. */
static void count(const char *name, const char *fault) {
    if (*fault == 0) {
        printf("ok %s\n", name);
        passed++;
    } else {
        printf("FAILED %s: %s\n", name, fault);
        failed++;
    }
}

/* Makes the words from one position to another due. */
static void make_due(uint64_t from, uint64_t to) {
    while (from < to) due[due_count++] = (size_t)from++;
}

/* The position of an entry's slot in the extensions in use. */
static uint64_t slot_position(size_t bytes, const classic_descriptor *d, uint64_t entry) {
    for (uint64_t number = 1;; number++) {
        classic_extension extension = classic_extension_of(plain, bytes, number);
        if (extension.refusal != 0) tracer_stops("an entry without a slot");
        if (entry <= extension.capacity) return (extension.first - 1) * d->reclen + (entry - 1) * d->lind;
        entry -= extension.capacity;
    }
}

/* Works out the words that an append has to store: those of the entry and of its slot; where an extension is made, those
   skipped before its area, those of the area behind slot 1, nex and the address; and words 7 to 11 of the first record. */
static void work_out(size_t bytes, const classic_descriptor *before, const classic_descriptor *after, uint64_t nword) {
    uint64_t free = (before->nextrec - 1) * before->reclen + before->nextword - 1;
    uint64_t end = (after->nextrec - 1) * after->reclen + after->nextword - 1;
    uint64_t start = end - nword, area = (free + before->reclen - 1) / before->reclen * before->reclen;
    int extends = after->nex != before->nex;
    uint64_t slot = extends ? area : slot_position(bytes, before, before->xnext);
    make_due(start, end);
    make_due(slot, slot + before->lind);
    if (extends) {
        make_due(free, area);
        make_due(area + before->lind, start);
        make_due(12, 13);
        make_due(14 + 2 * before->nex, 16 + 2 * before->nex);
    }
    make_due(6, 11);
}

/* What is wrong with the stores, or nothing. A store of a part of a word counts as one of the word. */
static const char *fault_of_stores(void) {
    static char fault[120];
    static unsigned times[WORDS];
    size_t made = 0;
    memset(times, 0, sizeof times);
    for (size_t i = 0; i < store_count; i++) {
        for (size_t word = stores[i].start / 4; 4 * word < stores[i].start + stores[i].length; word++) {
            if (++times[word] > 1) {
                snprintf(fault, sizeof fault, "the word at position %zu is stored twice", word);
                return fault;
            }
            if (made == due_count || due[made++] != word) {
                snprintf(fault, sizeof fault, "the word at position %zu is stored out of turn", word);
                return fault;
            }
        }
    }
    if (made == due_count) return "";
    snprintf(fault, sizeof fault, "the word at position %zu is not stored", due[made]);
    return fault;
}

/* Appends to a file of a series, with so many bytes of index words and of data. */
static classic_appended append(const series *s, uint8_t *file, size_t index_bytes, size_t data_bytes) {
    return classic_append(file, 4 * s->records * s->reclen, 7, index_words, index_bytes, ids, s->sections, lengths,
                          s->sections, section_words, 4 * s->sections * s->section_words, data_words, data_bytes);
}

/* Makes an append with the tracer and without it, and counts it by its refusal. */
static void try_append(const series *s, const char *name, size_t index_bytes, size_t data_bytes, uint32_t refusal) {
    size_t bytes = 4 * s->records * s->reclen;
    uint64_t nword = 11 + 5 * s->sections + s->sections * s->section_words + s->data_words;
    classic_descriptor before = classic_validate(plain, bytes), after;
    classic_appended wanted = append(s, plain, index_bytes, data_bytes), given;
    char test[160];
    after = classic_validate(plain, bytes);
    due_count = 0;
    if (refusal == 0) work_out(bytes, &before, &after, nword);
    trace();
    given = append(s, block, index_bytes, data_bytes);
    traced();
    snprintf(test, sizeof test, "%s: %s%s", s->name, name, after.nex == before.nex ? "" : ", with a new extension");
    if (wanted.refusal != refusal || given.refusal != refusal) count(test, "another refusal");
    else if (given.number != wanted.number) count(test, "another answer with the tracer");
    else if (memcmp(block, plain, BLOCK) != 0) count(test, "other bytes with the tracer");
    else count(test, fault_of_stores());
}

/* Makes the appends of a series to a new file, which is made over bytes that are not zero, and two that are refused. */
static void try_series(const series *s) {
    classic_settings settings = {s->order, s->reclen, 1, 2, s->lind, 0, s->lex1, s->gex};
    size_t index_bytes = 4 * ((size_t)s->lind - 3), data_bytes = 4 * s->data_words;
    char name[40];
    memset(block, 0xEE, BLOCK);
    if (classic_create(block, 4 * s->records * s->reclen, settings) != 0) tracer_stops("a file is not created");
    memcpy(plain, block, BLOCK);
    for (size_t i = 0; i < s->sections; i++) {
        ids[i] = (int32_t)i - 3;
        lengths[i] = (int64_t)s->section_words;
    }
    for (size_t i = 1; i <= s->appends; i++) {
        snprintf(name, sizeof name, "append %zu", i);
        try_append(s, name, index_bytes, data_bytes, 0);
    }
    try_append(s, "an append refused by 21", index_bytes + 4, data_bytes, CLASSIC_APPEND_INDEX);
    try_append(s, "an append refused by 22", index_bytes, data_bytes + 1, CLASSIC_APPEND_PARTS);
}

/* Sees that the tracer tells stores that have to be told: words 3 and 4 are due, and are stored as a case says. */
static void try_tracer(const char *name, void (*stores_made)(volatile uint32_t *words), const char *fault) {
    due_count = 0;
    make_due(3, 5);
    memset(block, 0, BLOCK);
    trace();
    stores_made((volatile uint32_t *)(void *)block);
    traced();
    count(name, strcmp(fault_of_stores(), fault) == 0 ? "" : "the tracer tells something else");
}

static void in_turn(volatile uint32_t *words) { words[3] = 0, words[4] = 5; }
static void twice(volatile uint32_t *words) { words[3] = 0, words[3] = 0, words[4] = 5; }
static void other_first(volatile uint32_t *words) { words[4] = 5, words[3] = 0; }
static void one_left(volatile uint32_t *words) { words[3] = 0; }
static void across(volatile uint32_t *words) { *(volatile uint64_t *)(words + 3) = 5, words[4] = 5; }
static void in_bytes(volatile uint32_t *words) { ((volatile uint8_t *)words)[12] = 1, ((volatile uint8_t *)words)[13] = 1; }

int main(void) {
    tracer_begin();
    for (size_t i = 0; i < sizeof index_words; i++) {
        index_words[i] = (uint8_t)(i % 251 + 1);
        section_words[i] = (uint8_t)(i % 241 + 1);
        data_words[i] = (uint8_t)(i % 239 + 1);
    }
    try_tracer("the tracer: words stored in turn, one with what stood there", in_turn, "");
    try_tracer("the tracer: a word stored twice", twice, "the word at position 3 is stored twice");
    try_tracer("the tracer: a word stored in two parts", in_bytes, "the word at position 3 is stored twice");
    try_tracer("the tracer: a word stored with one before it and again", across, "the word at position 4 is stored twice");
    try_tracer("the tracer: another word first", other_first, "the word at position 4 is stored out of turn");
    try_tracer("the tracer: a word left", one_left, "the word at position 4 is not stored");
    for (size_t i = 0; i < sizeof all_series / sizeof all_series[0]; i++) try_series(&all_series[i]);
    printf("%d passed, %d failed\n", passed, failed);
    return failed != 0;
}
