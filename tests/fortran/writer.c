/* A writer of CLASSIC files by the library.
   Usage: writer prints the names of the files that it can write; writer NAME ORDER FOLDER, where ORDER is little or
   big, writes FOLDER/file.classic and beside it, as text, what it handed to the library, the same in both orders: a file
   for each question that a reader is asked, as section_2_-5. The head of reader.f90 says what the answers are. Nothing
   of that is read back: where entries and index areas start it works out itself. */
#include "classic.h"

#include <inttypes.h>
#include <stdio.h>
#include <stdlib.h>
#include <string.h>

/* A file by its name: its settings with the little order, its records, the entries to append, and the most sections and
   data words of one. */
typedef struct {
    const char *name;
    classic_settings settings;
    int64_t records, entries, sections, data;
} plan;

/* The files. File A of document 01 has what that paper gives its entries; the entries of the others are random. */
static const plan plans[] = {
    {"A", {0, 20, 1, 2, 4, 0, 2, 20}, 6, 3, 1, 5},
    {"empty", {0, 128, 3, 2, 9, 1, 4096, 20}, 1, 0, 0, 0},
    {"small", {0, 16, 1, 2, 3, 0, 4, 10}, 30, 4, 2, 9},
    {"crossing", {0, 16, 1, 2, 5, 0, 8, 10}, 60, 8, 3, 9},
    {"doubling", {0, 18, 2, 3, 4, 1, 1, 20}, 40, 3, 5, 20},
    {"growing", {0, 24, 1, 2, 7, 0, 3, 15}, 120, 13, 3, 30},
    {"steady", {0, 33, 1, 2, 10, 0, 1, 10}, 90, 9, 4, 12},
    {"sixteen", {0, 46, 3, 2147483647, 3, 0, 1, 10}, 120, 16, 2, 40},
    {"wide", {0, 100, 1, 2, 256, 0, 2, 13}, 60, 5, 64, 15},
    {"fractions", {0, 64, 2, 2, 6, 1, 5, 15}, 150, 30, 6, 50},
    {"odd", {0, 127, 1, 16909060, 11, 0, 3, 11}, 60, 12, 20, 100},
    {"ones", {0, 40, 1, 2, 8, 0, 1, 15}, 60, 11, 4, 25},
    {"eleven", {0, 46, 2, 2, 5, 1, 1, 11}, 120, 27, 3, 20},
    {"large", {0, 4096, 1, 2, 32, 0, 100, 20}, 12, 8, 64, 5000},
};

/* What one append is given. Index words, sections and data are bytes, four a word. */
typedef struct {
    int32_t version;
    uint8_t index[4 * 253], sections[4 * 64 * 6], data[4 * 8192];
    int32_t ids[64];
    int64_t lengths[64], nsec, section_words, ldata;
} addition;

/* The folder, the plan with the order that is asked for, and the listing so far. */
static const char *folder;
static plan own;
static FILE *listing;

/* The bookkeeping: the next free word, counted from 0, the first records of the index areas, and what the last
   extension can hold and holds. */
static int64_t free_word, areas[16], nex, capacity, used;

/* Ends the program with a message. */
static void give_up(const char *what, uint32_t refusal) {
    fprintf(stderr, "writer: %s (refusal %" PRIu32 ")\n", what, refusal);
    exit(1);
}

/* A random number of 32 bits (xorshift32). */
static uint32_t random_bits(void) {
    static uint32_t state = 2013;
    state ^= state << 13;
    state ^= state >> 17;
    state ^= state << 5;
    return state;
}

/* A random number below a bound. */
static uint32_t random_below(int64_t bound) { return random_bits() % (uint32_t)bound; }

/* Fills words with random bytes. */
static void fill(uint8_t *bytes, int64_t words) {
    for (int64_t i = 0; i < 4 * words; i++) bytes[i] = (uint8_t)random_below(256);
}

/* Makes up the sections: identifiers apart from each other, some below 0, and one to six words for each. */
static void make_sections(addition *a, int64_t nsec) {
    uint32_t first = random_bits(), step = random_below(2) ? 1 : 17;
    a->nsec = nsec;
    a->section_words = 0;
    for (int64_t i = 0; i < nsec; i++) {
        a->ids[i] = (int32_t)(first - (uint32_t)i * step);
        a->lengths[i] = 1 + random_below(6);
        a->section_words += a->lengths[i];
    }
}

/* Takes what document 01 gives the entries of file A. */
static void take_example(addition *a, int64_t entry) {
    a->version = 1;
    a->nsec = entry == 1 ? 1 : 0;
    a->ids[0] = 7;
    a->lengths[0] = 3;
    a->section_words = entry == 1 ? 3 : 0;
    a->ldata = entry == 1 ? 5 : 0;
}

/* Makes up an entry; the last one has all the sections and data that the plan allows. */
static void make_addition(addition *a, int64_t entry) {
    int last = entry == own.entries;
    a->version = (int32_t)random_bits();
    make_sections(a, last ? own.sections : random_below(own.sections + 1));
    a->ldata = last ? own.data : random_below(3) == 0 ? 0 : random_below(own.data + 1);
    if (strcmp(own.name, "A") == 0) take_example(a, entry);
    fill(a->index, own.settings.lind - 3);
    fill(a->sections, a->section_words);
    fill(a->data, a->ldata);
}

/* Opens the text that answers a question. */
static FILE *told(const char *question) {
    char name[4096];
    snprintf(name, sizeof name, "%s/%s", folder, question);
    FILE *text = fopen(name, "w");
    if (text == NULL) give_up("a text cannot be written", 0);
    return text;
}

/* Says numbers that answer a question. */
static void tell_numbers(const char *question, const int64_t *numbers, size_t count) {
    FILE *text = told(question);
    for (size_t i = 0; i < count; i++) fprintf(text, "%" PRId64 "\n", numbers[i]);
    if (fclose(text) != 0) give_up("a text cannot be written", 0);
}

/* Says words that answer a question, by their bytes. */
static void tell_words(const char *question, const uint8_t *bytes, int64_t words) {
    FILE *text = told(question);
    for (const uint8_t *word = bytes; word < bytes + 4 * words; word += 4)
        fprintf(text, "%02X%02X%02X%02X\n", word[0], word[1], word[2], word[3]);
    if (fclose(text) != 0) give_up("a text cannot be written", 0);
}

/* Says what an entry was given. */
static void tell_addition(const addition *a, int64_t entry) {
    char question[64];
    const uint8_t *section = a->sections;
    int64_t adata = a->ldata > 0 ? 12 + 5 * a->nsec + a->section_words : 0;
    snprintf(question, sizeof question, "numbers_%" PRId64, entry);
    tell_numbers(question, (int64_t[]){a->version, adata}, 2);
    snprintf(question, sizeof question, "index_%" PRId64, entry);
    tell_words(question, a->index, own.settings.lind - 3);
    for (int64_t i = 0; i < a->nsec; i++) {
        snprintf(question, sizeof question, "section_%" PRId64 "_%" PRId32, entry, a->ids[i]);
        tell_words(question, section, a->lengths[i]);
        section += 4 * a->lengths[i];
    }
    snprintf(question, sizeof question, "data_%" PRId64, entry);
    tell_words(question, a->data, a->ldata);
}

/* The capacity of extension k, counted from 1: lex1 * gex^(k-1) / 10^(k-1) exactly, the fraction dropped once. */
static int64_t capacity_of(int64_t k) {
    unsigned __int128 product = (unsigned __int128)own.settings.lex1, divisor = 1;
    for (int64_t i = 1; i < k; i++) {
        product *= (unsigned __int128)own.settings.gex;
        divisor *= 10;
    }
    return (int64_t)(product / divisor);
}

/* Works out where the entry goes and what its line of the listing is. */
static void keep_books(const addition *a, int64_t entry) {
    int64_t reclen = own.settings.reclen, nword = 11 + 5 * a->nsec + a->section_words + a->ldata;
    if (used == capacity) {
        int64_t before = (free_word + reclen - 1) / reclen;
        areas[nex++] = before + 1;
        capacity = capacity_of(nex);
        used = 0;
        free_word = (before + (capacity * own.settings.lind + reclen - 1) / reclen) * reclen;
    }
    used++;
    fprintf(listing, "%" PRId64 " %" PRId64 " %" PRId64 " %" PRId64 " %" PRId64 " %" PRId64 "\n", entry,
            free_word / reclen + 1, free_word % reclen + 1, nword, a->nsec, a->ldata);
    free_word += nword;
}

/* Says what the file descriptor must hold. */
static void tell_descriptor(void) {
    classic_settings s = own.settings;
    int64_t numbers[12 + 16] = {s.order, s.reclen, s.kind, s.vind, s.lind, s.flags, own.entries + 1,
                                free_word / s.reclen + 1, free_word % s.reclen + 1, s.lex1, nex, s.gex};
    memcpy(numbers + 12, areas, sizeof areas);
    tell_numbers("descriptor", numbers, (size_t)(12 + nex));
}

/* Appends an entry by the library. */
static void append(uint8_t *file, size_t bytes, const addition *a, int64_t entry) {
    size_t index_words = (size_t)own.settings.lind - 3, nsec = (size_t)a->nsec;
    classic_appended appended =
        classic_append(file, bytes, a->version, a->index, 4 * index_words, a->ids, nsec, a->lengths, nsec, a->sections,
                       4 * (size_t)a->section_words, a->data, 4 * (size_t)a->ldata);
    if (appended.refusal != 0) give_up("the append is refused", appended.refusal);
    if (appended.number != (uint64_t)entry) give_up("the append gives another number", 0);
}

/* Writes a file by its plan. */
static void write_file(void) {
    static addition a;
    size_t bytes = (size_t)(own.records * own.settings.reclen * 4);
    uint8_t *file = malloc(bytes);
    if (file == NULL) give_up("there is no memory", 0);
    memset(file, 0xee, bytes);
    free_word = own.settings.reclen;
    uint32_t refusal = classic_create(file, bytes, own.settings);
    if (refusal != 0) give_up("the creation is refused", refusal);
    listing = told("list");
    fprintf(listing, "entry record word words sections data\n");
    for (int64_t entry = 1; entry <= own.entries; entry++) {
        make_addition(&a, entry);
        append(file, bytes, &a, entry);
        tell_addition(&a, entry);
        keep_books(&a, entry);
    }
    tell_descriptor();
    FILE *image = told("file.classic");
    if (fclose(listing) != 0) give_up("the listing cannot be written", 0);
    if (fwrite(file, 1, bytes, image) != bytes || fclose(image) != 0) give_up("the file cannot be written", 0);
    free(file);
}

/* Takes the plan of a name in an order, and gives whether there are such. */
static int choose(const char *name, const char *order) {
    for (size_t i = 0; i < sizeof plans / sizeof plans[0]; i++)
        if (strcmp(plans[i].name, name) == 0) own = plans[i];
    if (strcmp(order, "big") == 0) own.settings.order = CLASSIC_BIG;
    else if (strcmp(order, "little") != 0) return 0;
    return own.name != NULL;
}

int main(int argc, char **argv) {
    if (argc == 1) {
        for (size_t i = 0; i < sizeof plans / sizeof plans[0]; i++) puts(plans[i].name);
        return 0;
    }
    if (argc != 4 || !choose(argv[1], argv[2])) give_up("usage: writer [NAME little|big FOLDER]", 0);
    folder = argv[3];
    write_file();
    return 0;
}
