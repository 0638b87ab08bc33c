/* Writes the examples by the library: a.classic to g.classic in a folder. README.md says what each is.
   Usage: writer FOLDER */
#include "classic.h"

#include <inttypes.h>
#include <stdio.h>
#include <stdlib.h>
#include <string.h>

/* What an entry is given: its version, sections of these identifiers and lengths, and so many words of data. */
typedef struct {
    int32_t version;
    size_t nsec;
    int32_t ids[2];
    int64_t lengths[2];
    size_t ldata;
} addition;

/* The file at hand, and the record of it that the calls below keep. No example is larger. */
static uint8_t file[4096];
static size_t bytes, reclen, lind;
static classic_open_file held;

/* Ends the program with a message. */
static void give_up(const char *what, uint32_t refusal) {
    fprintf(stderr, "writer: %s (refusal %" PRIu32 ")\n", what, refusal);
    exit(1);
}

/* Writes a word at a byte of an image, the lowest byte first, as the little order has an Integer*4. */
static void put4(uint8_t *at, uint32_t value) {
    for (int i = 0; i < 4; i++) at[i] = (uint8_t)(value >> 8 * i);
}

/* Writes words that count up from a first one. */
static void count_up(uint8_t *at, size_t words, uint32_t first) {
    for (size_t i = 0; i < words; i++) put4(at + 4 * i, first + (uint32_t)i);
}

/* Creates the file with so many records, and opens its record. */
static void create(size_t records, classic_settings settings) {
    reclen = (size_t)settings.reclen;
    lind = (size_t)settings.lind;
    bytes = 4 * reclen * records;
    memset(file, 0, sizeof file);
    uint32_t refusal = classic_create(file, bytes, settings);
    if (refusal != 0) give_up("the creation is refused", refusal);
    classic_open_file_answer opened = classic_open_file_of(file, bytes);
    if (opened.refusal != 0) give_up("the new file is refused", opened.refusal);
    held = opened.file;
}

/* Lays what entry k is given, and its row of counts. Its index words count up from 100 k, its sections from 1,000 k and
   its data from 10,000 k; they are the same bytes in either order. */
static void lay(const addition *a, uint32_t k, uint8_t *index, uint8_t *sections, uint8_t *data, uint64_t counts[5]) {
    size_t words = 0;
    for (size_t i = 0; i < a->nsec; i++) words += (size_t)a->lengths[i];
    count_up(index, lind - 3, 100 * k);
    count_up(sections, words, 1000 * k);
    count_up(data, a->ldata, 10000 * k);
    counts[0] = 4 * (lind - 3);
    counts[1] = counts[2] = a->nsec;
    counts[3] = 4 * words;
    counts[4] = 4 * a->ldata;
}

/* Appends entries, each by a call of its own through the record. */
static void append(const addition *additions, uint32_t count) {
    uint8_t index[64], sections[64], data[64];
    uint64_t counts[5];
    for (uint32_t k = 1; k <= count; k++) {
        const addition *a = &additions[k - 1];
        lay(a, k, index, sections, data, counts);
        classic_appended appended = classic_append_to(&held, file, bytes, a->version, index, counts[0], a->ids, counts[1],
                                                      a->lengths, counts[2], sections, counts[3], data, counts[4]);
        if (appended.refusal != 0) give_up("an append is refused", appended.refusal);
    }
}

/* Appends up to 16 entries by one call through the record: each kind is laid end to end. */
static void append_together(const addition *additions, uint32_t count) {
    uint8_t index[1024], sections[1024], data[1024];
    int32_t versions[16], ids[32];
    int64_t lengths[32];
    uint64_t counts[16][5];
    size_t index_bytes = 0, sections_before = 0, section_bytes = 0, data_bytes = 0;
    for (uint32_t k = 1; k <= count; k++) {
        const addition *a = &additions[k - 1];
        lay(a, k, index + index_bytes, sections + section_bytes, data + data_bytes, counts[k - 1]);
        versions[k - 1] = a->version;
        memcpy(ids + sections_before, a->ids, a->nsec * sizeof *ids);
        memcpy(lengths + sections_before, a->lengths, a->nsec * sizeof *lengths);
        index_bytes += counts[k - 1][0];
        sections_before += counts[k - 1][1];
        section_bytes += counts[k - 1][3];
        data_bytes += counts[k - 1][4];
    }
    classic_batched batched = classic_append_batch_to(&held, file, bytes, versions, count, (const uint64_t(*)[5])counts,
                                                      count, index, index_bytes, ids, sections_before, lengths,
                                                      sections_before, sections, section_bytes, data, data_bytes);
    if (batched.refusal != 0) give_up("a batch is refused", batched.refusal);
}

/* Rewrites a section of an entry through the record with up to 16 words that count up from a first one. */
static void update(uint64_t entry, int32_t identifier, size_t words, uint32_t first) {
    uint8_t content[64];
    count_up(content, words, first);
    uint32_t refusal = classic_update_to(&held, file, bytes, entry, identifier, content, 4 * words);
    if (refusal != 0) give_up("an update is refused", refusal);
}

/* Writes the first bytes of the file to a name in a folder. */
static void save(const char *folder, const char *name, size_t count) {
    char path[4096];
    snprintf(path, sizeof path, "%s/%s", folder, name);
    FILE *to = fopen(path, "wb");
    if (to == NULL || fwrite(file, 1, count, to) != count || fclose(to) != 0) give_up("a file cannot be written", 0);
}

/* A word of an entry, counted from 1, in the file's bytes. */
static uint8_t *word_of(uint64_t entry, size_t word) {
    classic_entry e = classic_open(file, bytes, entry);
    if (e.refusal != 0) give_up("an entry is refused", e.refusal);
    return file + 4 * ((e.record - 1) * reclen + (e.word - 1) + (word - 1));
}

/* A word of an entry's index, counted from 1, in the file's bytes. */
static uint8_t *index_word_of(uint64_t entry, size_t word) {
    classic_part application = classic_index_words(file, bytes, entry);
    if (application.refusal != 0) give_up("an entry is refused", application.refusal);
    return file + application.start - 4 * 3 + 4 * (word - 1);
}

/* Makes file A of docs/FORMAT.md in a byte order. */
static void make_a(int32_t order) {
    static const addition additions[] = {{1, 1, {7}, {3}, 5}, {1, 0, {0}, {0}, 0}, {1, 0, {0}, {0}, 0}};
    create(6, (classic_settings){order, 20, 1, 2, 4, 0, 2, 20});
    append(additions, 3);
}

/* a.classic, file A; d.classic, the same with its last record lost; f.classic, the same with an old address left in word
   19, behind the two in use; g.classic, file A with section 7 of entry 1 rewritten with two words; e.classic, file A in
   the big order. */
static void write_files_a(const char *folder) {
    make_a(CLASSIC_LITTLE);
    save(folder, "a.classic", bytes);
    save(folder, "d.classic", bytes - 4 * reclen);
    put4(file + 4 * (19 - 1), 7);
    save(folder, "f.classic", bytes);
    make_a(CLASSIC_LITTLE);
    update(1, 7, 2, 1100);
    save(folder, "g.classic", bytes);
    make_a(CLASSIC_BIG);
    save(folder, "e.classic", bytes);
}

/* b.classic: three extensions of 2, 3 and 4 entries, all made in one batch; the index of entry 9 crosses a record's
   end. */
static void write_b(const char *folder) {
    static const addition additions[] = {
        {1, 1, {7}, {3}, 5},         {1, 0, {0}, {0}, 12},     {2, 2, {-3, 4}, {2, 6}, 4},
        {2, 0, {0}, {0}, 0},         {1, 1, {7}, {4}, 0},      {3, 2, {7, -3}, {1, 1}, 10},
        {1, 2, {-2, -3}, {5, 1}, 1}, {0, 1, {100000}, {2}, 6}, {-1, 1, {7}, {3}, 5},
    };
    create(20, (classic_settings){CLASSIC_LITTLE, 20, 1, 2, 6, 1, 2, 15});
    append_together(additions, 9);
    save(folder, "b.classic", bytes);
}

/* c.classic: six entries, four of them damaged: an entry code, an xnum, an ldata, and the record in an index. */
static void write_c(const char *folder) {
    static const addition additions[] = {
        {1, 1, {7}, {3}, 5}, {1, 0, {0}, {0}, 0}, {1, 1, {7}, {3}, 8},
        {1, 0, {0}, {0}, 4}, {1, 1, {7}, {3}, 5}, {1, 0, {0}, {0}, 2},
    };
    create(12, (classic_settings){CLASSIC_LITTLE, 20, 1, 2, 4, 0, 6, 10});
    append(additions, 6);
    put4(word_of(2, 1), 0);
    put4(word_of(4, 10), 3);
    put4(word_of(5, 8), 6);
    put4(index_word_of(6, 2), 1);
    save(folder, "c.classic", bytes);
}

int main(int argc, char **argv) {
    if (argc != 2) give_up("usage: writer FOLDER", 0);
    write_files_a(argv[1]);
    write_b(argv[1]);
    write_c(argv[1]);
    return 0;
}
