/* CLASSIC data containers, version 2 (IRAM memo 2013-2): a reader and writer over a file image that the
   caller lends. No call allocates, keeps state or does input and output. docs/FORMAT.md says what a file is.

   A program that opens a file of up to a megabyte and prints how long section 7 of entry 1 is:

       #include "classic.h"
       #include <stdio.h>

       int main(int argc, char **argv) {
           static uint8_t file[1 << 20];
           FILE *from = argc == 2 ? fopen(argv[1], "rb") : NULL;
           if (from == NULL) return 2;
           size_t bytes = fread(file, 1, sizeof file, from);
           classic_part section = classic_section(file, bytes, 1, 7);
           if (section.refusal != 0) printf("refusal %u\n", (unsigned)section.refusal);
           else printf("%u words\n", (unsigned)(section.length / 4));
           return section.refusal != 0;
       }

   It is built on x86-64 at the repository's top, after make lib, with the archive or with the shared library:

       cc -std=c99 -Iinclude -o length length.c target/lib/libclassic.a
       cc -std=c99 -Iinclude -o length length.c -Ltarget/lib -lclassic -Wl,-rpath,"$PWD/target/lib"

   examples/reader.c prints all that a file holds, and examples/writer.c writes files. */
#ifndef CLASSIC_H
#define CLASSIC_H

#include <stddef.h>
#include <stdint.h>

#ifdef __cplusplus
extern "C" {
#endif

/* Units. A word is 4 bytes, a record is reclen words. Record numbers, word numbers within a record, entry
   numbers, extension numbers and the addresses within an entry are counted from 1: address 1 is the first word
   of the entry. Capacities are in entries, lengths of sections and data in words. Only what is named in bytes
   (counts of lent bytes, and the start and length of a part) is in bytes, and a part's start alone is counted
   from 0.

   Byte order. Numbers that are handed over, alone, in a struct or in an array, are the machine's own. In the file
   Integer*4 and Integer*8 are two's complement, in the order that the file's code says: "2A  " (32 41 20 20) is
   order 0, little-endian, the least significant byte first, and "2B  " (32 42 20 20) is order 1, big-endian, the most
   significant first. The calls turn them: the fields of the first record with the addresses, those of an entry's
   descriptor with its tables, and the first three words of an entry's index. A new file's order is one of its
   settings; an append writes in the file's own. The codes, the application's index words, sections and data are bytes
   as they are handed over: no call reads them as numbers or turns them, in either order.

   Lending. The file is the caller's whole buffer; bytes past the next free word are free room and mean nothing.
   Every buffer belongs to the caller, is used during the call only, and is never kept or freed. A call reads and
   writes within the given counts only. What is passed as const is not changed; create, append and update change the
   file when they accept, and no byte of it when they refuse; append_batch changes it by the entries that it accepts,
   and by no other byte. append_to, append_batch_to and update_to change the file as append, append_batch and update do,
   and with it the record that is lent to them. The buffers of one call must not overlap: append's file, index words,
   identifiers, lengths, section bytes and data are apart, so are append_batch's, with versions and counts, and so are
   update's file and content; a record is apart from them all. The file and byte buffers need no alignment; versions,
   counts, ids, lengths and a record are aligned as their types are. An empty buffer may be (NULL, 0); a record is never
   NULL. Calls that only read may share a file between threads.

   Answers are given by value and belong to the caller. A part is a place in the lent file, not a copy: its bytes are
   file + start to file + start + length, as long as the file is lent and unchanged. Each answer has a refusal, 0
   when the call accepts; a refused call gives zeros elsewhere, only a check adds an entry number, and append_batch
   how many entries were accepted before the one that was refused. */

/* The refusals, in the order in which they are tested, which is not that of their numbers: a call gives the first that
   applies. Every call but create tests 1 to 11 and then 29; create tests 1 to 8 on its settings. extension_of adds 12;
   open, index_words and data add 12 to 19, section adds 20 to these, and update 28 to those of section; append adds 21
   to 24; check adds 13 to 19 for each entry, and 25. append_batch tests 26 before all others, and then as append does
   for each entry in turn. append_to, append_batch_to and update_to test 27 in the place of 1 to 11 and 29, once, after
   26. */
enum classic_refusal {
    CLASSIC_ACCEPTED = 0,        /* no refusal */
    CLASSIC_BATCH_COUNTS = 26,   /* append_batch: over 64 entries, rows of counts and versions not as many, or a column
                                    of the counts that does not use up its array exactly */
    CLASSIC_OPEN_FILE = 27,      /* append_to, append_batch_to, update_to: the record that is lent is not the one that
                                    open_file_of gives for the file as it is, or the file is refused */
    CLASSIC_LENT_SHORT = 1,      /* fewer than 64 bytes are lent */
    CLASSIC_FILE_CODE = 2,       /* the file code is neither "2A  " nor "2B  "; create: the order is neither 0 nor 1 */
    CLASSIC_RECLEN = 3,          /* reclen is not 16 to 4,096 */
    CLASSIC_LENT_LENGTH = 4,     /* the lent length is over 2^30 bytes or not whole records */
    CLASSIC_KIND = 5,            /* kind is not 1, 2 or 3 */
    CLASSIC_INDEX_FORM = 6,      /* vind is below 2, or lind is not 3 to 256 */
    CLASSIC_FLAGS = 7,           /* flags is not 0 or 1 */
    CLASSIC_GROWTH = 8,          /* lex1 not 1 to 4,096, gex not 10 to 20, nex not 0 to mex, or a capacity over 16,384 */
    CLASSIC_ENTRY_COUNT = 9,     /* xnext is below 1, or the number of entries does not fit nex */
    CLASSIC_NEXT_FREE = 10,      /* nextrec below 2, nextword not 1 to reclen, or the next free word past the file */
    CLASSIC_INDEX_AREA = 11,     /* an index area starts too early, or the last one ends past the next free word */
    CLASSIC_LEFTOVERS = 29,      /* a word of the first record after the addresses in use, 15 + 2 x nex to reclen, is
                                    not zero */
    CLASSIC_NUMBER = 12,         /* the entry or extension number is 0 or above the last */
    CLASSIC_ENTRY_PLACE = 13,    /* the entry's record below 2, word not 1 to reclen, or start + 11 past the free word */
    CLASSIC_ENTRY_CODE = 14,     /* the entry code is not "2   " */
    CLASSIC_ENTRY_LENGTH = 15,   /* nsec not 0 to 64, nword too small for it, or the end past the next free word */
    CLASSIC_ENTRY_XNUM = 16,     /* the entry's own number is not the number asked */
    CLASSIC_DATA_PLACE = 17,     /* ldata is below 0, or the data does not stand within the entry's content */
    CLASSIC_SECTION_PLACE = 18,  /* a section has no word, or does not stand within the entry's content */
    CLASSIC_SHARED_WORD = 19,    /* two of the sections and the data share a word */
    CLASSIC_NO_SECTION = 20,     /* the entry has no section with the identifier */
    CLASSIC_UPDATE_CONTENT = 28, /* update: the content is empty, not whole words, or larger than the section's space */
    CLASSIC_APPEND_INDEX = 21,   /* append: the index words are not 4 x (lind - 3) bytes */
    CLASSIC_APPEND_PARTS = 22,   /* append: over 64 identifiers, lengths not as many, a repeated identifier, a length
                                    below 1, section bytes not 4 x the sum of the lengths, or data not whole words */
    CLASSIC_APPEND_GROWTH = 23,  /* append: a new extension is needed, and nex is mex or its capacity over 16,384 */
    CLASSIC_APPEND_ROOM = 24,    /* append: the entry, behind a new index area if it needs one, would end past the file */
    CLASSIC_ORDER = 25           /* check: an entry starts before the end of what comes before it, or ends past the
                                    start of the index area that comes after it */
};

/* The two byte orders of a file. */
enum classic_order {
    CLASSIC_LITTLE = 0, /* "2A  ": the least significant byte of an integer comes first */
    CLASSIC_BIG = 1     /* "2B  ": the most significant byte comes first */
};

/* The descriptor of a file. order is a classic_order; aex has the first record of each index area, zero past nex. */
typedef struct {
    uint32_t refusal, order, reclen, kind, vind, lind, flags;
    uint64_t xnext, nextrec;
    uint32_t nextword, lex1, nex, gex;
    uint64_t aex[16];
} classic_descriptor;

/* An extension: its capacity in entries, the first record of its index area, and the area's count of records. */
typedef struct {
    uint32_t refusal;
    uint64_t capacity, first, records;
} classic_extension;

/* An opened entry: its start record and word, its numbers as stored (adata also where ldata is 0), and its sections
   in the stored order. The places past nsec hold zero. */
typedef struct {
    uint32_t refusal;
    uint64_t record;
    uint32_t word;
    int32_t version;
    uint32_t nsec;
    uint64_t nword;
    int64_t adata;
    uint64_t ldata;
    int32_t ids[64];
    uint64_t lengths[64], addresses[64];
} classic_entry;

/* A part of the lent file in bytes: its start, counted from 0, and its length. A refusal and an entry with no data
   give start 0 and length 0; only the refusal tells them apart. With lind 3 the index words are the empty part at
   their place. */
typedef struct {
    uint32_t refusal;
    uint64_t start, length;
} classic_part;

/* An append: the number of the new entry. */
typedef struct {
    uint32_t refusal;
    uint64_t number;
} classic_appended;

/* A batch: how many of its entries were accepted, which are its first, and the refusal of the one behind them, 0 where
   all were accepted. With 26 none is. */
typedef struct {
    uint32_t refusal;
    uint64_t accepted;
} classic_batched;

/* The record of an open file: what validate gives, with its order a classic_order and aex zero past nex; and totals, the
   entries that the first k extensions hold together, for k 1 to nex, zero past nex. All is worked out from the file's
   first record: a record holds nothing that the file does not, and is no handle. */
typedef struct {
    uint64_t order, reclen, kind, vind, lind, flags, xnext, nextrec, nextword, lex1, nex, gex, aex[16], totals[16];
} classic_open_file;

/* The record that a file has. */
typedef struct {
    uint32_t refusal;
    classic_open_file file;
} classic_open_file_answer;

/* An order check: 0 and 0 when all is in order; else the first failing entry and its refusal, with entry 0 where the
   descriptor is refused. */
typedef struct {
    uint64_t entry;
    uint32_t refusal;
} classic_checked;

/* The settings of a new file. order is a classic_order. Its extension k will hold lex1 * gex^(k-1) / 10^(k-1) entries:
   the product is exact, and its fraction is dropped once. */
typedef struct {
    int32_t order, reclen, kind, vind, lind, flags, lex1, gex;
} classic_settings;

/* Writes the first record of a file with no entries, and answers the refusal. Later bytes stay. */
uint32_t classic_create(uint8_t *file, size_t bytes, classic_settings settings);

/* Gives the file's descriptor. */
classic_descriptor classic_validate(const uint8_t *file, size_t bytes);

/* Gives an extension by number, 1 to nex. */
classic_extension classic_extension_of(const uint8_t *file, size_t bytes, uint64_t number);

/* Opens an entry by number, 1 to xnext - 1. */
classic_entry classic_open(const uint8_t *file, size_t bytes, uint64_t entry);

/* Gives the application's lind - 3 words of an entry's index. */
classic_part classic_index_words(const uint8_t *file, size_t bytes, uint64_t entry);

/* Gives the first section of an entry that has the identifier. */
classic_part classic_section(const uint8_t *file, size_t bytes, uint64_t entry, int32_t identifier);

/* Gives the data of an entry. */
classic_part classic_data(const uint8_t *file, size_t bytes, uint64_t entry);

/* Opens every entry in turn and checks that they stand in order. */
classic_checked classic_check(const uint8_t *file, size_t bytes);

/* Appends an entry: its version, the application's index words, and for each section an identifier, a length in words
   and its bytes, which stand one after another in sections; then the data. All counts named bytes are in bytes. No word
   of the file is stored twice.

   No room means it. Where the file passes its tests and the input 21 and 22, the answer is 23 or 24 exactly when the
   entry has no place: no position at or after the next free word from which all its words stand within the bytes lent,
   behind a new index area where one is needed, which itself starts with a record at or after the next free word; gaps
   may be left. It is 23 when a new extension is needed and none may be made: the file takes no further entry, however
   small it is and however much is lent, and a new file is due. Else it is 24: this entry has no place in the bytes
   lent; a smaller one may have, and so may this one where more records are lent. Gaps before the next free word are no
   places. An accepted entry stands at the place that ends first. A batch that is refused by 23 or 24 says the same of
   the entry behind those that it accepted, and so do the calls through a record. */
classic_appended classic_append(uint8_t *file, size_t bytes, int32_t version,
                                const uint8_t *index, size_t index_bytes,
                                const int32_t *ids, size_t id_count,
                                const int64_t *lengths, size_t length_count,
                                const uint8_t *sections, size_t section_bytes,
                                const uint8_t *data, size_t data_bytes);

/* Appends up to 64 entries, as that many calls of append in turn would, up to the first that is refused: the entries
   before it stay, and none behind it is tried. Each kind is laid end to end: the versions, and for each entry a row of
   counts, which are its index bytes, identifiers, lengths, section bytes and data bytes. A file that is refused is so
   with the first entry; no entries, with empty arrays, answer 0 and 0 for any bytes. Before C23, counts that are not
   const are passed by a cast, as (const uint64_t (*)[5])counts. */
classic_batched classic_append_batch(uint8_t *file, size_t bytes,
                                     const int32_t *versions, size_t version_count,
                                     const uint64_t (*counts)[5], size_t count_rows,
                                     const uint8_t *index, size_t index_bytes,
                                     const int32_t *ids, size_t id_count,
                                     const int64_t *lengths, size_t length_count,
                                     const uint8_t *sections, size_t section_bytes,
                                     const uint8_t *data, size_t data_bytes);

/* Rewrites the first section of an entry that has the identifier, within the space that its length field gives it, and
   answers the refusal. The content goes to the section's start and the rest of the space becomes zero: the section
   keeps its length, and hands out the content with zeros behind it. No other byte of the file changes. The words
   are written also where another entry shares them; in a file that passes check none does. */
uint32_t classic_update(uint8_t *file, size_t bytes, uint64_t entry, int32_t identifier,
                        const uint8_t *content, size_t content_bytes);

/* Gives the record of the open file, which the three calls below take and keep true. */
classic_open_file_answer classic_open_file_of(const uint8_t *file, size_t bytes);

/* Appends an entry through a record: answers what append does and leaves the file as it does, and the record is then
   that of the file as it is, also where the entry is refused. Each field of the record is compared with the file first:
   where one differs, because the file was changed without the record or the record by hand, the call is refused by 27,
   and record and file stay. open_file_of then gives a true one. */
classic_appended classic_append_to(classic_open_file *held, uint8_t *file, size_t bytes, int32_t version,
                                   const uint8_t *index, size_t index_bytes,
                                   const int32_t *ids, size_t id_count,
                                   const int64_t *lengths, size_t length_count,
                                   const uint8_t *sections, size_t section_bytes,
                                   const uint8_t *data, size_t data_bytes);

/* Appends a batch through a record, as append_batch does. Behind 26 a record that is not true is refused, also with no
   entries. */
classic_batched classic_append_batch_to(classic_open_file *held, uint8_t *file, size_t bytes,
                                        const int32_t *versions, size_t version_count,
                                        const uint64_t (*counts)[5], size_t count_rows,
                                        const uint8_t *index, size_t index_bytes,
                                        const int32_t *ids, size_t id_count,
                                        const int64_t *lengths, size_t length_count,
                                        const uint8_t *sections, size_t section_bytes,
                                        const uint8_t *data, size_t data_bytes);

/* Rewrites a section through a record, as update does. */
uint32_t classic_update_to(classic_open_file *held, uint8_t *file, size_t bytes, uint64_t entry, int32_t identifier,
                           const uint8_t *content, size_t content_bytes);

#ifdef __cplusplus
}
#endif

#endif
