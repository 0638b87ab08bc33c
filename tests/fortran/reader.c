/* A reader of CLASSIC files by the library: answers the questions that reader.f90 answers, in the same form, about
   files of either byte order that the library validates and finds in order.
   Usage: reader FILE list | descriptor | numbers ENTRY | index ENTRY | section ENTRY IDENTIFIER | data ENTRY */
#include "classic.h"

#include <inttypes.h>
#include <stdio.h>
#include <stdlib.h>
#include <string.h>

/* The file that is read. */
static uint8_t *file;
static size_t bytes;

/* Ends the program with a message. */
static void give_up(const char *what, uint32_t refusal) {
    fprintf(stderr, "reader: %s (refusal %" PRIu32 ")\n", what, refusal);
    exit(1);
}

/* Reads the file whole. */
static void read_file(const char *name) {
    FILE *from = fopen(name, "rb");
    if (from == NULL || fseek(from, 0, SEEK_END) != 0) give_up("the file cannot be opened", 0);
    bytes = (size_t)ftell(from);
    rewind(from);
    file = malloc(bytes > 0 ? bytes : 1);
    if (file == NULL || fread(file, 1, bytes, from) != bytes) give_up("the file cannot be read", 0);
    fclose(from);
}

/* Validates the file and sees that it is in order. */
static classic_descriptor admit(void) {
    classic_descriptor d = classic_validate(file, bytes);
    classic_checked checked = classic_check(file, bytes);
    if (d.refusal != 0) give_up("the file is refused", d.refusal);
    if (checked.refusal != 0) give_up("the file is not in order", checked.refusal);
    return d;
}

/* Opens an entry. */
static classic_entry opened(uint64_t entry) {
    classic_entry e = classic_open(file, bytes, entry);
    if (e.refusal != 0) give_up("the entry is refused", e.refusal);
    return e;
}

/* Prints the listing. */
static void list_entries(uint64_t xnext) {
    puts("entry record word words sections data");
    for (uint64_t entry = 1; entry < xnext; entry++) {
        classic_entry e = opened(entry);
        printf("%" PRIu64 " %" PRIu64 " %" PRIu32 " %" PRIu64 " %" PRIu32 " %" PRIu64 "\n", entry, e.record, e.word,
               e.nword, e.nsec, e.ldata);
    }
}

/* Prints the byte order and the numbers of the file descriptor, with the addresses of the extensions in use. */
static void print_descriptor(classic_descriptor d) {
    uint64_t numbers[] = {d.order, d.reclen,  d.kind,     d.vind, d.lind, d.flags,
                          d.xnext, d.nextrec, d.nextword, d.lex1, d.nex,  d.gex};
    for (size_t i = 0; i < sizeof numbers / sizeof numbers[0]; i++) printf("%" PRIu64 "\n", numbers[i]);
    for (uint32_t i = 0; i < d.nex; i++) printf("%" PRIu64 "\n", d.aex[i]);
}

/* Prints the numbers of an entry that the listing has not. */
static void print_numbers(classic_entry e) { printf("%" PRId32 "\n%" PRId64 "\n", e.version, e.adata); }

/* Prints the bytes of the words of a part. */
static void print_words(classic_part p) {
    if (p.refusal != 0) give_up("the part is refused", p.refusal);
    if (p.length % 4 != 0) give_up("the part is not whole words", 0);
    for (const uint8_t *word = file + p.start; word < file + p.start + p.length; word += 4)
        printf("%02X%02X%02X%02X\n", word[0], word[1], word[2], word[3]);
}

/* The entry number, or 0, and the identifier of the command line, or 0. */
static uint64_t entry_of(int argc, char **argv) { return argc > 3 ? strtoull(argv[3], NULL, 10) : 0; }
static int32_t identifier_of(int argc, char **argv) { return argc > 4 ? (int32_t)strtol(argv[4], NULL, 10) : 0; }

int main(int argc, char **argv) {
    if (argc < 3) give_up("usage: reader FILE QUESTION; the head of reader.c has the questions", 0);
    read_file(argv[1]);
    classic_descriptor d = admit();
    const char *question = argv[2];
    uint64_t entry = entry_of(argc, argv);
    if (strcmp(question, "list") == 0) list_entries(d.xnext);
    else if (strcmp(question, "descriptor") == 0) print_descriptor(d);
    else if (strcmp(question, "numbers") == 0) print_numbers(opened(entry));
    else if (strcmp(question, "index") == 0) print_words(classic_index_words(file, bytes, entry));
    else if (strcmp(question, "section") == 0)
        print_words(classic_section(file, bytes, entry, identifier_of(argc, argv)));
    else if (strcmp(question, "data") == 0) print_words(classic_data(file, bytes, entry));
    else give_up("there is no such question", 0);
    free(file);
    return 0;
}
