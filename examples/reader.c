/* Prints what a CLASSIC file of either byte order holds: its descriptor and index areas; the numbers, index words,
   sections and data of each entry; and whether the entries stand in order. Words are printed as Integer*4. Written from
   classic.h alone.
   Usage: reader FILE. Its status is 0, 1 where something is refused, 2 where the file cannot be read. */
#include "classic.h"

#include <inttypes.h>
#include <stdio.h>
#include <stdlib.h>

/* The file that is read. */
static uint8_t *file;
static size_t bytes;

/* The name that the header gives a refusal. */
static const char *name_of(uint32_t refusal) {
#define NAME(refusal) [refusal] = #refusal
    static const char *const names[] = {
        NAME(CLASSIC_ACCEPTED),       NAME(CLASSIC_BATCH_COUNTS), NAME(CLASSIC_OPEN_FILE),
        NAME(CLASSIC_LENT_SHORT),     NAME(CLASSIC_FILE_CODE),    NAME(CLASSIC_RECLEN),
        NAME(CLASSIC_LENT_LENGTH),    NAME(CLASSIC_KIND),         NAME(CLASSIC_INDEX_FORM),
        NAME(CLASSIC_FLAGS),          NAME(CLASSIC_GROWTH),       NAME(CLASSIC_ENTRY_COUNT),
        NAME(CLASSIC_NEXT_FREE),      NAME(CLASSIC_INDEX_AREA),   NAME(CLASSIC_LEFTOVERS),
        NAME(CLASSIC_NUMBER),         NAME(CLASSIC_ENTRY_PLACE),  NAME(CLASSIC_ENTRY_CODE),
        NAME(CLASSIC_ENTRY_LENGTH),   NAME(CLASSIC_ENTRY_XNUM),   NAME(CLASSIC_DATA_PLACE),
        NAME(CLASSIC_SECTION_PLACE),  NAME(CLASSIC_SHARED_WORD),  NAME(CLASSIC_NO_SECTION),
        NAME(CLASSIC_UPDATE_CONTENT), NAME(CLASSIC_APPEND_INDEX), NAME(CLASSIC_APPEND_PARTS),
        NAME(CLASSIC_APPEND_GROWTH),  NAME(CLASSIC_APPEND_ROOM),  NAME(CLASSIC_ORDER),
    };
    const char *name = refusal < sizeof names / sizeof names[0] ? names[refusal] : NULL;
    return name != NULL ? name : "a refusal that this program does not know";
}

/* Reads the file whole; says and gives 0 where that cannot be done. */
static int read_file(const char *name) {
    FILE *from = fopen(name, "rb");
    long length = -1;
    if (from != NULL && fseek(from, 0, SEEK_END) == 0) length = ftell(from);
    if (length >= 0 && fseek(from, 0, SEEK_SET) == 0) file = malloc((size_t)length + 1);
    bytes = (size_t)length;
    int read = file != NULL && fread(file, 1, bytes, from) == bytes;
    if (!read) fprintf(stderr, "reader: %s cannot be read\n", name);
    if (from != NULL) fclose(from);
    return read;
}

/* Prints the words of a part behind what they are. No call turns these words, and the file's order says nothing of them:
   they are printed as little-endian ones, which those of the examples are. */
static void print_words(const char *what, classic_part part) {
    printf("  %s:", what);
    for (uint64_t at = part.start; at < part.start + part.length; at += 4) {
        uint32_t bits = 0;
        for (int i = 3; i >= 0; i--) bits = bits << 8 | file[at + i];
        printf(" %" PRId32, (int32_t)bits);
    }
    printf("\n");
}

/* Prints the descriptor, and the index area of each extension. */
static void print_descriptor(const classic_descriptor *d) {
    printf("order %" PRIu32 ", reclen %" PRIu32 ", kind %" PRIu32 ", vind %" PRIu32 ", lind %" PRIu32 ", flags %" PRIu32
           ", xnext %" PRIu64 ", nextrec %" PRIu64 ", nextword %" PRIu32 ", lex1 %" PRIu32 ", nex %" PRIu32
           ", gex %" PRIu32 "\n",
           d->order, d->reclen, d->kind, d->vind, d->lind, d->flags, d->xnext, d->nextrec, d->nextword, d->lex1, d->nex,
           d->gex);
    for (uint32_t k = 1; k <= d->nex; k++) {
        classic_extension x = classic_extension_of(file, bytes, k);
        printf("extension %" PRIu32 ": capacity %" PRIu64 ", index area from record %" PRIu64 ", records %" PRIu64 "\n",
               k, x.capacity, x.first, x.records);
    }
}

/* Prints section i of an entry, counted from 0. A section is asked for by its identifier; where that stands twice, the
   first section counts. */
static void print_section(uint64_t number, const classic_entry *entry, uint32_t i) {
    char what[80];
    uint32_t first = 0;
    while (entry->ids[first] != entry->ids[i]) first++;
    snprintf(what, sizeof what, "section %" PRId32 ", length %" PRIu64 ", address %" PRIu64, entry->ids[i],
             entry->lengths[i], entry->addresses[i]);
    if (first == i) {
        print_words(what, classic_section(file, bytes, number, entry->ids[i]));
    } else {
        printf("  %s: the identifier stands twice, and the first counts\n", what);
    }
}

/* Prints an entry, or its refusal. The calls for the parts of an entry that opens accept too. */
static void print_entry(uint64_t number) {
    classic_entry entry = classic_open(file, bytes, number);
    printf("entry %" PRIu64, number);
    if (entry.refusal != 0) {
        printf(" is refused: %" PRIu32 ", %s\n", entry.refusal, name_of(entry.refusal));
        return;
    }
    printf(": record %" PRIu64 ", word %" PRIu32 ", version %" PRId32 ", nsec %" PRIu32 ", nword %" PRIu64
           ", adata %" PRId64 ", ldata %" PRIu64 "\n",
           entry.record, entry.word, entry.version, entry.nsec, entry.nword, entry.adata, entry.ldata);
    print_words("index", classic_index_words(file, bytes, number));
    for (uint32_t i = 0; i < entry.nsec; i++) print_section(number, &entry, i);
    print_words("data", classic_data(file, bytes, number));
}

/* Prints whether all entries open and stand in order, and gives the refusal. */
static uint32_t print_order(void) {
    classic_checked checked = classic_check(file, bytes);
    if (checked.refusal == 0) {
        printf("the entries stand in order\n");
    } else {
        printf("the order check fails at entry %" PRIu64 ": %" PRIu32 ", %s\n", checked.entry, checked.refusal,
               name_of(checked.refusal));
    }
    return checked.refusal;
}

int main(int argc, char **argv) {
    if (argc != 2) {
        fprintf(stderr, "usage: reader FILE\n");
        return 2;
    }
    if (!read_file(argv[1])) return 2;
    classic_descriptor d = classic_validate(file, bytes);
    if (d.refusal != 0) {
        fprintf(stderr, "reader: %s is refused: %" PRIu32 ", %s\n", argv[1], d.refusal, name_of(d.refusal));
        return 1;
    }
    print_descriptor(&d);
    for (uint64_t number = 1; number < d.xnext; number++) print_entry(number);
    return print_order() != 0;
}
