/* Calls the library as the cases on standard input ask, and writes every field of every answer to standard output.
   Each lent buffer is a block of its exact size that ends at a page that cannot be touched; before a record stand bytes
   that may not change.

   A case is its size (8 bytes) and its steps; numbers are little-endian. Steps: 'F' total, count, bytes: lends a file
   of total bytes that begins with these; 'A': the file as it was lent; 'P' place, count, bytes: changes the file; 'R'
   and 44 numbers: the fields of the record that calls are lent from now on; '0' to '9' and ':' to '>', which are behind
   '9': a call, with a byte that says whether empty slices are (NULL, 0), and its arguments. Each field of an answer is
   8 bytes; after a call that may change the file the count and the bytes of the file's part that 'F' gave follow, and
   after a call through the record its 44 fields. */
#define _DEFAULT_SOURCE
#include "classic.h"

#include <stdio.h>
#include <stdlib.h>
#include <string.h>
#include <sys/mman.h>
#include <unistd.h>

/* A lent block: size bytes, of which the first shown may be touched. */
typedef struct {
    uint8_t *map, *bytes;
    size_t span, size, shown;
} block;

/* No machine has larger pages; no case takes more seconds; so many bytes before a record are this, and stay so. */
enum { PAGE = 65536, SECONDS = 15, BEFORE = 512, MARK = 0xa5 };

/* The case that is being run, and the place in it. */
static uint8_t *message;
static size_t message_size, message_at;

/* The file that is lent, and its bytes in the message. */
static block file;
static const uint8_t *file_bytes;

/* The record that is lent, with the bytes before it. */
static block held;

/* Ends the driver with a message where the case or the machine is at fault. */
static void give_up(const char *what) {
    fprintf(stderr, "driver: %s\n", what);
    exit(2);
}

/* Takes bytes from the case. */
static const uint8_t *take(size_t count) {
    const uint8_t *bytes = message + message_at;
    if (count > message_size - message_at) give_up("the case ends within a step");
    message_at += count;
    return bytes;
}

/* The unsigned number in so many bytes. */
static uint64_t number(const uint8_t *bytes, size_t width) {
    uint64_t value = 0;
    for (size_t i = 0; i < width; i++) value |= (uint64_t)bytes[i] << (8 * i);
    return value;
}

/* Takes an unsigned number of 1, 4 or 8 bytes from the case. */
static uint64_t take_number(size_t width) { return number(take(width), width); }

/* Takes an Integer*4 from the case. */
static int32_t take_integer(void) { return (int32_t)take_number(4); }

/* Rounds a size up to whole pages. */
static size_t pages(size_t size) { return (size + PAGE - 1) / PAGE * PAGE; }

/* Lets a block's shown bytes be written, or only read. */
static void allow(const block *b, int protection) {
    size_t before = b->span - b->size;
    if (b->shown > 0 && mprotect(b->map, pages(before + b->shown), protection) != 0) give_up("mprotect");
}

/* Lends a block of a size, of which the first bytes are given and may be read. */
static block lend(const uint8_t *bytes, size_t shown, size_t size) {
    block b = {NULL, NULL, pages(size), size, shown};
    b.map = mmap(NULL, b.span + PAGE, PROT_NONE, MAP_PRIVATE | MAP_ANONYMOUS | MAP_NORESERVE, -1, 0);
    if (b.map == MAP_FAILED) give_up("mmap");
    b.bytes = b.map + (b.span - size);
    allow(&b, PROT_READ | PROT_WRITE);
    if (shown > 0) memcpy(b.bytes, bytes, shown);
    allow(&b, PROT_READ);
    return b;
}

/* Takes a count and so many elements from the case, and lends them. */
static block take_block(size_t width) {
    size_t size = take_number(8);
    if (size % width != 0) give_up("a slice is not whole elements");
    return lend(take(size), size, size);
}

/* Gives a lent block back. */
static void give_back(const block *b) {
    if (b->map != NULL && munmap(b->map, b->span + PAGE) != 0) give_up("munmap");
}

/* The pointer that is passed for a block. */
static void *pointer(const block *b, int null) { return null && b->size == 0 ? NULL : b->bytes; }

/* What is passed for a block of elements of a width, where null is known: the pointer and the count. */
#define LENT(b, width) pointer(&(b), null), (b).size / (width)

/* Writes bytes to standard output. */
static void put_bytes(const void *bytes, size_t count) {
    if (count > 0 && fwrite(bytes, 1, count, stdout) != count) give_up("standard output");
}

/* Writes one field of an answer; a signed one comes with its sign. */
static void put(uint64_t value) {
    uint8_t bytes[8];
    for (int i = 0; i < 8; i++) bytes[i] = (uint8_t)(value >> (8 * i));
    put_bytes(bytes, 8);
}

/* Writes the file's first bytes, as they are now. */
static void put_file(void) {
    put(file.shown);
    put_bytes(file.bytes, file.shown);
}

/* Writes each field of a record. */
static void put_record(const classic_open_file *record) {
    put(record->order);
    put(record->reclen);
    put(record->kind);
    put(record->vind);
    put(record->lind);
    put(record->flags);
    put(record->xnext);
    put(record->nextrec);
    put(record->nextword);
    put(record->lex1);
    put(record->nex);
    put(record->gex);
    for (int i = 0; i < 16; i++) put(record->aex[i]);
    for (int i = 0; i < 16; i++) put(record->totals[i]);
}

/* Takes a file from the case and lends it. */
static void new_file(void) {
    size_t total = take_number(8), shown = take_number(8);
    if (shown > total) give_up("more bytes than the file has");
    give_back(&file);
    file_bytes = take(shown);
    file = lend(file_bytes, shown, total);
}

/* Makes the file what it was when it was lent. */
static void file_again(void) {
    allow(&file, PROT_READ | PROT_WRITE);
    memcpy(file.bytes, file_bytes, file.shown);
    allow(&file, PROT_READ);
}

/* Changes bytes of the file. */
static void poke(void) {
    size_t place = take_number(8), count = take_number(8);
    if (place > file.shown || count > file.shown - place) give_up("a change past the file");
    allow(&file, PROT_READ | PROT_WRITE);
    memcpy(file.bytes + place, take(count), count);
    allow(&file, PROT_READ);
}

/* Lends a record, and marks the bytes before it. */
static void lend_record(void) {
    static uint8_t bytes[BEFORE + sizeof(classic_open_file)];
    memset(bytes, MARK, sizeof bytes);
    held = lend(bytes, sizeof bytes, sizeof bytes);
}

/* The record that is lent. */
static classic_open_file *record(void) { return (classic_open_file *)(held.bytes + BEFORE); }

/* Takes each field of the record from the case. */
static void new_record(void) {
    classic_open_file *to = record();
    allow(&held, PROT_READ | PROT_WRITE);
    to->order = take_number(8);
    to->reclen = take_number(8);
    to->kind = take_number(8);
    to->vind = take_number(8);
    to->lind = take_number(8);
    to->flags = take_number(8);
    to->xnext = take_number(8);
    to->nextrec = take_number(8);
    to->nextword = take_number(8);
    to->lex1 = take_number(8);
    to->nex = take_number(8);
    to->gex = take_number(8);
    for (int i = 0; i < 16; i++) to->aex[i] = take_number(8);
    for (int i = 0; i < 16; i++) to->totals[i] = take_number(8);
    allow(&held, PROT_READ);
}

/* Lets a call change the file, and one through the record the record too. */
static void begin_change(int through) {
    allow(&file, PROT_READ | PROT_WRITE);
    if (through) allow(&held, PROT_READ | PROT_WRITE);
}

/* Ends what begin_change began, and sees that the bytes before the record have not changed. */
static void end_change(int through) {
    allow(&file, PROT_READ);
    if (!through) return;
    allow(&held, PROT_READ);
    for (int i = 0; i < BEFORE; i++)
        if (held.bytes[i] != MARK) give_up("bytes before the record have changed");
}

/* Writes what a call may have changed: the file, and after one through the record the record. */
static void put_changed(int through) {
    put_file();
    if (through) put_record(record());
}

/* Creates a file with the settings in the case. */
static void call_create(uint8_t *bytes) {
    classic_settings s;
    s.order = take_integer();
    s.reclen = take_integer();
    s.kind = take_integer();
    s.vind = take_integer();
    s.lind = take_integer();
    s.flags = take_integer();
    s.lex1 = take_integer();
    s.gex = take_integer();
    begin_change(0);
    put(classic_create(bytes, file.size, s));
    end_change(0);
    put_changed(0);
}

/* Validates the file. */
static void call_validate(const uint8_t *bytes) {
    classic_descriptor d = classic_validate(bytes, file.size);
    put(d.refusal);
    put(d.order);
    put(d.reclen);
    put(d.kind);
    put(d.vind);
    put(d.lind);
    put(d.flags);
    put(d.xnext);
    put(d.nextrec);
    put(d.nextword);
    put(d.lex1);
    put(d.nex);
    put(d.gex);
    for (int i = 0; i < 16; i++) put(d.aex[i]);
}

/* Asks for an extension. */
static void call_extension_of(const uint8_t *bytes) {
    classic_extension e = classic_extension_of(bytes, file.size, take_number(8));
    put(e.refusal);
    put(e.capacity);
    put(e.first);
    put(e.records);
}

/* Opens an entry. */
static void call_open(const uint8_t *bytes) {
    classic_entry e = classic_open(bytes, file.size, take_number(8));
    put(e.refusal);
    put(e.record);
    put(e.word);
    put((uint64_t)e.version);
    put(e.nsec);
    put(e.nword);
    put((uint64_t)e.adata);
    put(e.ldata);
    for (int i = 0; i < 64; i++) put((uint64_t)e.ids[i]);
    for (int i = 0; i < 64; i++) put(e.lengths[i]);
    for (int i = 0; i < 64; i++) put(e.addresses[i]);
}

/* Writes the answer of a call that hands out a part. */
static void put_part(classic_part p) {
    put(p.refusal);
    put(p.start);
    put(p.length);
}

/* Asks for a section. */
static void call_section(const uint8_t *bytes) {
    uint64_t entry = take_number(8);
    put_part(classic_section(bytes, file.size, entry, take_integer()));
}

/* Checks the order of the file. */
static void call_check(const uint8_t *bytes) {
    classic_checked c = classic_check(bytes, file.size);
    put(c.entry);
    put(c.refusal);
}

/* Appends what the case gives, through the record or without it, each slice in a block of its own. */
static void call_append(uint8_t *bytes, int null, int through) {
    int32_t version = take_integer();
    block index = take_block(1), ids = take_block(4), lengths = take_block(8);
    block sections = take_block(1), data = take_block(1);
    begin_change(through);
    classic_appended a =
        through ? classic_append_to(record(), bytes, file.size, version, LENT(index, 1), LENT(ids, 4), LENT(lengths, 8),
                                    LENT(sections, 1), LENT(data, 1))
                : classic_append(bytes, file.size, version, LENT(index, 1), LENT(ids, 4), LENT(lengths, 8),
                                 LENT(sections, 1), LENT(data, 1));
    end_change(through);
    put(a.refusal);
    put(a.number);
    put_changed(through);
    give_back(&index);
    give_back(&ids);
    give_back(&lengths);
    give_back(&sections);
    give_back(&data);
}

/* Appends the batch that the case gives, through the record or without it, each array in a block of its own; a row of
   counts has 40 bytes. */
static void call_append_batch(uint8_t *bytes, int null, int through) {
    block versions = take_block(4), counts = take_block(40), index = take_block(1), ids = take_block(4);
    block lengths = take_block(8), sections = take_block(1), data = take_block(1);
    begin_change(through);
    classic_batched b =
        through ? classic_append_batch_to(record(), bytes, file.size, LENT(versions, 4), LENT(counts, 40),
                                          LENT(index, 1), LENT(ids, 4), LENT(lengths, 8), LENT(sections, 1),
                                          LENT(data, 1))
                : classic_append_batch(bytes, file.size, LENT(versions, 4), LENT(counts, 40), LENT(index, 1),
                                       LENT(ids, 4), LENT(lengths, 8), LENT(sections, 1), LENT(data, 1));
    end_change(through);
    put(b.refusal);
    put(b.accepted);
    put_changed(through);
    give_back(&versions);
    give_back(&counts);
    give_back(&index);
    give_back(&ids);
    give_back(&lengths);
    give_back(&sections);
    give_back(&data);
}

/* Updates a section, through the record or without it, by the content that the case gives, in a block of its own: its
   size, and the bytes that it begins with; of those behind them none may be touched. */
static void call_update(uint8_t *bytes, int null, int through) {
    uint64_t entry = take_number(8);
    int32_t identifier = take_integer();
    size_t total = take_number(8), shown = take_number(8);
    if (shown > total) give_up("more bytes than the content has");
    block content = lend(take(shown), shown, total);
    begin_change(through);
    put(through ? classic_update_to(record(), bytes, file.size, entry, identifier, LENT(content, 1))
                : classic_update(bytes, file.size, entry, identifier, LENT(content, 1)));
    end_change(through);
    put_changed(through);
    give_back(&content);
}

/* Asks for the record of the file. */
static void call_open_file_of(const uint8_t *bytes) {
    classic_open_file_answer a = classic_open_file_of(bytes, file.size);
    put(a.refusal);
    put_record(&a.file);
}

/* Makes the call of a number. */
static void call(int which) {
    int null = (int)take_number(1);
    uint8_t *bytes = pointer(&file, null);
    switch (which) {
    case '0': call_create(bytes); break;
    case '1': call_validate(bytes); break;
    case '2': call_extension_of(bytes); break;
    case '3': call_open(bytes); break;
    case '4': put_part(classic_index_words(bytes, file.size, take_number(8))); break;
    case '5': call_section(bytes); break;
    case '6': put_part(classic_data(bytes, file.size, take_number(8))); break;
    case '7': call_check(bytes); break;
    case '8': call_append(bytes, null, 0); break;
    case '9': call_append_batch(bytes, null, 0); break;
    case ':': call_update(bytes, null, 0); break;
    case ';': call_open_file_of(bytes); break;
    case '<': call_append(bytes, null, 1); break;
    case '=': call_append_batch(bytes, null, 1); break;
    case '>': call_update(bytes, null, 1); break;
    default: give_up("a step that is not known");
    }
    if (fflush(stdout) != 0) give_up("standard output");
}

/* Runs the case in the message; a call that does not come to an end is ended by a signal. */
static void run_case(void) {
    message_at = 0;
    alarm(SECONDS);
    while (message_at < message_size) {
        int step = (int)take_number(1);
        if (step == 'F') new_file();
        else if (step == 'A') file_again();
        else if (step == 'P') poke();
        else if (step == 'R') new_record();
        else call(step);
    }
    alarm(0);
}

/* Reads the next case whole; 0 at the end of the input. */
static int next_case(void) {
    uint8_t size[8];
    if (fread(size, 1, sizeof size, stdin) != sizeof size) return 0;
    message_size = number(size, sizeof size);
    message = malloc(message_size > 0 ? message_size : 1);
    if (message == NULL) give_up("malloc");
    if (fread(message, 1, message_size, stdin) != message_size) give_up("the input ends within a case");
    return 1;
}

int main(void) {
    lend_record();
    while (next_case()) {
        run_case();
        free(message);
    }
    give_back(&file);
    give_back(&held);
    return 0;
}
