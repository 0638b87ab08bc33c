/* The rules of document 01 in C, written for speed: one walk over the extensions, one pass over the sections, no
   allocation. It is what the library is timed against, and it is not proved. */
#include "careful.h"

#include <string.h>

#define UNLIKELY(test) __builtin_expect(!!(test), 0)

/* A capacity is counted in parts, so many to an entry that those of the first fifteen extensions are whole. */
static const uint64_t PARTS = 100000000000000;

/* The numbers of an admitted file, and what the walk over its extensions found: totals[k] are the entries that the first
   k hold together, next the parts of the extension behind them, and free the next free position. */
typedef struct {
    uint32_t big, reclen, kind, vind, lind, flags, nextword, lex1, nex, gex;
    uint64_t xnext, nextrec, free, next;
    uint64_t aex[16];
    uint32_t totals[17];
} numbers;

/* An entry that was opened: its position, place and numbers. */
typedef struct {
    uint64_t start, record, nword, adata, ldata;
    uint32_t word, nsec;
} opened;

static inline uint32_t load4(const uint8_t *at, uint32_t big) {
    uint32_t bits;
    memcpy(&bits, at, 4);
    return big ? __builtin_bswap32(bits) : bits;
}

static inline uint64_t load8(const uint8_t *at, uint32_t big) {
    uint64_t bits;
    memcpy(&bits, at, 8);
    return big ? __builtin_bswap64(bits) : bits;
}

static inline void store4(uint8_t *at, uint32_t big, uint32_t bits) {
    if (big) bits = __builtin_bswap32(bits);
    memcpy(at, &bits, 4);
}

static inline void store8(uint8_t *at, uint32_t big, uint64_t bits) {
    if (big) bits = __builtin_bswap64(bits);
    memcpy(at, &bits, 8);
}

/* The parts that follow from parts: times gex, divided by 10, without passing 64 bits. */
static inline uint64_t grown(uint64_t parts, uint32_t gex) {
    return parts / 10 * gex + parts % 10 * gex / 10;
}

static inline uint32_t records_for(uint32_t words, uint32_t reclen) {
    return (words + reclen - 1) / reclen;
}

/* Whether a place stands at or before a position, however large its record is. */
static inline int within(uint64_t record, uint32_t word, uint32_t reclen, uint64_t limit) {
    return record - 1 <= limit && (record - 1) * reclen + word - 1 <= limit;
}

/* Whether there is only zero from one offset to another, both whole words: by two halves side by side, so that where the
   loop comes to stand tells less. */
static int all_zero(const uint8_t *from, const uint8_t *to) {
    size_t half = (size_t)(to - from + 4) / 8 * 4;
    uint32_t first = 0, second = 0;
    for (size_t done = 0; done < half; done += 4) {
        first |= load4(from + done, 0);
        second |= load4(to - half + done, 0);
    }
    return (first | second) == 0;
}

/* Rules 8 to 11 of settings that are within their limits: the walk. */
static uint32_t walk(const uint8_t *file, size_t bytes, numbers *d) {
    uint64_t parts = d->lex1 * PARTS, after = 2, words = bytes / 4, n = d->xnext - 1;
    uint32_t capacity = d->lex1, total = 0, ordered = 1;
    d->totals[0] = 0;
    for (uint32_t k = 0; k < d->nex; k++) {
        uint64_t first = load8(file + 56 + 8 * k, d->big);
        if (UNLIKELY(capacity > 16384)) return 8;
        total += capacity;
        d->aex[k] = first;
        d->totals[k + 1] = total;
        ordered &= first >= after && (int64_t)first >= 0;
        after = first + records_for(capacity * d->lind, d->reclen);
        parts = grown(parts, d->gex);
        capacity = (uint32_t)(parts / PARTS);
    }
    d->next = parts;
    if (UNLIKELY((int64_t)d->xnext < 1 || n > total || (d->nex != 0 && n <= d->totals[d->nex - 1]))) return 9;
    if (UNLIKELY((int64_t)d->nextrec < 2 || d->nextword - 1 >= d->reclen)) return 10;
    if (UNLIKELY(!within(d->nextrec, d->nextword, d->reclen, words))) return 10;
    d->free = (d->nextrec - 1) * d->reclen + d->nextword - 1;
    if (UNLIKELY(!ordered || !within(after, 1, d->reclen, d->free))) return 11;
    return 0;
}

/* Rules 1 to 11 and 29. */
static uint32_t validate(const uint8_t *file, size_t bytes, numbers *d) {
    uint32_t code, refusal, mex;
    if (UNLIKELY(bytes < 64)) return 1;
    code = load4(file, 0);
    d->big = code == 0x20204232;
    if (UNLIKELY(!d->big && code != 0x20204132)) return 2;
    d->reclen = load4(file + 4, d->big);
    d->kind = load4(file + 8, d->big);
    d->vind = load4(file + 12, d->big);
    d->lind = load4(file + 16, d->big);
    d->flags = load4(file + 20, d->big);
    d->xnext = load8(file + 24, d->big);
    d->nextrec = load8(file + 32, d->big);
    d->nextword = load4(file + 40, d->big);
    d->lex1 = load4(file + 44, d->big);
    d->nex = load4(file + 48, d->big);
    d->gex = load4(file + 52, d->big);
    if (UNLIKELY(d->reclen - 16 > 4096 - 16)) return 3;
    if (UNLIKELY(bytes > (size_t)1 << 30 || (uint32_t)bytes % (4 * d->reclen) != 0)) return 4;
    if (UNLIKELY(d->kind - 1 > 2)) return 5;
    if (UNLIKELY((int32_t)d->vind < 2 || d->lind - 3 > 256 - 3)) return 6;
    if (UNLIKELY(d->flags > 1)) return 7;
    mex = (d->reclen - 14) / 2 < 16 ? (d->reclen - 14) / 2 : 16;
    if (UNLIKELY(d->lex1 - 1 > 4095 || d->gex - 10 > 10 || d->nex > mex)) return 8;
    refusal = walk(file, bytes, d);
    if (UNLIKELY(refusal != 0)) return refusal;
    if (UNLIKELY(!all_zero(file + 56 + 8 * d->nex, file + 4 * d->reclen))) return 29;
    return 0;
}

/* Whether a piece shares a word with one of the first sections. */
static int shares(const uint8_t *lengths, const uint8_t *addresses, uint32_t big, uint32_t count, uint64_t address,
                  uint64_t words) {
    for (uint32_t i = 0; i < count; i++) {
        uint64_t other = load8(addresses + 8 * i, big), other_words = load8(lengths + 8 * i, big);
        if (other + other_words > address && address + words > other) return 1;
    }
    return 0;
}

/* Rules 18 and 19 in one pass: a section that starts at or after the end of all before it shares nothing with them. */
static uint32_t contents(const uint8_t *entry, uint32_t big, const opened *e) {
    const uint8_t *lengths = entry + 44 + 4 * e->nsec, *addresses = lengths + 8 * e->nsec;
    uint64_t first = 12 + 5 * e->nsec, limit = e->nword + 1, top = 0;
    int shared = 0;
    for (uint32_t i = 0; i < e->nsec; i++) {
        uint64_t words = load8(lengths + 8 * i, big), address = load8(addresses + 8 * i, big);
        if (UNLIKELY((int64_t)words < 1 || (int64_t)address < (int64_t)first)) return 18;
        if (UNLIKELY(address + words > limit)) return 18;
        if (UNLIKELY(address < top)) shared |= shares(lengths, addresses, big, i, address, words);
        if (address + words > top) top = address + words;
    }
    if (UNLIKELY(shared)) return 19;
    if (e->ldata != 0 && UNLIKELY(e->adata < top) && shares(lengths, addresses, big, e->nsec, e->adata, e->ldata)) return 19;
    return 0;
}

/* Rules 13 to 19 of the entry whose slot is at a position. */
static inline uint32_t enter(const uint8_t *file, const numbers *d, uint64_t slot, uint64_t number, opened *e) {
    const uint8_t *entry;
    uint32_t code;
    e->record = load8(file + 4 * slot, d->big);
    e->word = load4(file + 4 * slot + 8, d->big);
    if (UNLIKELY((int64_t)e->record < 2 || e->word - 1 >= d->reclen)) return 13;
    if (UNLIKELY(!within(e->record, e->word, d->reclen, d->free - 11))) return 13;
    e->start = (e->record - 1) * d->reclen + e->word - 1;
    entry = file + 4 * e->start;
    code = load4(entry, 0);
    if (UNLIKELY(code != 0x20202032)) return 14;
    e->nsec = load4(entry + 8, d->big);
    e->nword = load8(entry + 12, d->big);
    if (UNLIKELY(e->nsec > 64 || (int64_t)e->nword < (int64_t)(11 + 5 * e->nsec))) return 15;
    if (UNLIKELY(e->nword > d->free - e->start)) return 15;
    if (UNLIKELY(load8(entry + 36, d->big) != number)) return 16;
    e->adata = load8(entry + 20, d->big);
    e->ldata = load8(entry + 28, d->big);
    if (UNLIKELY((int64_t)e->ldata < 0)) return 17;
    if (e->ldata != 0) {
        if (UNLIKELY((int64_t)e->adata < (int64_t)(12 + 5 * e->nsec) || e->adata + e->ldata > e->nword + 1)) return 17;
    }
    return contents(entry, d->big, e);
}

/* Validates, finds the slot of an entry, and opens it. */
static inline uint32_t reach(const uint8_t *file, size_t bytes, uint64_t number, numbers *d, uint64_t *slot, opened *e) {
    uint32_t refusal = validate(file, bytes, d), k = 1;
    if (UNLIKELY(refusal != 0)) return refusal;
    if (UNLIKELY(number - 1 >= d->xnext - 1)) return 12;
    while (d->totals[k] < number) k++;
    *slot = (d->aex[k - 1] - 1) * d->reclen + (number - d->totals[k - 1] - 1) * d->lind;
    return enter(file, d, *slot, number, e);
}

classic_descriptor careful_validate(const uint8_t *file, size_t bytes) {
    classic_descriptor answer;
    numbers d;
    memset(&answer, 0, sizeof answer);
    answer.refusal = validate(file, bytes, &d);
    if (answer.refusal != 0) return answer;
    answer.order = d.big, answer.reclen = d.reclen, answer.kind = d.kind, answer.vind = d.vind, answer.lind = d.lind;
    answer.flags = d.flags, answer.xnext = d.xnext, answer.nextrec = d.nextrec, answer.nextword = d.nextword;
    answer.lex1 = d.lex1, answer.nex = d.nex, answer.gex = d.gex;
    for (uint32_t k = 0; k < d.nex; k++) answer.aex[k] = d.aex[k];
    return answer;
}

classic_extension careful_extension_of(const uint8_t *file, size_t bytes, uint64_t number) {
    classic_extension answer = {0, 0, 0, 0};
    numbers d;
    answer.refusal = validate(file, bytes, &d);
    if (answer.refusal != 0) return answer;
    if (UNLIKELY(number - 1 >= d.nex)) {
        answer.refusal = 12;
        return answer;
    }
    answer.capacity = d.totals[number] - d.totals[number - 1];
    answer.first = d.aex[number - 1];
    answer.records = records_for((uint32_t)answer.capacity * d.lind, d.reclen);
    return answer;
}

classic_entry careful_open(const uint8_t *file, size_t bytes, uint64_t number) {
    classic_entry answer;
    numbers d;
    opened e;
    uint64_t slot;
    const uint8_t *tables;
    memset(&answer, 0, sizeof answer);
    answer.refusal = reach(file, bytes, number, &d, &slot, &e);
    if (answer.refusal != 0) return answer;
    answer.record = e.record, answer.word = e.word, answer.nsec = e.nsec, answer.nword = e.nword;
    answer.version = (int32_t)load4(file + 4 * e.start + 4, d.big);
    answer.adata = (int64_t)e.adata, answer.ldata = e.ldata;
    tables = file + 4 * e.start + 44;
    for (uint32_t i = 0; i < e.nsec; i++) {
        answer.ids[i] = (int32_t)load4(tables + 4 * i, d.big);
        answer.lengths[i] = load8(tables + 4 * e.nsec + 8 * i, d.big);
        answer.addresses[i] = load8(tables + 12 * e.nsec + 8 * i, d.big);
    }
    return answer;
}

classic_part careful_index_words(const uint8_t *file, size_t bytes, uint64_t number) {
    classic_part answer = {0, 0, 0};
    numbers d;
    opened e;
    uint64_t slot;
    answer.refusal = reach(file, bytes, number, &d, &slot, &e);
    if (answer.refusal != 0) return answer;
    answer.start = 4 * (slot + 3);
    answer.length = 4 * (d.lind - 3);
    return answer;
}

classic_part careful_section(const uint8_t *file, size_t bytes, uint64_t number, int32_t identifier) {
    classic_part answer = {0, 0, 0};
    numbers d;
    opened e;
    uint64_t slot;
    const uint8_t *tables;
    answer.refusal = reach(file, bytes, number, &d, &slot, &e);
    if (answer.refusal != 0) return answer;
    tables = file + 4 * e.start + 44;
    for (uint32_t i = 0; i < e.nsec; i++) {
        if ((int32_t)load4(tables + 4 * i, d.big) != identifier) continue;
        answer.start = 4 * (e.start + load8(tables + 12 * e.nsec + 8 * i, d.big) - 1);
        answer.length = 4 * load8(tables + 4 * e.nsec + 8 * i, d.big);
        return answer;
    }
    answer.refusal = 20;
    return answer;
}

classic_part careful_data(const uint8_t *file, size_t bytes, uint64_t number) {
    classic_part answer = {0, 0, 0};
    numbers d;
    opened e;
    uint64_t slot;
    answer.refusal = reach(file, bytes, number, &d, &slot, &e);
    if (answer.refusal != 0 || e.ldata == 0) return answer;
    answer.start = 4 * (e.start + e.adata - 1);
    answer.length = 4 * e.ldata;
    return answer;
}

classic_checked careful_check(const uint8_t *file, size_t bytes) {
    classic_checked answer = {0, 0};
    numbers d;
    opened e;
    uint64_t number = 1, before;
    answer.refusal = validate(file, bytes, &d);
    if (answer.refusal != 0) return answer;
    for (uint32_t k = 1; k <= d.nex; k++) {
        uint64_t slot = (d.aex[k - 1] - 1) * d.reclen, last = d.totals[k] < d.xnext - 1 ? d.totals[k] : d.xnext - 1;
        before = slot + (uint64_t)records_for((d.totals[k] - d.totals[k - 1]) * d.lind, d.reclen) * d.reclen;
        for (; number <= last; number++, slot += d.lind) {
            answer.refusal = enter(file, &d, slot, number, &e);
            if (UNLIKELY(answer.refusal == 0 && e.start < before)) answer.refusal = 25;
            before = e.start + e.nword;
            if (UNLIKELY(answer.refusal == 0 && number == d.totals[k] && k < d.nex && before > (d.aex[k] - 1) * d.reclen)) {
                answer.refusal = 25;
            }
            if (UNLIKELY(answer.refusal != 0)) {
                answer.entry = number;
                return answer;
            }
        }
    }
    return answer;
}

/* Whether no two identifiers are equal: one above all before it is new. */
static int distinct(const int32_t *ids, size_t count) {
    int32_t highest = count == 0 ? 0 : ids[0];
    for (size_t i = 1; i < count; i++) {
        if (ids[i] > highest) {
            highest = ids[i];
            continue;
        }
        for (size_t j = 0; j < i; j++)
            if (ids[j] == ids[i]) return 0;
    }
    return 1;
}

/* Rules 21 and 22. */
static uint32_t handed(const numbers *d, size_t index_bytes, const int32_t *ids, size_t id_count, const int64_t *lengths,
                       size_t length_count, size_t section_bytes, size_t data_bytes) {
    uint64_t left = section_bytes / 4;
    if (UNLIKELY(index_bytes != 4 * (d->lind - 3))) return 21;
    if (UNLIKELY(id_count > 64 || length_count != id_count || !distinct(ids, id_count))) return 22;
    for (size_t i = 0; i < length_count; i++) {
        if (UNLIKELY(lengths[i] < 1 || left < (uint64_t)lengths[i])) return 22;
        left -= (uint64_t)lengths[i];
    }
    if (UNLIKELY(section_bytes % 4 != 0 || left != 0 || data_bytes % 4 != 0)) return 22;
    return 0;
}

classic_appended careful_append(uint8_t *file, size_t bytes, int32_t version,
                                const uint8_t *index, size_t index_bytes,
                                const int32_t *ids, size_t id_count,
                                const int64_t *lengths, size_t length_count,
                                const uint8_t *sections, size_t section_bytes,
                                const uint8_t *data, size_t data_bytes) {
    classic_appended answer = {0, 0};
    numbers d;
    uint64_t slot, start, end, area = 0, nsec = id_count, address, nword;
    uint8_t *entry;
    int extends;
    answer.refusal = validate(file, bytes, &d);
    if (answer.refusal != 0) return answer;
    answer.refusal = handed(&d, index_bytes, ids, id_count, lengths, length_count, section_bytes, data_bytes);
    if (answer.refusal != 0) return answer;
    nword = 11 + 5 * nsec + section_bytes / 4 + data_bytes / 4;
    extends = d.xnext - 1 == d.totals[d.nex];
    if (extends) {
        uint32_t mex = (d.reclen - 14) / 2 < 16 ? (d.reclen - 14) / 2 : 16;
        uint32_t capacity = (uint32_t)(d.next / PARTS);
        if (UNLIKELY(d.nex >= mex || capacity > 16384)) {
            answer.refusal = 23;
            return answer;
        }
        area = (d.free + d.reclen - 1) / d.reclen + 1;
        slot = (area - 1) * d.reclen;
        start = slot + (uint64_t)records_for(capacity * d.lind, d.reclen) * d.reclen;
    } else {
        start = d.free;
        slot = (d.aex[d.nex - 1] - 1) * d.reclen + (d.xnext - 1 - d.totals[d.nex - 1]) * d.lind;
    }
    end = start + nword;
    if (UNLIKELY(end > bytes / 4)) {
        answer.refusal = 24;
        return answer;
    }
    entry = file + 4 * start;
    memcpy(entry, "2   ", 4);
    store4(entry + 4, d.big, (uint32_t)version);
    store4(entry + 8, d.big, (uint32_t)nsec);
    store8(entry + 12, d.big, nword);
    store8(entry + 20, d.big, data_bytes == 0 ? 0 : 12 + 5 * nsec + section_bytes / 4);
    store8(entry + 28, d.big, data_bytes / 4);
    store8(entry + 36, d.big, d.xnext);
    address = 12 + 5 * nsec;
    for (size_t i = 0; i < nsec; i++) {
        store4(entry + 44 + 4 * i, d.big, (uint32_t)ids[i]);
        store8(entry + 44 + 4 * nsec + 8 * i, d.big, (uint64_t)lengths[i]);
        store8(entry + 44 + 12 * nsec + 8 * i, d.big, address);
        address += (uint64_t)lengths[i];
    }
    memcpy(entry + 44 + 20 * nsec, sections, section_bytes);
    memcpy(entry + 44 + 20 * nsec + section_bytes, data, data_bytes);
    store8(file + 4 * slot, d.big, start / d.reclen + 1);
    store4(file + 4 * slot + 8, d.big, (uint32_t)(start % d.reclen) + 1);
    memcpy(file + 4 * slot + 12, index, index_bytes);
    if (extends) {
        memset(file + 4 * d.free, 0, 4 * (slot - d.free));
        memset(file + 4 * (slot + d.lind), 0, 4 * (start - slot - d.lind));
        store4(file + 48, d.big, d.nex + 1);
        store8(file + 56 + 8 * d.nex, d.big, area);
    }
    store8(file + 24, d.big, d.xnext + 1);
    store8(file + 32, d.big, end / d.reclen + 1);
    store4(file + 40, d.big, (uint32_t)(end % d.reclen) + 1);
    answer.number = d.xnext;
    return answer;
}
