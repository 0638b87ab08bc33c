/* The calls of include/classic.h that make bench times, once more, in C: careful.c. They take and answer what the
   library's calls of the same names do. */
#ifndef CAREFUL_H
#define CAREFUL_H

#include "classic.h"

classic_descriptor careful_validate(const uint8_t *file, size_t bytes);
classic_extension careful_extension_of(const uint8_t *file, size_t bytes, uint64_t number);
classic_entry careful_open(const uint8_t *file, size_t bytes, uint64_t entry);
classic_part careful_index_words(const uint8_t *file, size_t bytes, uint64_t entry);
classic_part careful_section(const uint8_t *file, size_t bytes, uint64_t entry, int32_t identifier);
classic_part careful_data(const uint8_t *file, size_t bytes, uint64_t entry);
classic_checked careful_check(const uint8_t *file, size_t bytes);
classic_appended careful_append(uint8_t *file, size_t bytes, int32_t version,
                                const uint8_t *index, size_t index_bytes,
                                const int32_t *ids, size_t id_count,
                                const int64_t *lengths, size_t length_count,
                                const uint8_t *sections, size_t section_bytes,
                                const uint8_t *data, size_t data_bytes);

#endif
