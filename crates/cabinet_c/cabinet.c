// The calls of cabinet.h. Each tests its pointers for null, and then makes the proved call of the static library
// crates/cabinet_c. At the end is the heap that this library imports.
#include "cabinet.h"

#include <stdbool.h>
#include <stdlib.h>

// The proved calls. Of their arguments those that are a slice there are a pointer and a length here.
uint32_t cabinet_c_check(const uint8_t *archive, size_t length);
uint32_t cabinet_c_ask(uint8_t *archive, size_t length, const uint8_t *line, size_t line_length, uint8_t *answer,
                       size_t capacity, size_t *written);
uint32_t cabinet_c_set(uint8_t *archive, size_t length, const uint8_t *line, size_t line_length);
uint32_t cabinet_c_build(const uint8_t *text, size_t length, uint8_t *archive, size_t capacity, size_t *written,
                         size_t *line);
uint32_t cabinet_c_load(const uint8_t *archive, size_t length, uint8_t *text, size_t capacity, size_t *written);

enum cabinet_status cabinet_check(const uint8_t *archive, size_t length) {
    if (!archive) return CABINET_NULL;
    return cabinet_c_check(archive, length);
}

enum cabinet_status cabinet_ask(uint8_t *archive, size_t length, const uint8_t *line, size_t line_length,
                                uint8_t *answer, size_t capacity, size_t *written) {
    if (!archive || !line || !answer || !written) return CABINET_NULL;
    return cabinet_c_ask(archive, length, line, line_length, answer, capacity, written);
}

enum cabinet_status cabinet_set(uint8_t *archive, size_t length, const uint8_t *line, size_t line_length) {
    if (!archive || !line) return CABINET_NULL;
    return cabinet_c_set(archive, length, line, line_length);
}

enum cabinet_status cabinet_build(const uint8_t *text, size_t length, uint8_t *archive, size_t capacity,
                                  size_t *written, size_t *line) {
    if (!text || !archive || !written || !line) return CABINET_NULL;
    return cabinet_c_build(text, length, archive, capacity, written, line);
}

enum cabinet_status cabinet_load(const uint8_t *archive, size_t length, uint8_t *text, size_t capacity,
                                 size_t *written) {
    if (!archive || !text || !written) return CABINET_NULL;
    return cabinet_c_load(archive, length, text, capacity, written);
}

// Whether memory was given, and where.
struct tried {
    bool ok;
    uint8_t *block;
};

struct tried rattle_alloc(size_t size, size_t align);
struct tried rattle_realloc(uint8_t *block, size_t kept, size_t size, size_t align);
void rattle_dealloc(uint8_t *block);

static struct tried tried(void *block) {
    return (struct tried){.ok = block != NULL, .block = block};
}

// `malloc` is asked to align a block to each power of two up to 16 that divides its size.
struct tried rattle_alloc(size_t size, size_t align) {
    (void)align;
    return tried(malloc(size ? size : 1));
}

struct tried rattle_realloc(uint8_t *block, size_t kept, size_t size, size_t align) {
    (void)kept, (void)align;
    return tried(realloc(block, size ? size : 1));
}

void rattle_dealloc(uint8_t *block) {
    free(block);
}
