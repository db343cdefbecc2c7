// Documents in archives, for C. An archive is bytes of the caller: it is built into a buffer, checked, and then asked and
// edited where it lies. No call keeps anything for the next one.
//
// Of its caller each call asks that
// - a pointer leads to as many bytes as the length after it says, and is not null, also where the length is 0;
// - no two of the pointers of one call lead to the same byte;
// - nothing else writes, while the call runs, what a pointer to const leads to, and nothing else reads or writes what
//   another pointer leads to.
// `cabinet_ask` and `cabinet_set` ask besides that `cabinet_check` accepted the bytes of the archive, and that since then
// `cabinet_set` alone has changed them. `cabinet_build` and `cabinet_load` may be given any bytes.
//
// A call that gives bytes puts them at the front of a buffer and leaves the rest of it. Where the buffer has fewer bytes it
// stays as it was, and the call returns CABINET_SHORT. In both cases `written` is the number of the bytes, so that a call
// with a capacity of 0 tells what the bytes take. Where a call gives no bytes, the buffer stays and `written` is 0.
//
// The calls take memory by `malloc`, and free all of it before they return. They may not be made from a signal handler.
#ifndef CABINET_H
#define CABINET_H

#include <stddef.h>
#include <stdint.h>

#ifdef __cplusplus
extern "C" {
#endif

// What a call tells.
enum cabinet_status {
    CABINET_OK = 0,
    // a pointer is null: nothing was read or written
    CABINET_NULL = 1,
    // the bytes do not fit the buffer
    CABINET_SHORT = 2,
    CABINET_OUT_OF_MEMORY = 3,

    // the bytes are not the archive of a document: there is no node at their root
    CABINET_ACCESS = 4,
    // more than 64 options, lists, maps and wholes lie in one another
    CABINET_TOO_DEEP = 5,
    // a key of an ordered map is not above the one before it
    CABINET_KEYS_NOT_ASCENDING = 6,
    // a key of a hashed or kept map would not be found
    CABINET_WRONG_TAG = 7,
    CABINET_NOT_FOUND = 8,

    // the document is past what archives hold
    CABINET_LIMIT = 9,

    // the bytes are no line that the call takes
    CABINET_BAD = 10,
    // the path of the line leads nowhere
    CABINET_MISSING = 11,
    // `keys` of a node that is no ordered or kept map, `range` of one that is no ordered map
    CABINET_WRONG = 12,
    // the node there is no leaf of this kind, or a text of another number of bytes, or lies in a whole
    CABINET_REFUSED = 13,

    // the first fault of a text
    CABINET_TEXT_NOT_UTF8 = 14,
    CABINET_TEXT_NO_NEWLINE = 15,
    CABINET_TEXT_END_TOO_EARLY = 16,
    CABINET_TEXT_KEY_EXPECTED = 17,
    CABINET_TEXT_BAD_ESCAPE = 18,
    CABINET_TEXT_KEY_ORDER = 19,
    CABINET_TEXT_KEY_REPEATED = 20,
    CABINET_TEXT_UNKNOWN_HEAD = 21,
    CABINET_TEXT_BAD_NUMBER = 22,
    CABINET_TEXT_UNKNOWN_WHOLE = 23,
    CABINET_TEXT_TOO_DEEP = 24,
    CABINET_TEXT_REPEATED_WHOLE = 25,
    CABINET_TEXT_WHOLE_ORDER = 26,
    CABINET_TEXT_LINE_AFTER_END = 27,
};

// Checks that bytes are the archive of a document: CABINET_OK, why not (CABINET_ACCESS to CABINET_NOT_FOUND), or
// CABINET_OUT_OF_MEMORY.
enum cabinet_status cabinet_check(const uint8_t *archive, size_t length);

// Gives the answer to a line `get`, `keys` or `range`, which has no newline: the line that `cab run` prints, with its
// newline. CABINET_OK, CABINET_MISSING or CABINET_WRONG, as the answer is; CABINET_SHORT; CABINET_BAD where the bytes are no
// line, or an edit; CABINET_OUT_OF_MEMORY. The archive stays as it is, but no other call may use it meanwhile.
enum cabinet_status cabinet_ask(uint8_t *archive, size_t length, const uint8_t *line, size_t line_length,
                                uint8_t *answer, size_t capacity, size_t *written);

// Carries out a line `set`, which has no newline, in the bytes of the archive, and changes no other byte than those of the
// leaf. CABINET_OK where it is done; CABINET_MISSING or CABINET_REFUSED; CABINET_BAD where the bytes are no line, or a
// question; CABINET_OUT_OF_MEMORY. Only after CABINET_OK may a byte be another one.
enum cabinet_status cabinet_set(uint8_t *archive, size_t length, const uint8_t *line, size_t line_length);

// Gives the archive of the document that has a text. CABINET_OK; CABINET_SHORT; the first fault of the text
// (CABINET_TEXT_NOT_UTF8 to CABINET_TEXT_LINE_AFTER_END); CABINET_LIMIT; CABINET_OUT_OF_MEMORY. `line` is the line at which
// the text was refused, counted from 1, for want of memory too, and 0 where the text was read.
enum cabinet_status cabinet_build(const uint8_t *text, size_t length, uint8_t *archive, size_t capacity,
                                  size_t *written, size_t *line);

// Checks bytes, and gives the text of the document that they are the archive of. CABINET_OK; CABINET_SHORT; what
// cabinet_check returns of bytes that are none; CABINET_OUT_OF_MEMORY.
enum cabinet_status cabinet_load(const uint8_t *archive, size_t length, uint8_t *text, size_t capacity,
                                 size_t *written);

#ifdef __cplusplus
}
#endif

#endif
