// Makes the calls of cabinet.h that the rows of the standard input name, and compares what each call leaves with what its
// row says. A row has these words, each after a tab but the first; a bar in a TEXT, a LINE or an ANSWER is a newline:
//
//   check STATUS HEX
//   load STATUS HEX TEXT
//   build STATUS NUMBER TEXT HEX
//   ask STATUS HEX LINE ANSWER
//   set STATUS HEX LINE HEX
//
// STATUS is a name of cabinet.h without CABINET_, HEX are the bytes of an archive, NUMBER is that of the line at which the
// text is refused. Where a call gives no bytes its last word is empty. A call that gives bytes is made with a buffer of each
// length from 0 to eight more than these. Where cabinet.c was compiled so that it takes memory from the functions
// `counted_`, each call is made again with each of its allocations refused in turn. With the word `limit` it takes no rows,
// and makes one call with a text past the limits of archives, for which it needs 2 GB.
#include "cabinet.h"

#include <stdbool.h>
#include <stdio.h>
#include <stdlib.h>
#include <string.h>

struct bytes {
    uint8_t *at;
    size_t length;
};

static int rows, calls, failed, refusals;

static void differs(const char *what) {
    printf("FAILED: row %d: %s\n", rows, what);
    failed++;
}

static bool is_same(struct bytes one, struct bytes other) {
    return one.length == other.length && memcmp(one.at, other.at, one.length) == 0;
}

// ---- memory

static size_t allocations, refused_at, blocks;

void *counted_malloc(size_t size);
void *counted_realloc(void *block, size_t size);
void counted_free(void *block);

void *counted_malloc(size_t size) {
    if (++allocations == refused_at) return NULL;
    blocks++;
    return malloc(size);
}

void *counted_realloc(void *block, size_t size) {
    if (++allocations == refused_at) return NULL;
    return realloc(block, size);
}

void counted_free(void *block) {
    blocks -= block != NULL;
    free(block);
}

// Blocks have the length of their bytes, so that valgrind sees each byte beside them that is read or written.
static struct bytes bytes_of(size_t length) {
    struct bytes bytes = {malloc(length ? length : 1), length};
    if (!bytes.at) exit(3);
    return bytes;
}

static struct bytes copy_of(struct bytes bytes) {
    struct bytes copy = bytes_of(bytes.length);
    memcpy(copy.at, bytes.at, bytes.length);
    return copy;
}

// A buffer of bytes that no call writes.
static struct bytes buffer_of(size_t capacity) {
    struct bytes buffer = bytes_of(capacity);
    memset(buffer.at, 0xa5, capacity);
    return buffer;
}

// ---- rows

#define NAME(status) {#status, CABINET_##status}
static const struct {
    const char *name;
    enum cabinet_status status;
} NAMES[] = {
    NAME(OK), NAME(NULL), NAME(SHORT), NAME(OUT_OF_MEMORY), NAME(ACCESS), NAME(TOO_DEEP), NAME(KEYS_NOT_ASCENDING),
    NAME(WRONG_TAG), NAME(NOT_FOUND), NAME(LIMIT), NAME(BAD), NAME(MISSING), NAME(WRONG), NAME(REFUSED),
    NAME(TEXT_NOT_UTF8), NAME(TEXT_NO_NEWLINE), NAME(TEXT_END_TOO_EARLY), NAME(TEXT_KEY_EXPECTED),
    NAME(TEXT_BAD_ESCAPE), NAME(TEXT_KEY_ORDER), NAME(TEXT_KEY_REPEATED), NAME(TEXT_UNKNOWN_HEAD),
    NAME(TEXT_BAD_NUMBER), NAME(TEXT_UNKNOWN_WHOLE), NAME(TEXT_TOO_DEEP), NAME(TEXT_REPEATED_WHOLE),
    NAME(TEXT_WHOLE_ORDER), NAME(TEXT_LINE_AFTER_END),
};
enum { STATUSES = sizeof NAMES / sizeof *NAMES };

static enum cabinet_status status_of(const char *word) {
    for (int i = 0; i < STATUSES; i++) {
        if (strcmp(word, NAMES[i].name) == 0) return NAMES[i].status;
    }
    printf("no status: %s\n", word);
    exit(3);
}

// Which statuses a call returned.
static bool is_told[STATUSES];

static enum cabinet_status told(enum cabinet_status status) {
    calls++;
    if ((int)status < 0 || (int)status >= STATUSES) {
        differs("the status is none");
    } else {
        is_told[status] = true;
    }
    return status;
}

static struct bytes text_of(const char *word) {
    struct bytes text = bytes_of(strlen(word));
    for (size_t i = 0; i < text.length; i++) text.at[i] = word[i] == '|' ? '\n' : (uint8_t)word[i];
    return text;
}

static struct bytes hex_of(const char *word) {
    struct bytes bytes = bytes_of(strlen(word) / 2);
    for (size_t i = 0; i < bytes.length; i++) {
        unsigned byte;
        if (sscanf(word + 2 * i, "%2x", &byte) != 1) exit(3);
        bytes.at[i] = (uint8_t)byte;
    }
    return bytes;
}

enum kind { CHECK, LOAD, BUILD, ASK, SET };

// A call, and what it leaves: the bytes that it gives, or of `SET` the archive after it.
struct row {
    enum kind kind;
    struct bytes input, line;
    enum cabinet_status status;
    struct bytes output;
    size_t at_line;
};

// What a call left.
struct left {
    enum cabinet_status status;
    struct bytes input, line, buffer;
    size_t written, at_line;
};

// Makes a call on copies of its bytes.
static struct left make(const struct row *row, size_t capacity) {
    struct left left = {CABINET_OK, copy_of(row->input), copy_of(row->line), buffer_of(capacity), 77, 77};
    struct bytes input = left.input, line = left.line, buffer = left.buffer;
    size_t *written = &left.written;
    switch (row->kind) {
        case CHECK: left.status = cabinet_check(input.at, input.length); break;
        case LOAD: left.status = cabinet_load(input.at, input.length, buffer.at, capacity, written); break;
        case BUILD:
            left.status = cabinet_build(input.at, input.length, buffer.at, capacity, written, &left.at_line);
            break;
        case ASK:
            left.status = cabinet_ask(input.at, input.length, line.at, line.length, buffer.at, capacity, written);
            break;
        case SET: left.status = cabinet_set(input.at, input.length, line.at, line.length); break;
    }
    told(left.status);
    return left;
}

static void drop(struct left left) {
    free(left.input.at);
    free(left.line.at);
    free(left.buffer.at);
}

static bool gives(enum kind kind) {
    return kind == LOAD || kind == BUILD || kind == ASK;
}

static bool stays(struct bytes buffer, size_t from) {
    for (size_t i = from; i < buffer.length; i++) {
        if (buffer.at[i] != 0xa5) return false;
    }
    return true;
}

// What every call leaves: the line, and the input of each call but a set.
static void keeps(const struct row *row, const struct left *left) {
    if (!is_same(left->line, row->line)) differs("the bytes of the line are others");
    if (row->kind != SET && !is_same(left->input, row->input)) differs("the bytes of the input are others");
    if (!gives(row->kind) && left->written != 77) differs("a count is written");
    if (row->kind != BUILD && left->at_line != 77) differs("a number of a line is written");
}

// What is left by a call that ends as its row says.
static void ends(const struct row *row, const struct left *left) {
    bool is_short = left->buffer.length < row->output.length;
    keeps(row, left);
    if (row->kind == SET && !is_same(left->input, row->output)) differs("the archive is another");
    if (row->kind == BUILD && left->at_line != row->at_line) differs("the number of the line is another");
    if (!gives(row->kind)) {
        if (left->status != row->status) differs("the status is another");
        return;
    }
    if (left->status != (is_short ? CABINET_SHORT : row->status)) differs("the status is another");
    if (left->written != row->output.length) differs("the count is another");
    if (!is_short && memcmp(left->buffer.at, row->output.at, row->output.length) != 0) differs("other bytes are given");
    if (!stays(left->buffer, is_short ? 0 : row->output.length)) differs("the rest of the buffer is another");
}

// What is left by a call that memory was refused.
static void ends_for_memory(const struct row *row, const struct left *left) {
    size_t lines = 1;
    for (size_t i = 0; i < row->input.length; i++) lines += row->input.at[i] == '\n';
    keeps(row, left);
    if (!stays(left->buffer, 0)) differs("memory is refused, and the buffer written");
    if (row->kind == SET && !is_same(left->input, row->input)) differs("memory is refused, and the archive written");
    if (row->kind == BUILD && left->at_line > lines) differs("memory is refused at a line that is not there");
    if (gives(row->kind) && left->written != 0) differs("memory is refused, and the count is not 0");
}

// Makes a call again and again, with each of its allocations refused in turn.
static void refuse_each(const struct row *row) {
    for (size_t at = 1;; at++) {
        size_t before = blocks;
        allocations = 0;
        refused_at = at;
        struct left left = make(row, row->output.length + 8);
        bool was_refused = allocations >= at;
        refused_at = 0;
        if (left.status == CABINET_OUT_OF_MEMORY && was_refused) {
            ends_for_memory(row, &left);
        } else {
            // the memory was not needed, or nothing was refused
            ends(row, &left);
        }
        if (blocks != before) differs("memory is not freed");
        drop(left);
        if (!was_refused) return;
        refusals++;
    }
}

static void carry_out(const struct row *row) {
    size_t most = gives(row->kind) ? row->output.length + 8 : 0;
    for (size_t capacity = 0; capacity <= most; capacity++) {
        struct left left = make(row, capacity);
        ends(row, &left);
        drop(left);
    }
    refuse_each(row);
}

// ---- null pointers

// Each call, with each of its pointers null and with the others not.
static void nulls(void) {
    uint8_t a[24] = {1}, b[24] = {2}, c[24] = {3};
    size_t n = 77, m = 77;
    enum cabinet_status each[] = {
        cabinet_check(NULL, 24),
        cabinet_check(NULL, 0),
        cabinet_ask(NULL, 24, b, 3, c, 24, &n),
        cabinet_ask(a, 24, NULL, 0, c, 24, &n),
        cabinet_ask(a, 24, b, 3, NULL, 0, &n),
        cabinet_ask(a, 24, b, 3, c, 24, NULL),
        cabinet_set(NULL, 0, b, 3),
        cabinet_set(a, 24, NULL, 0),
        cabinet_build(NULL, 0, b, 24, &n, &m),
        cabinet_build(a, 6, NULL, 0, &n, &m),
        cabinet_build(a, 6, b, 24, NULL, &m),
        cabinet_build(a, 6, b, 24, &n, NULL),
        cabinet_load(NULL, 0, b, 24, &n),
        cabinet_load(a, 24, NULL, 0, &n),
        cabinet_load(a, 24, b, 24, NULL),
    };
    for (size_t i = 0; i < sizeof each / sizeof *each; i++) {
        if (told(each[i]) != CABINET_NULL) differs("a null pointer is taken");
    }
    if (a[0] != 1 || b[0] != 2 || c[0] != 3 || n != 77 || m != 77) differs("a call with a null pointer writes");
}

// ---- a document past the limits

// The text of a text of 2^30 bytes, which is one byte more than archives hold.
static void past_limits(void) {
    struct bytes text = bytes_of(((size_t)1 << 30) + 7), buffer = buffer_of(24);
    size_t written = 77, line = 77;
    memset(text.at, 'a', text.length);
    memcpy(text.at, "text '", 6);
    text.at[text.length - 1] = '\n';
    if (told(cabinet_build(text.at, text.length, buffer.at, buffer.length, &written, &line)) != CABINET_LIMIT)
        differs("a text past the limits is taken");
    if (written != 0 || line != 0 || !stays(buffer, 0)) differs("bytes or a line are given of a text past the limits");
    free(text.at);
    free(buffer.at);
}

// ---- all rows

// Reads a row of words, and carries it out.
static void take_row(char **word) {
    struct bytes none = {(uint8_t *)"", 0};
    struct row row = {.line = none, .output = none, .status = status_of(word[1])};
    rows++;
    if (strcmp(word[0], "check") == 0) {
        row.kind = CHECK, row.input = hex_of(word[2]);
    } else if (strcmp(word[0], "load") == 0) {
        row.kind = LOAD, row.input = hex_of(word[2]), row.output = text_of(word[3]);
    } else if (strcmp(word[0], "build") == 0) {
        row.kind = BUILD, row.input = text_of(word[3]), row.output = hex_of(word[4]);
        row.at_line = (size_t)atol(word[2]);
    } else if (strcmp(word[0], "ask") == 0) {
        row.kind = ASK, row.input = hex_of(word[2]), row.line = text_of(word[3]), row.output = text_of(word[4]);
    } else if (strcmp(word[0], "set") == 0) {
        row.kind = SET, row.input = hex_of(word[2]), row.line = text_of(word[3]), row.output = hex_of(word[4]);
    } else {
        printf("no call: %s\n", word[0]);
        exit(3);
    }
    carry_out(&row);
    free(row.input.at);
    if (row.line.at != none.at) free(row.line.at);
    if (row.output.at != none.at) free(row.output.at);
}

int main(int count, char **arguments) {
    static char line[1 << 20];
    if (count == 2 && strcmp(arguments[1], "limit") == 0) {
        past_limits();
        return failed != 0;
    }
    nulls();
    while (fgets(line, sizeof line, stdin)) {
        char *words[6] = {line, "", "", "", "", ""};
        line[strcspn(line, "\n")] = 0;
        for (int i = 1; i < 5; i++) {
            char *tab = strchr(words[i - 1], '\t');
            if (!tab) break;
            *tab = 0;
            words[i] = tab + 1;
        }
        take_row(words);
    }
    for (int i = 0; i < STATUSES; i++) {
        if (!is_told[i]) printf("not told: %s\n", NAMES[i].name);
    }
    printf("%d rows, %d calls, %d refused allocations, %d failed\n", rows, calls, refusals, failed);
    return failed != 0;
}
