// The first session of README.md, in C: builds the archive of a text, asks it, edits it where it lies, and prints the end of
// the text of the document that it then holds. The argument is the path of the text.
#include "cabinet.h"

#include <stdio.h>
#include <stdlib.h>
#include <string.h>

struct bytes {
    uint8_t *at;
    size_t length;
};

static void stop(const char *call, enum cabinet_status status) {
    fprintf(stderr, "settings: %s: status %d\n", call, (int)status);
    exit(1);
}

static uint8_t *memory(size_t size) {
    uint8_t *block = malloc(size ? size : 1);
    if (!block) stop("malloc", CABINET_OUT_OF_MEMORY);
    return block;
}

static struct bytes file(const char *path) {
    FILE *file = fopen(path, "rb");
    struct bytes bytes = {memory(1 << 20), 0};
    if (!file) {
        perror(path);
        exit(1);
    }
    bytes.length = fread(bytes.at, 1, 1 << 20, file);
    fclose(file);
    return bytes;
}

// The archive of a text: the first call tells how many bytes it takes, and the second makes them.
static struct bytes archive_of(struct bytes text) {
    struct bytes archive = {memory(0), 0};
    size_t line;
    enum cabinet_status status = cabinet_build(text.at, text.length, archive.at, 0, &archive.length, &line);
    if (status == CABINET_SHORT) {
        free(archive.at);
        archive.at = memory(archive.length);
        status = cabinet_build(text.at, text.length, archive.at, archive.length, &archive.length, &line);
    }
    if (line) fprintf(stderr, "settings: line %zu of the text is refused\n", line);
    if (status) stop("cabinet_build", status);
    return archive;
}

// Prints the answer to a question.
static void ask(struct bytes archive, const char *line) {
    uint8_t answer[256];
    size_t written;
    enum cabinet_status status = cabinet_ask(archive.at, archive.length, (const uint8_t *)line, strlen(line), answer,
                                             sizeof answer, &written);
    // of these three there is an answer
    if (status != CABINET_OK && status != CABINET_MISSING && status != CABINET_WRONG) stop(line, status);
    fwrite(answer, 1, written, stdout);
}

static void set(struct bytes archive, const char *line) {
    enum cabinet_status status = cabinet_set(archive.at, archive.length, (const uint8_t *)line, strlen(line));
    if (status) stop(line, status);
    printf("ok\n");
}

// Prints the last two lines of the document's text.
static void print_end(struct bytes archive) {
    uint8_t text[4096];
    size_t written, from, newlines = 0;
    enum cabinet_status status = cabinet_load(archive.at, archive.length, text, sizeof text, &written);
    if (status) stop("cabinet_load", status);
    for (from = written; from > 0; from--) {
        if (text[from - 1] == '\n' && ++newlines == 3) break;
    }
    fwrite(text + from, 1, written - from, stdout);
}

int main(int count, char **words) {
    if (count != 2) {
        fprintf(stderr, "settings: usage: settings TEXT\n");
        return 2;
    }
    struct bytes text = file(words[1]);
    struct bytes archive = archive_of(text);
    printf("built %zu\n", archive.length);
    // as of an archive from elsewhere; this one has just been built
    enum cabinet_status status = cabinet_check(archive.at, archive.length);
    if (status) stop("cabinet_check", status);
    ask(archive, "get 'window 'width");
    set(archive, "set int 1440 'window 'width");
    ask(archive, "get 'window 'width");
    print_end(archive);
    free(archive.at);
    free(text.at);
    return 0;
}
