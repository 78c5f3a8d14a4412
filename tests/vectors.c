/*
 * vectors CALLS ANSWERS: the calls of a file through the static library, beside the answers of another
 * reader: number, depth figure of a load, yes or no of a query, and all bytes of the store after the call.
 *
 * CALLS, a step a line: N length fill bytes (a new buffer: the bytes, then the fill byte), P offset bytes
 * (bytes written into it), F (fresh), G (fresh with limits: depth, parents, code), C (creation), K (creation
 * without int) and D (deletion) with a domain, L (domain, file), R (package), Q (domain, package, class, name).
 * ANSWERS, a line a call: step, number, depth, yes or no, and the FNV-1a hash of the buffer.
 * Bytes are in hexadecimal, - for none.
 *
 * Prints how many calls were answered alike, or the first that was not; exit status 0 only for the former.
 */
#include <inttypes.h>
#include <stdio.h>
#include <stdlib.h>
#include <string.h>

#include "loader.h"

enum { LINE_MOST = 300000, BYTES_MOST = 70000 };

struct bytes {
    size_t length;
    uint8_t *at;
};

static char line[LINE_MOST];
static uint8_t buffers[3][BYTES_MOST];
static struct bytes store = {0, buffers[0]};
static struct bytes first = {0, buffers[1]};
static struct bytes second = {0, buffers[2]};

static void stop(const char *what, unsigned long step)
{
    fprintf(stderr, "vectors: step %lu: %s\n", step, what);
    exit(1);
}

/* The next word of the line, or NULL. */
static char *word(void)
{
    return strtok(NULL, " \n");
}

static unsigned long figure(unsigned long step)
{
    char *text = word();
    if (text == NULL) {
        stop("a figure is missing", step);
    }
    return strtoul(text, NULL, 10);
}

static void take_bytes(struct bytes *bytes, unsigned long step)
{
    const char *text = word();
    bytes->length = 0;
    if (text == NULL) {
        stop("bytes are missing", step);
    }
    for (; text[0] != '-' && text[0] != '\0'; text += 2) {
        unsigned value;
        if (bytes->length == BYTES_MOST || sscanf(text, "%2x", &value) != 1) {
            stop("not bytes", step);
        }
        bytes->at[bytes->length++] = (uint8_t)value;
    }
}

/* N length fill bytes. */
static void make(unsigned long step)
{
    unsigned long length = figure(step);
    unsigned long fill = strtoul(word(), NULL, 16);
    if (length > BYTES_MOST) {
        stop("a buffer is too long", step);
    }
    take_bytes(&store, step);
    memset(store.at + store.length, (int)fill, length - store.length);
    store.length = length;
}

/* P offset bytes. */
static void damage(unsigned long step)
{
    unsigned long offset = figure(step);
    take_bytes(&first, step);
    if (offset + first.length > store.length) {
        stop("bytes outside the buffer", step);
    }
    memcpy(store.at + offset, first.at, first.length);
}

/* G depth parents code. */
static uint32_t fresh_limits(unsigned long step)
{
    unsigned long depth = figure(step), parents = figure(step), code = figure(step);
    if (depth > UINT8_MAX || parents > UINT8_MAX || code > UINT16_MAX) {
        stop("a limit is too large", step);
    }
    return loader_fresh_limits(store.at, store.length, (uint8_t)depth, (uint8_t)parents, (uint16_t)code);
}

static uint32_t query(unsigned long step)
{
    unsigned long class_number, name;
    take_bytes(&first, step);
    take_bytes(&second, step);
    class_number = figure(step);
    name = figure(step);
    return loader_query(store.at, store.length, first.at, first.length, second.at, second.length,
                        (uint8_t)class_number, (uint16_t)name);
}

static uint32_t call(char kind, unsigned long step)
{
    if (kind == 'F') {
        return loader_fresh(store.at, store.length);
    }
    if (kind == 'G') {
        return fresh_limits(step);
    }
    if (kind == 'Q') {
        return query(step);
    }
    take_bytes(&first, step);
    switch (kind) {
    case 'C':
        return loader_create(store.at, store.length, first.at, first.length);
    case 'K':
        return loader_create_without_int(store.at, store.length, first.at, first.length);
    case 'D':
        return loader_delete(store.at, store.length, first.at, first.length);
    case 'R':
        return loader_remove(store.at, store.length, first.at, first.length);
    case 'L':
        take_bytes(&second, step);
        return loader_load(store.at, store.length, first.at, first.length, second.at, second.length);
    default:
        stop("no such call", step);
        return 0;
    }
}

static uint64_t hash(void)
{
    uint64_t h = UINT64_C(0xCBF29CE484222325);
    for (size_t i = 0; i < store.length; i++) {
        h = (h ^ store.at[i]) * UINT64_C(0x100000001B3);
    }
    return h;
}

static void same(const char *what, unsigned long expected, unsigned long answered, unsigned long step)
{
    if (expected != answered) {
        fprintf(stderr, "vectors: %s %lu expected, %lu answered\n", what, expected, answered);
        stop("another answer", step);
    }
}

/* Compares an answer with the next line of the answers. */
static void compare(FILE *answers, char kind, uint32_t answer, unsigned long step)
{
    unsigned long at, number, depth;
    char said[4];
    uint64_t bytes;

    if (fscanf(answers, "%lu %lu %lu %3s %" SCNx64, &at, &number, &depth, said, &bytes) != 5 || at != step) {
        stop("no answer to compare with", step);
    }
    same("number", number, LOADER_NUMBER(answer), step);
    same("figure", kind == 'L' ? depth : strcmp(said, "yes") == 0, LOADER_FIGURE(answer), step);
    if (hash() != bytes) {
        stop("other bytes", step);
    }
}

int main(int count, char **words)
{
    FILE *calls = count == 3 ? fopen(words[1], "r") : NULL;
    FILE *answers = count == 3 ? fopen(words[2], "r") : NULL;
    unsigned long step = 0, compared = 0, done = 0;

    if (calls == NULL || answers == NULL) {
        fputs("usage: vectors CALLS ANSWERS\n", stderr);
        return 2;
    }
    while (fgets(line, sizeof line, calls) != NULL) {
        char kind = strtok(line, " \n")[0];
        step += 1;
        if (kind == 'N') {
            make(step);
        } else if (kind == 'P') {
            damage(step);
        } else {
            uint32_t answer = call(kind, step);
            compare(answers, kind, answer, step);
            done += LOADER_NUMBER(answer) == LOADER_DONE;
            compared += 1;
        }
    }
    if (fscanf(answers, "%lu", &step) != EOF || compared == 0) {
        stop("answers without a call", step);
    }
    printf("%lu calls, %lu of them done\n", compared, done);
    return 0;
}
