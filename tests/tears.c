/*
 * tears LINES: what a call leaves in the store when it is cut off at any byte that it writes.
 *
 * LINES are lines of the simulated card; they run on a store of each version, with domains of each kind and
 * of both. Each call runs on a store whose pages are write-protected: a write faults, is let through for one
 * instruction, and the bytes that it changed are kept. The call is then replayed on a copy and cut off before
 * every byte, within one write from its first byte on and from its last one back; each cut is shown to the
 * loader. For x86-64 Linux, as the library is.
 *
 * Holds what include/loader.h says under "Power loss", prints the counts, and says what does not hold;
 * exit status 0 only if all does.
 */
#define _GNU_SOURCE
#include <signal.h>
#include <stdio.h>
#include <stdlib.h>
#include <string.h>
#include <sys/mman.h>
#include <ucontext.h>

#include "loader.h"

enum { STORE_BYTES = 8192, CHANGES_MOST = 100000, LINE_MOST = 8002, TRAP_FLAG = 0x100 };

/* A byte that a call wrote: its place, what it held and holds, and which write it belongs to. */
struct change {
    size_t place;
    uint8_t old, new;
    size_t write;
};

/* Cuts of one operation, by what they leave. */
struct counts {
    unsigned long calls, cuts, as_before, unsound, as_after, neither, neither_empty;
};

static uint8_t *store;
static uint8_t shadow[STORE_BYTES];
static uint8_t before[STORE_BYTES];
static uint8_t copy[STORE_BYTES];
static struct change changes[CHANGES_MOST];
static volatile size_t change_count, write_count;
static struct counts counts[7];
static int failures;

/* Operations as the counts have them, behind those of lines; of all but fresh ones, the even ones append an entry. */
enum { FRESH = 4, FRESH_LIMITS = 5, CREATE_WITHOUT_INT = 6, OPERATIONS = 7 };

/* Which kind of domain a creation makes: kind 1, kind 3, or both by turns. */
static enum { WITH_INT, WITHOUT_INT, BY_TURNS } kinds;

static void wrong(const char *what, unsigned long line)
{
    fprintf(stderr, "tears: line %lu: %s\n", line, what);
    failures += 1;
}

/* A write to the store: let it through, and stop after it. */
static void on_fault(int number, siginfo_t *info, void *context)
{
    uint8_t *place = info->si_addr;
    (void)number;
    if (place < store || place >= store + STORE_BYTES) {
        _Exit(3);
    }
    mprotect(store, STORE_BYTES, PROT_READ | PROT_WRITE);
    ((ucontext_t *)context)->uc_mcontext.gregs[REG_EFL] |= TRAP_FLAG;
}

/* After a write: keep what it changed, and protect the store again. */
static void on_step(int number, siginfo_t *info, void *context)
{
    (void)number;
    (void)info;
    ((ucontext_t *)context)->uc_mcontext.gregs[REG_EFL] &= ~(greg_t)TRAP_FLAG;
    write_count += 1;
    for (size_t i = 0; i < STORE_BYTES; i++) {
        if (store[i] != shadow[i]) {
            if (change_count == CHANGES_MOST) {
                _Exit(3);
            }
            changes[change_count] = (struct change){i, shadow[i], store[i], write_count};
            change_count += 1;
            shadow[i] = store[i];
        }
    }
    mprotect(store, STORE_BYTES, PROT_READ);
}

static void watch(void)
{
    memcpy(before, store, STORE_BYTES);
    memcpy(shadow, store, STORE_BYTES);
    change_count = write_count = 0;
    mprotect(store, STORE_BYTES, PROT_READ);
}

/* The bytes of a word of two hex digits a byte. */
static size_t bytes_of(const char *text, uint8_t *bytes)
{
    size_t n = 0;
    unsigned value;
    for (; text != NULL && sscanf(text, "%2x", &value) == 1; text += 2) {
        bytes[n++] = (uint8_t)value;
    }
    return n;
}

/* A creation, of the kind whose turn it is. */
static uint32_t create(const uint8_t *domain, size_t length, int *operation)
{
    static unsigned long turn;
    int without_int = kinds == WITHOUT_INT || (kinds == BY_TURNS && turn++ % 2 == 0);
    *operation = without_int ? CREATE_WITHOUT_INT : 0;
    return without_int ? loader_create_without_int(store, STORE_BYTES, domain, length)
                       : loader_create(store, STORE_BYTES, domain, length);
}

/* The call of a line, with its operation: 0 create, 1 delete, 2 load, 3 remove. */
static uint32_t call(char *line, int *operation)
{
    static uint8_t first[LINE_MOST], second[LINE_MOST];
    char *letter = strtok(line, " \n");
    size_t a = bytes_of(strtok(NULL, " \n"), first);
    size_t b = bytes_of(strtok(NULL, " \n"), second);

    watch();
    switch (letter == NULL ? ' ' : letter[0]) {
    case 'C':
        return create(first, a, operation);
    case 'D':
        *operation = 1;
        return loader_delete(store, STORE_BYTES, first, a);
    case 'L':
        *operation = 2;
        return loader_load(store, STORE_BYTES, first, a, second, b);
    case 'R':
        *operation = 3;
        return loader_remove(store, STORE_BYTES, first, a);
    default:
        return LOADER_STORE_SIZE;
    }
}

/* Question 2 of the copy: any call but the two fresh ones asks it; this one writes nothing. */
static int is_sound(void)
{
    static const uint8_t aid[5];
    return LOADER_NUMBER(loader_query(copy, STORE_BYTES, aid, 5, aid, 5, 0, 0)) != LOADER_STORE_UNSOUND;
}

/* The bytes that a store opens with. */
static unsigned opening_of(const uint8_t *bytes)
{
    return bytes[4] == 2 ? 11 : 7;
}

/* Counts what a cut left. */
static void count_cut(struct counts *of)
{
    of->cuts += 1;
    if (memcmp(copy, before, STORE_BYTES) == 0) {
        of->as_before += 1;
    } else if (memcmp(copy, store, STORE_BYTES) == 0) {
        of->as_after += 1;
    } else if (is_sound()) {
        of->neither += 1;
        of->neither_empty += LOADER_USED(copy) == opening_of(copy);
    } else {
        of->unsound += 1;
    }
}

/* Replays a call on the copy and cuts it off everywhere. */
static void cut_everywhere(struct counts *of)
{
    size_t from = 0;
    memcpy(copy, before, STORE_BYTES);
    while (from < change_count) {
        size_t to = from;
        while (to < change_count && changes[to].write == changes[from].write) {
            to += 1;
        }
        for (size_t i = to; i > from; i--) {
            count_cut(of);
            copy[changes[i - 1].place] = changes[i - 1].new;
        }
        for (size_t i = from; i < to; i++) {
            copy[changes[i].place] = changes[i].old;
        }
        for (size_t i = from; i < to; i++) {
            count_cut(of);
            copy[changes[i].place] = changes[i].new;
        }
        from = to;
    }
    count_cut(of);
}

/* The order of writes: a created or loaded entry from its first byte on, then used; a cut moves, zeros, writes used. */
static void hold_order(int operation, unsigned long line)
{
    unsigned old_used = LOADER_USED(before), used = LOADER_USED(store);
    size_t last = 0, entry_writes = 0;
    int used_written = 0;

    for (size_t i = 0; i < change_count; i++) {
        size_t place = changes[i].place;
        if (place == 5 || place == 6) {
            used_written = 1;
            continue;
        }
        entry_writes += 1;
        if (used_written) {
            wrong("a byte of the entries is written after used", line);
        }
        if (operation % 2 == 0 ? place < old_used || place >= used : place < opening_of(store) || place >= old_used) {
            wrong("a byte is written outside the entries that change", line);
        }
        if (operation % 2 == 0 ? entry_writes == 1 && place != old_used : place < used && place < last) {
            wrong("an entry is not written from its first byte on", line);
        }
        last = place;
    }
}

static void fill_store(uint8_t fill)
{
    mprotect(store, STORE_BYTES, PROT_READ | PROT_WRITE);
    memset(store, fill, STORE_BYTES);
}

/* Fresh over the store as it is. */
static void hold_fresh(void)
{
    watch();
    if (loader_fresh(store, STORE_BYTES) != LOADER_DONE) {
        wrong("fresh is not done", 0);
    }
    counts[FRESH].calls += 1;
    cut_everywhere(&counts[FRESH]);
}

/* The same with limits; first with one that is out of its range. */
static void hold_fresh_limits(unsigned depth, unsigned parents, unsigned code)
{
    watch();
    if (loader_fresh_limits(store, STORE_BYTES, 0, (uint8_t)parents, (uint16_t)code) != LOADER_LIMITS || write_count != 0) {
        wrong("a refused fresh with limits writes, or is not refused", 0);
    }
    watch();
    if (loader_fresh_limits(store, STORE_BYTES, (uint8_t)depth, (uint8_t)parents, (uint16_t)code) != LOADER_DONE) {
        wrong("fresh with limits is not done", 0);
    }
    counts[FRESH_LIMITS].calls += 1;
    cut_everywhere(&counts[FRESH_LIMITS]);
}

/* Over bytes of which an empty store has few, each fresh call writes every other one. */
static void hold_every_byte(void)
{
    fill_store(0xFF);
    hold_fresh_limits(LOADER_DEPTH_MOST, LOADER_PARENTS_MOST, LOADER_CODE_STANDARD);
    if (change_count < STORE_BYTES - 11) {
        wrong("fresh with limits does not write every byte", 0);
    }
    fill_store(0xFF);
    hold_fresh();
    if (change_count < STORE_BYTES - 7) {
        wrong("fresh does not write every byte", 0);
    }
}

/* The lines of a file on the store as it is; how many were refused. */
static unsigned long run_lines(FILE *lines)
{
    static char line[LINE_MOST + 2];
    unsigned long number = 0, refused = 0;
    rewind(lines);
    while (fgets(line, sizeof line, lines) != NULL) {
        int operation = 0;
        uint32_t answer = call(line, &operation);
        number += 1;
        if (LOADER_NUMBER(answer) != LOADER_DONE) {
            refused += 1;
            if (write_count != 0) {
                wrong("a refused call writes", number);
            }
            continue;
        }
        counts[operation].calls += 1;
        hold_order(operation, number);
        cut_everywhere(&counts[operation]);
    }
    return refused;
}

int main(int argument_count, char **words)
{
    static const char *const names[] = {"create", "delete", "load", "remove", "fresh", "fresh, limits", "create, no int"};
    struct sigaction fault = {0}, step = {0};
    unsigned long refused;
    FILE *lines = argument_count == 2 ? fopen(words[1], "r") : NULL;

    store = mmap(NULL, STORE_BYTES, PROT_READ | PROT_WRITE, MAP_PRIVATE | MAP_ANONYMOUS, -1, 0);
    fault.sa_sigaction = on_fault;
    step.sa_sigaction = on_step;
    fault.sa_flags = step.sa_flags = SA_SIGINFO;
    if (lines == NULL || store == MAP_FAILED || sigaction(SIGSEGV, &fault, NULL) != 0 ||
        sigaction(SIGTRAP, &step, NULL) != 0) {
        fputs("usage: tears LINES\n", stderr);
        return 2;
    }
    hold_every_byte();
    refused = run_lines(lines);
    /* over entries, in turn from version 1 to 2, from 2 to other limits, and back to 1 */
    hold_fresh_limits(LOADER_DEPTH_STANDARD, LOADER_PARENTS_STANDARD, LOADER_CODE_STANDARD);
    kinds = WITHOUT_INT;
    refused += run_lines(lines);
    hold_fresh_limits(LOADER_DEPTH_MOST, LOADER_PARENTS_MOST, LOADER_CODE_MOST);
    kinds = BY_TURNS;
    refused += run_lines(lines);
    hold_fresh();
    refused += run_lines(lines);
    puts("operation       calls   cuts  as before  answered 2  as after  sound, neither");
    for (int i = 0; i < OPERATIONS; i++) {
        printf("%-14s %6lu %6lu %10lu %11lu %9lu %15lu\n", names[i], counts[i].calls, counts[i].cuts, counts[i].as_before,
               counts[i].unsound, counts[i].as_after, counts[i].neither);
        if (counts[i].calls == 0) {
            wrong("an operation was never done", 0);
        }
    }
    printf("refused calls: %lu, none of which wrote\n", refused);
    if (counts[0].neither + counts[2].neither + counts[FRESH].neither + counts[CREATE_WITHOUT_INT].neither != 0) {
        wrong("a cut creation, load or fresh leaves a sound store that is neither the old nor the new one", 0);
    }
    if (counts[FRESH_LIMITS].neither != counts[FRESH_LIMITS].neither_empty) {
        wrong("a cut fresh with limits leaves a sound store with entries that is neither the old nor the new one", 0);
    }
    if (counts[FRESH_LIMITS].neither == 0) {
        wrong("no cut fresh with limits left a sound store with other limits: the header warns of these", 0);
    }
    if (counts[1].neither == 0 || counts[3].neither == 0) {
        wrong("no cut deletion or removal left a sound store that is neither: the header warns of these", 0);
    }
    return failures == 0 ? 0 : 1;
}
