/*
 * For tests/formats.sh: holds the library to figures of docs/FORMATS.md, a line of standard input each:
 *
 *     limit NUMBER VALUE NAME       a load (or call) with this many of what is limited answers this number
 *     chosen NUMBER DEPTH PARENTS CODE VALUE NAME
 *                                   the same in a store with these limits; a store that holds what was accepted at its limit is not
 *                                   sound with a limit one less
 *     fresh NUMBER DEPTH PARENTS CODE
 *                                   the second fresh call with these limits; done, it leaves the opening of version 2 and zeros
 *     store NUMBER LENGTH BYTES     question 2 of a buffer that holds these bytes, then zeros (0 where it is sound); where it is not,
 *                                   every call answers 2 and leaves it, but the two fresh ones, which are done
 *     load NUMBER FILE              a load into the week's store, where meals and cabinet are installed
 *     code NUMBER BYTES             a load of a package with this code
 *     handler NUMBER START END TARGET BYTES
 *                                   a load of a package of version 2 with this code and this handler; a store that holds
 *                                   it is sound where the number is 0, and is not where it is another
 *     subset NUMBER BYTES           a load of a package with this code into a domain of kind 3; in one of kind 1 it is never 26, and
 *                                   else the same; where that is accepted, the store with the domain of kind 3 is sound where the
 *                                   number is 0, and is not where it is another
 *     barred ANSWER OPCODE BYTE     the same of the opcode with this byte behind it: 1: it is barred, 0: it is not
 *     length LENGTH OPCODE          an instruction has this many bytes; 0: there is no such instruction
 *     branch KIND OPCODE            1 or 2: it branches by an s1 or an s2; 0: it does not
 *     call PLACE OPCODE             it calls the reference at this byte; 0: it does not
 *     last ANSWER OPCODE            1: it may be the last instruction
 *
 * Opcodes and bytes are in hexadecimal. Prints how many lines hold, or each that does not; exit status 0 only if all do.
 */
#include <stdio.h>
#include <stdlib.h>
#include <string.h>

#include "loader.h"
#include "packages.h"

enum { NONE = 99 };

static uint8_t store[LOADER_STORE_MOST + 2];
static uint8_t file[LOADER_STORE_MOST + 2];
static size_t at;
static uint8_t length_of[256];

/* The limits of the stores that loads are tried in: depth, parents, code; all 0 for a store of version 1. */
static unsigned limits[3];

/* Whether their domain is one without int. */
static int without_int;

static const uint8_t domain[] = {0xA0, 0, 0, 0, 0xD1};
static const uint8_t imported[] = {0xA0, 0, 0, 0, 0xB1};

static void u1(unsigned value)
{
    file[at++] = (uint8_t)value;
}

static void u2(unsigned value)
{
    u1(value / 256);
    u1(value % 256);
}

static void aid(const uint8_t *bytes, unsigned length)
{
    u1(length);
    memcpy(file + at, bytes, length);
    at += length;
}

/* Mark, version, a size that is filled in, the package AID, and as many domains, imports and references. */
static void begin(unsigned aid_length, unsigned domains, unsigned imports, unsigned references)
{
    static const uint8_t own[32] = {0xC0};
    at = 0;
    u1(0x42), u1(0x50), u1(0x4B), u2(1), u2(0);
    aid(own, aid_length);
    u1(domains);
    for (unsigned i = 0; i < domains; i++) {
        aid(domain, sizeof domain);
    }
    u1(imports);
    for (unsigned i = 0; i < imports; i++) {
        aid(imported, sizeof imported);
    }
    u2(references);
    for (unsigned i = 0; i < references; i++) {
        u2(0), u2(0);
    }
}

/* A class of a kind with no parent, or with parents that are all class `parent` of this file. */
static void class_head(unsigned kind, unsigned parents, unsigned parent, unsigned methods)
{
    u1(kind), u1(parents);
    for (unsigned i = 0; i < parents; i++) {
        u1(0), u1(parent);
    }
    u1(methods);
}

/* A method without a code, allowing index 0 so many times. */
static void plain_method(unsigned name, unsigned allowed)
{
    u1(0), u2(name), u1(allowed);
    for (unsigned i = 0; i < allowed; i++) {
        u1(0);
    }
}

static void end(void)
{
    file[5] = (uint8_t)(at / 256);
    file[6] = (uint8_t)(at % 256);
}

/* A package of one static method with this code. */
static void write_code(const uint8_t *code, unsigned length)
{
    begin(5, 0, 0, 0);
    u1(1), class_head(0, 0, 0, 1);
    u1(0x60), u2(1), u1(0), u2(length);
    memcpy(file + at, code, length);
    at += length;
    end();
}

/* The same as a file of version 2, with so many handlers, each this one: start, end, target. */
static void write_handlers(const uint8_t *code, unsigned length, unsigned n, const unsigned *handler)
{
    write_code(code, length);
    file[4] = 2;
    u1(n);
    for (unsigned i = 0; i < n; i++) {
        u2(handler[0]), u2(handler[1]), u2(handler[2]);
    }
    end();
}

/* A file with so many of what is limited; 0 where the name is not known. */
static int write_limit(const char *name, unsigned n)
{
    static uint8_t code[LOADER_CODE_MOST + 2];
    int is_class = strcmp(name, "classes of a file") == 0, is_depth = strcmp(name, "depth of a class") == 0;

    if (strcmp(name, "bytes of a code") == 0) {
        memset(code, 0, sizeof code);
        code[n == 0 ? 0 : n - 1] = 0x7A;
        write_code(code, n);
        return 1;
    }
    if (strcmp(name, "handlers of a code") == 0) {
        static const uint8_t returns[] = {0x7A};
        static const unsigned whole[] = {0, 1, 0};
        write_handlers(returns, sizeof returns, n, whole);
        return 1;
    }
    begin(strcmp(name, "bytes of an AID in a file") == 0 ? n : 5,
          strcmp(name, "domains of a file") == 0 ? n : 1,
          strcmp(name, "imports of a file") == 0 ? n : 0,
          strcmp(name, "references of a file") == 0 ? n : 0);
    if (is_class || is_depth) {
        u1(n);
        for (unsigned i = 0; i < n; i++) {
            class_head(1, is_depth && i > 0, i - 1, 0);
        }
    } else if (strcmp(name, "parents of a class") == 0) {
        u1(2), class_head(1, 0, 0, 0), class_head(1, n, 0, 0);
    } else if (strcmp(name, "methods of a class") == 0) {
        u1(1), class_head(0, 0, 0, n);
        for (unsigned i = 0; i < n; i++) {
            plain_method(i, 0);
        }
    } else if (strcmp(name, "domains that a method allows") == 0) {
        u1(1), class_head(0, 0, 0, 1), plain_method(1, n);
    } else {
        u1(0);
    }
    end();
    return strstr(name, "of a file") != NULL || strstr(name, "in a file") != NULL || strstr(name, "of a class") != NULL ||
           strstr(name, "allows") != NULL;
}

static uint32_t fresh_limits(uint8_t *bytes, size_t length)
{
    return loader_fresh_limits(bytes, length, (uint8_t)limits[0], (uint8_t)limits[1], (uint16_t)limits[2]);
}

/* A new store, of version 1 or with the limits chosen. */
static void new_store(void)
{
    if (limits[0] == 0) {
        loader_fresh(store, LOADER_STORE_MOST);
    } else {
        fresh_limits(store, LOADER_STORE_MOST);
    }
}

/* Creates the domain that loads are tried in. */
static void create_domain(void)
{
    if (without_int) {
        loader_create_without_int(store, LOADER_STORE_MOST, domain, sizeof domain);
    } else {
        loader_create(store, LOADER_STORE_MOST, domain, sizeof domain);
    }
}

/* The number of a load of the file into a new store with its domain and its import. */
static unsigned loaded(void)
{
    static uint8_t kept[sizeof file];
    size_t length = at;
    memcpy(kept, file, length);
    new_store();
    create_domain();
    begin(5, 0, 0, 0);
    memcpy(file + 8, imported, sizeof imported);
    u1(0), end();
    if (LOADER_NUMBER(loader_load(store, LOADER_STORE_MOST, domain, sizeof domain, file, at)) != 0) {
        return NONE;
    }
    return LOADER_NUMBER(loader_load(store, LOADER_STORE_MOST, domain, sizeof domain, kept, length));
}

static unsigned limit_number(const char *name, unsigned n)
{
    if (strcmp(name, "bytes of a store") == 0) {
        return LOADER_NUMBER(loader_fresh(store, n));
    }
    if (strcmp(name, "bytes of an AID given to a call") == 0) {
        loader_fresh(store, LOADER_STORE_MOST);
        return LOADER_NUMBER(loader_create(store, LOADER_STORE_MOST, file, n));
    }
    return write_limit(name, n) ? loaded() : NONE;
}

static unsigned code_number(const uint8_t *code, unsigned length)
{
    write_code(code, length);
    return loaded();
}

/* An opcode with operands of zeros, its last operand byte another, and the byte 7A after so many bytes. */
static unsigned number_of(unsigned opcode, unsigned zeros, unsigned last, int returns)
{
    uint8_t code[16] = {0};
    unsigned length = 1 + zeros;
    code[0] = (uint8_t)opcode;
    if (zeros > 0) {
        code[zeros] = (uint8_t)last;
    }
    if (returns) {
        code[length++] = 0x7A;
    }
    return code_number(code, length);
}

static int may_be_last(unsigned opcode)
{
    return number_of(opcode, length_of[opcode] - 1u, 0, 0) != 16;
}

/* Whole and followed by 7A it splits; one byte shorter it takes the 7A, or lacks a byte. */
static int length_holds(unsigned opcode, unsigned length)
{
    if (length == 0) {
        return number_of(opcode, 0, 0, 1) == 16 && number_of(opcode, 4, 0, 1) == 16;
    }
    length_of[opcode] = (uint8_t)length;
    if (number_of(opcode, length - 1, 0, 1) == 16) {
        return 0;
    }
    return length == 1 || number_of(opcode, length - 2, 0, !may_be_last(opcode)) == 16;
}

/* By 1 it goes into its own operand; by its length to the 7A. */
static int branch_holds(unsigned opcode, unsigned kind)
{
    unsigned length = length_of[opcode];
    if (kind == 0) {
        return length < 2 || number_of(opcode, length - 1, 1, 1) != 17;
    }
    return length == kind + 1 && number_of(opcode, kind, 1, 1) == 17 && number_of(opcode, kind, kind + 1, 1) == 0;
}

/* There is no reference, so a call is refused with 18. */
static int call_holds(unsigned opcode, unsigned place)
{
    return (number_of(opcode, length_of[opcode] - 1u, 0, 1) == 18) == (place != 0);
}

static unsigned bytes_of(const char *text, uint8_t *bytes)
{
    unsigned n = 0, value;
    for (; *text != '\0'; text++) {
        if (*text != ' ' && *text != '\n' && sscanf(text, "%2x", &value) == 1) {
            bytes[n++] = (uint8_t)value;
            text++;
        }
    }
    return n;
}

/* Every call answers 2 and leaves the buffer; then the two fresh calls are done, over what it holds. */
static int all_unsound(size_t length)
{
    static uint8_t kept[sizeof store];
    static const unsigned least[] = {1, 1, 1};
    int done;
    memcpy(kept, store, length);
    begin(5, 0, 0, 0), u1(0), end();
    if (loader_create(store, length, domain, 5) != LOADER_STORE_UNSOUND ||
        loader_create_without_int(store, length, domain, 5) != LOADER_STORE_UNSOUND ||
        loader_delete(store, length, domain, 5) != LOADER_STORE_UNSOUND ||
        loader_load(store, length, domain, 5, file, at) != LOADER_STORE_UNSOUND ||
        loader_remove(store, length, domain, 5) != LOADER_STORE_UNSOUND || memcmp(kept, store, length) != 0 ||
        loader_fresh(store, length) != LOADER_DONE) {
        return 0;
    }
    memcpy(store, kept, length);
    memcpy(limits, least, sizeof limits);
    done = fresh_limits(store, length) == LOADER_DONE;
    memset(limits, 0, sizeof limits);
    return done;
}

static int store_holds(unsigned number, char *text)
{
    unsigned long length = strtoul(text, &text, 10);
    memset(store, 0, sizeof store);
    bytes_of(text, store);
    unsigned said = LOADER_NUMBER(loader_query(store, length, domain, 5, domain, 5, 0, 0));
    return number == 0 ? said == LOADER_PACKAGE_UNKNOWN : said == number && all_unsound(length);
}

/* Every byte of a buffer is as the page lays out an empty store with the limits chosen. */
static int is_empty_store(const uint8_t *bytes, size_t length)
{
    uint8_t opening[] = {0x42, 0x43, 0x53, 0, 2, 0, 11, (uint8_t)limits[0], (uint8_t)limits[1],
                         (uint8_t)(limits[2] / 256), (uint8_t)(limits[2] % 256)};
    for (size_t i = sizeof opening; i < length; i++) {
        if (bytes[i] != 0) {
            return 0;
        }
    }
    return memcmp(bytes, opening, sizeof opening) == 0;
}

/* The second fresh call over any bytes: 30 leaves them; a buffer of 63 bytes is answered 1 whatever the limits. */
static int fresh_holds(unsigned number)
{
    enum { BYTES = 300 };
    uint8_t bytes[BYTES], before[BYTES];
    memset(bytes, 0xA5, sizeof bytes);
    memcpy(before, bytes, sizeof bytes);
    if (fresh_limits(bytes, LOADER_STORE_LEAST - 1) != LOADER_STORE_SIZE || memcmp(bytes, before, sizeof bytes) != 0 ||
        fresh_limits(bytes, sizeof bytes) != number) {
        return 0;
    }
    return number == 0 ? is_empty_store(bytes, sizeof bytes) : memcmp(bytes, before, sizeof bytes) == 0;
}

/* The store of an accepted load is sound; with the limit that the file reaches one less it is not. */
static int lowered_is_unsound(const char *name, unsigned value)
{
    unsigned sound, lowered;
    sound = LOADER_NUMBER(loader_query(store, LOADER_STORE_MOST, domain, 5, domain, 5, 0, 0));
    if (strcmp(name, "bytes of a code") == 0) {
        store[9] = (uint8_t)((value - 1) / 256);
        store[10] = (uint8_t)((value - 1) % 256);
    } else {
        store[strcmp(name, "depth of a class") == 0 ? 7 : 8] = (uint8_t)(value - 1);
    }
    lowered = LOADER_NUMBER(loader_query(store, LOADER_STORE_MOST, domain, 5, domain, 5, 0, 0));
    return sound == LOADER_PACKAGE_UNKNOWN && lowered == LOADER_STORE_UNSOUND;
}

static int chosen_holds(unsigned number, unsigned value, const char *name)
{
    int is_chosen = strcmp(name, "handlers of a code") != 0;
    return limit_number(name, value) == number && (number != 0 || !is_chosen || lowered_is_unsound(name, value));
}

/* A line of kind fresh or chosen, from its limits on. */
static int limits_hold(unsigned number, const char *text, int is_fresh)
{
    char name[80] = "";
    unsigned value = 0;
    int held, words = sscanf(text, "%u %u %u %u %79[^\n]", &limits[0], &limits[1], &limits[2], &value, name);
    held = is_fresh ? words == 3 && fresh_holds(number) : words == 5 && chosen_holds(number, value, name);
    memset(limits, 0, sizeof limits);
    return held;
}

static unsigned load_into(const struct aid *into, const uint8_t *bytes, size_t length)
{
    return LOADER_NUMBER(loader_load(store, LOADER_STORE_MOST, into->bytes, into->length, bytes, length));
}

/* The week's domains, with what the dumps import, then the load. */
static int load_holds(unsigned number, const char *text)
{
    static const struct aid *const all[] = {&CANTEEN, &DIRECTORY, &PHARMACY};
    static uint8_t bytes[4096];
    struct file meals, cabinet;
    unsigned n = bytes_of(text, bytes);
    loader_fresh(store, LOADER_STORE_MOST);
    for (int i = 0; i < 3; i++) {
        loader_create(store, LOADER_STORE_MOST, all[i]->bytes, all[i]->length);
    }
    write_meals(&meals);
    write_cabinet(&cabinet);
    return load_into(&CANTEEN, meals.bytes, meals.length) == 0 &&
           load_into(&PHARMACY, cabinet.bytes, cabinet.length) == 0 && load_into(&DIRECTORY, bytes, n) == number;
}

/* The load; then the same handler written over one that was accepted, the last bytes of the store's last entry. */
static int handler_holds(unsigned number, const char *text)
{
    enum { HANDLER_BYTES = 6 };
    static uint8_t code[4096];
    static const unsigned accepted[] = {0, 2, 3};
    unsigned handler[3], length, said;
    int rest = 0;
    if (sscanf(text, "%u %u %u %n", &handler[0], &handler[1], &handler[2], &rest) < 3) {
        return 0;
    }
    length = bytes_of(text + rest, code);
    write_handlers(code, length, 1, handler);
    if (loaded() != number) {
        return 0;
    }
    write_handlers(code, length, 1, accepted);
    if (loaded() != 0) {
        return 0;
    }
    for (unsigned i = 0; i < 3; i++) {
        uint8_t *place = store + LOADER_USED(store) - HANDLER_BYTES + 2 * i;
        place[0] = (uint8_t)(handler[i] / 256);
        place[1] = (uint8_t)(handler[i] % 256);
    }
    said = LOADER_NUMBER(loader_query(store, LOADER_STORE_MOST, domain, 5, domain, 5, 0, 0));
    return said == (number == 0 ? LOADER_PACKAGE_UNKNOWN : LOADER_STORE_UNSOUND);
}

/* A code in a domain of kind 3 and in one of kind 1; then the latter's store with the kind of its domain, the first entry, changed. */
static int subset_holds(unsigned number, const uint8_t *code, unsigned length)
{
    enum { FIRST_KIND = 7 };
    unsigned with_int, said;
    without_int = 1;
    said = code_number(code, length);
    without_int = 0;
    with_int = code_number(code, length);
    if (said != number || (number == LOADER_CODE_INT ? with_int == number : with_int != number)) {
        return 0;
    }
    if (with_int != 0) {
        return 1;
    }
    store[FIRST_KIND] = 3;
    said = LOADER_NUMBER(loader_query(store, LOADER_STORE_MOST, domain, 5, domain, 5, 0, 0));
    return said == (number == 0 ? LOADER_PACKAGE_UNKNOWN : LOADER_STORE_UNSOUND);
}

/* An instruction with this byte behind its opcode, zeros up to its end, and 7A; a switch has one offset or no pair. */
static int barred_holds(unsigned barred, unsigned opcode, unsigned byte)
{
    static const uint8_t switches[4][14] = {
        {0x73, 0x00, 0x09, 0x00, 0x00, 0x00, 0x00, 0x00, 0x09, 0x7A},
        {0x74, 0x00, 0x0D, 0x00, 0x00, 0x00, 0x00, 0x00, 0x00, 0x00, 0x00, 0x00, 0x0D, 0x7A},
        {0x75, 0x00, 0x05, 0x00, 0x00, 0x7A},
        {0x76, 0x00, 0x05, 0x00, 0x00, 0x7A}};
    static const unsigned lengths[4] = {10, 14, 6, 6};
    uint8_t code[32] = {0};
    unsigned length = length_of[opcode];
    if (opcode >= 0x73 && opcode <= 0x76) {
        return subset_holds(barred ? LOADER_CODE_INT : 0, switches[opcode - 0x73], lengths[opcode - 0x73]);
    }
    code[0] = (uint8_t)opcode;
    if (length > 1) {
        code[1] = (uint8_t)byte;
    }
    /* a branch by this byte goes to an instruction of one byte too */
    length += 16;
    code[length++] = 0x7A;
    without_int = 0;
    return subset_holds(barred ? LOADER_CODE_INT : code_number(code, length), code, length);
}

static int holds(char *line)
{
    char kind[8], name[80] = "";
    unsigned first, value = 0, byte = 0;
    int rest = 0;
    static uint8_t bytes[4096];

    if (sscanf(line, "%7s %u %n", kind, &first, &rest) < 2) {
        return 0;
    }
    if (strcmp(kind, "limit") == 0) {
        return sscanf(line + rest, "%u %79[^\n]", &value, name) == 2 && limit_number(name, value) == first;
    }
    if (strcmp(kind, "fresh") == 0 || strcmp(kind, "chosen") == 0) {
        return limits_hold(first, line + rest, strcmp(kind, "fresh") == 0);
    }
    if (strcmp(kind, "store") == 0) {
        return store_holds(first, line + rest);
    }
    if (strcmp(kind, "load") == 0) {
        return load_holds(first, line + rest);
    }
    if (strcmp(kind, "code") == 0) {
        return code_number(bytes, bytes_of(line + rest, bytes)) == first;
    }
    if (strcmp(kind, "handler") == 0) {
        return handler_holds(first, line + rest);
    }
    if (strcmp(kind, "subset") == 0) {
        return subset_holds(first, bytes, bytes_of(line + rest, bytes));
    }
    if (sscanf(line + rest, "%x %x", &value, &byte) == 2 && strcmp(kind, "barred") == 0) {
        return barred_holds(first, value, byte);
    }
    if (strcmp(kind, "length") == 0) {
        return length_holds(value, first);
    }
    if (strcmp(kind, "branch") == 0) {
        return branch_holds(value, first);
    }
    if (strcmp(kind, "call") == 0) {
        return call_holds(value, first);
    }
    return strcmp(kind, "last") == 0 && may_be_last(value) == (int)first;
}

int main(void)
{
    static char line[400000];
    unsigned long all = 0, wrong = 0;
    while (fgets(line, sizeof line, stdin) != NULL) {
        all += 1;
        if (!holds(line)) {
            line[70] = '\0';
            printf("does not hold: %s\n", line);
            wrong += 1;
        }
    }
    printf("%lu of %lu hold\n", all - wrong, all);
    return wrong == 0 && all > 0 ? 0 : 1;
}
