/* Writes the package files of the example week, field by field as documents 01 and 02 lay them out. */
#include "packages.h"

#include <stdio.h>
#include <stdlib.h>

const struct aid CANTEEN = {"canteen", 5, {0xA0, 0x00, 0x00, 0x00, 0xC1}};
const struct aid DIRECTORY = {"directory", 5, {0xA0, 0x00, 0x00, 0x00, 0xD1}};
const struct aid PHARMACY = {"pharmacy", 5, {0xA0, 0x00, 0x00, 0x00, 0xF1}};
const struct aid DOORS = {"doors", 5, {0xA0, 0x00, 0x00, 0x00, 0xB1}};
const struct aid RADIOLOGY = {"radiology", 5, {0xA0, 0x00, 0x00, 0x00, 0xE1}};

const struct aid MEALS = {"meals", 6, {0xA0, 0x00, 0x00, 0x00, 0xC1, 0x01}};
const struct aid TREATS = {"treats", 6, {0xA0, 0x00, 0x00, 0x00, 0xC1, 0x02}};
const struct aid STATEMENTS = {"statements", 6, {0xA0, 0x00, 0x00, 0x00, 0xD1, 0x01}};
const struct aid REQUESTS = {"requests", 6, {0xA0, 0x00, 0x00, 0x00, 0xD1, 0x02}};
const struct aid ROTA = {"rota", 6, {0xA0, 0x00, 0x00, 0x00, 0xD1, 0x03}};
const struct aid CLOCK = {"clock", 6, {0xA0, 0x00, 0x00, 0x00, 0xD1, 0x04}};
const struct aid DIET = {"diet", 6, {0xA0, 0x00, 0x00, 0x00, 0xF1, 0x01}};
const struct aid CABINET = {"cabinet", 6, {0xA0, 0x00, 0x00, 0x00, 0xF1, 0x02}};
const struct aid LOCK = {"lock", 6, {0xA0, 0x00, 0x00, 0x00, 0xB1, 0x01}};

/* Where the size of the whole file stands: behind the mark and the version. */
enum { SIZE_PLACE = 5 };

/* The versions of a package file: only the second one has handlers. */
enum { VERSION_1 = 1, VERSION_2 = 2 };

/* Class kinds and the bits of a method. */
enum { KIND_CLASS = 0, KIND_INTERFACE = 1 };
enum { VISIBLE = 0x80, IMPLEMENTED = 0x40, STATIC = 0x20 };

/* Package numbers in references and parents. */
enum { OWN = 0, IMPORT_1 = 1 };

static void put_u1(struct file *file, unsigned value)
{
    if (file->length == sizeof file->bytes || value > 0xFF) {
        fputs("packages: a field or a file is too long\n", stderr);
        exit(2);
    }
    file->bytes[file->length] = (uint8_t)value;
    file->length += 1;
}

/* The high byte comes first. */
static void put_u2(struct file *file, unsigned value)
{
    put_u1(file, value / 256);
    put_u1(file, value % 256);
}

static void put_bytes(struct file *file, const uint8_t *bytes, size_t length)
{
    for (size_t i = 0; i < length; i++) {
        put_u1(file, bytes[i]);
    }
}

/* An AID with its length. */
static void put_aid(struct file *file, const struct aid *aid)
{
    put_u1(file, (unsigned)aid->length);
    put_bytes(file, aid->bytes, aid->length);
}

/* Mark, version, a size that end_file fills in, and the package AID. */
static void begin_file(struct file *file, unsigned version, const struct aid *package)
{
    static const uint8_t mark[] = {'B', 'P', 'K'};

    file->length = 0;
    put_bytes(file, mark, sizeof mark);
    put_u2(file, version);
    put_u2(file, 0);
    put_aid(file, package);
}

static void end_file(struct file *file)
{
    file->bytes[SIZE_PLACE] = (uint8_t)(file->length / 256);
    file->bytes[SIZE_PLACE + 1] = (uint8_t)(file->length % 256);
}

/* The domain list: these three, so that a policy's indexes are 0, 1, 2. */
static void put_domains(struct file *file)
{
    put_u1(file, 3);
    put_aid(file, &CANTEEN);
    put_aid(file, &DIRECTORY);
    put_aid(file, &PHARMACY);
}

/* No domain list: policies may have FE or FF alone. */
static void put_no_domains(struct file *file)
{
    put_u1(file, 0);
}

static void put_no_imports(struct file *file)
{
    put_u1(file, 0);
}

static void put_one_import(struct file *file, const struct aid *package)
{
    put_u1(file, 1);
    put_aid(file, package);
}

static void put_no_references(struct file *file)
{
    put_u2(file, 0);
}

/* Reference 0: a method of class 0 of a package. */
static void put_one_reference(struct file *file, unsigned package, unsigned name)
{
    put_u2(file, 1);
    put_u1(file, package);
    put_u1(file, 0);
    put_u2(file, name);
}

/* One class without parents, and the number of its methods, which follow. */
static void put_one_class(struct file *file, unsigned methods)
{
    put_u1(file, 1);
    put_u1(file, KIND_CLASS);
    put_u1(file, 0);
    put_u1(file, methods);
}

/* One class whose parent is class 0 of a package, and the number of its methods, which follow. */
static void put_one_class_below(struct file *file, unsigned package, unsigned methods)
{
    put_u1(file, 1);
    put_u1(file, KIND_CLASS);
    put_u1(file, 1);
    put_u1(file, package);
    put_u1(file, 0);
    put_u1(file, methods);
}

/* A class or interface without methods; its parents are so many own classes, the last of them `last`. */
static void put_bare_class(struct file *file, unsigned kind, unsigned parents, unsigned last)
{
    put_u1(file, kind);
    put_u1(file, parents);
    for (unsigned i = 0; i < parents; i++) {
        put_u1(file, OWN);
        put_u1(file, last - i);
    }
    put_u1(file, 0);
}

/* The allowed count, and the index of each domain of the set, FE for the own one; FF alone for every domain. */
static void put_allowed(struct file *file, unsigned allowed)
{
    static const unsigned indexes[] = {0, 1, 2, 0xFE};
    unsigned count = 0;

    if (allowed == BY_EVERY) {
        put_u1(file, 0xFF);
        return;
    }
    for (unsigned i = 0; i < 4; i++) {
        count += allowed >> i & 1u;
    }
    put_u1(file, count);
    for (unsigned i = 0; i < 4; i++) {
        if (allowed >> i & 1u) {
            put_u1(file, indexes[i]);
        }
    }
}

/* An implemented method: bits, name, allowed domains, code. */
static void put_method(struct file *file, unsigned bits, unsigned name, unsigned allowed,
                       const uint8_t *code, size_t code_length)
{
    put_u1(file, bits | IMPLEMENTED);
    put_u2(file, name);
    put_allowed(file, allowed);
    put_u2(file, (unsigned)code_length);
    put_bytes(file, code, code_length);
}

/* Behind a code of version 2: one handler, by offsets in that code. */
static void put_one_handler(struct file *file, unsigned start, unsigned end, unsigned target)
{
    put_u1(file, 1);
    put_u2(file, start);
    put_u2(file, end);
    put_u2(file, target);
}

void write_meals(struct file *file)
{
    static const uint8_t price_code[] = {
        0x08, /* sconst_5 */
        0x78  /* sreturn */
    };
    static const uint8_t order_code[] = {
        0x18,             /* aload_0: the meal */
        0x8B, 0x00, 0x00, /* invokevirtual, reference 0: its price */
        0x78              /* sreturn */
    };

    begin_file(file, VERSION_1, &MEALS);
    put_domains(file);
    put_no_imports(file);
    put_one_reference(file, OWN, NAME_PRICE);
    put_one_class(file, 2);
    put_method(file, VISIBLE, NAME_PRICE, BY_CANTEEN | BY_DIRECTORY, price_code, sizeof price_code);
    put_method(file, VISIBLE | STATIC, NAME_ORDER, BY_CANTEEN | BY_DIRECTORY, order_code,
               sizeof order_code);
    end_file(file);
}

void write_statements(struct file *file, unsigned statement_allows)
{
    static const uint8_t statement_code[] = {
        0x18,             /* aload_0: the meal */
        0x8D, 0x00, 0x00, /* invokestatic, reference 0: order it */
        0x78              /* sreturn */
    };

    begin_file(file, VERSION_1, &STATEMENTS);
    put_domains(file);
    put_one_import(file, &MEALS);
    put_one_reference(file, IMPORT_1, NAME_ORDER);
    put_one_class(file, 1);
    put_method(file, VISIBLE | STATIC, NAME_STATEMENT, statement_allows, statement_code,
               sizeof statement_code);
    end_file(file);
}

void write_diet(struct file *file, unsigned price_allows)
{
    static const uint8_t price_code[] = {
        0x06, /* sconst_3 */
        0x78  /* sreturn */
    };

    begin_file(file, VERSION_1, &DIET);
    put_domains(file);
    put_one_import(file, &MEALS);
    put_no_references(file);
    put_one_class_below(file, IMPORT_1, 1);
    put_method(file, VISIBLE, NAME_PRICE, price_allows, price_code, sizeof price_code);
    end_file(file);
}

void write_cabinet(struct file *file)
{
    static const uint8_t book_code[] = {0x7A /* return */};

    begin_file(file, VERSION_1, &CABINET);
    put_domains(file);
    put_no_imports(file);
    put_no_references(file);
    put_one_class(file, 1);
    put_method(file, VISIBLE | STATIC, NAME_BOOK, BY_DIRECTORY | BY_PHARMACY, book_code,
               sizeof book_code);
    end_file(file);
}

void write_requests(struct file *file, unsigned forward_allows, unsigned handler_end)
{
    static const uint8_t forward_code[] = {
        0x8D, 0x00, 0x00, /* 0: invokestatic, reference 0: book */
        0x7A,             /* 3: return */
        0x3B,             /* 4: pop: the exception, if book threw one */
        0x7A              /* 5: return */
    };
    enum { CALL = 0, CATCH = 4 };

    begin_file(file, VERSION_2, &REQUESTS);
    put_domains(file);
    put_one_import(file, &CABINET);
    put_one_reference(file, IMPORT_1, NAME_BOOK);
    put_one_class(file, 1);
    put_method(file, VISIBLE | STATIC, NAME_FORWARD, forward_allows, forward_code,
               sizeof forward_code);
    put_one_handler(file, CALL, handler_end, CATCH);
    end_file(file);
}

void write_treats(struct file *file)
{
    static const uint8_t treat_code[] = {
        0x8D, 0x00, 0x00, /* invokestatic, reference 0: forward */
        0x7A              /* return */
    };

    begin_file(file, VERSION_1, &TREATS);
    put_domains(file);
    put_one_import(file, &REQUESTS);
    put_one_reference(file, IMPORT_1, NAME_FORWARD);
    put_one_class(file, 1);
    put_method(file, VISIBLE | STATIC, NAME_TREAT, BY_NONE, treat_code, sizeof treat_code);
    end_file(file);
}

void write_rota(struct file *file, unsigned depth, unsigned parents)
{
    begin_file(file, VERSION_1, &ROTA);
    put_domains(file);
    put_no_imports(file);
    put_no_references(file);
    put_u1(file, depth);
    put_bare_class(file, KIND_INTERFACE, 0, 0);
    for (unsigned i = 1; i + 1 < depth; i++) {
        put_bare_class(file, KIND_INTERFACE, 1, i - 1);
    }
    put_bare_class(file, KIND_CLASS, parents, depth - 2);
    end_file(file);
}

void write_clock(struct file *file)
{
    static const uint8_t minutes_code[] = {
        0x14, 0x00, 0x01, 0x51, 0x80, /* iipush 86400: the seconds of a day */
        0x12, 0x3C,                   /* bipush 60 */
        0x48,                         /* idiv */
        0x5E,                         /* i2s */
        0x78                          /* sreturn */
    };

    begin_file(file, VERSION_1, &CLOCK);
    put_no_domains(file);
    put_no_imports(file);
    put_no_references(file);
    put_one_class(file, 1);
    put_method(file, VISIBLE | STATIC, NAME_MINUTES, BY_EVERY, minutes_code, sizeof minutes_code);
    end_file(file);
}

void write_lock(struct file *file, bool draft)
{
    static const uint8_t open_code[] = {
        0x8D, 0x00, 0x00, /* invokestatic, reference 0: minutes */
        0x78,             /* sreturn */
        0x0A,             /* iconst_0: from here on in the draft only */
        0x79              /* ireturn */
    };
    enum { UP_TO_RETURN = 4 };

    begin_file(file, VERSION_1, &LOCK);
    put_no_domains(file);
    put_one_import(file, &CLOCK);
    put_one_reference(file, IMPORT_1, NAME_MINUTES);
    put_one_class(file, 1);
    put_method(file, VISIBLE | STATIC, NAME_OPEN, BY_OWN, open_code,
               draft ? sizeof open_code : UP_TO_RETURN);
    end_file(file);
}
