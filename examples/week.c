/*
 * A week of a staff card, as the card's operating system would call the loader.
 *
 *     week         lives through the week and tells it, a line for each call
 *     week card    prints the same calls as lines for the simulated card
 *     week store   writes the bytes of the card's store as it is on Saturday evening
 *
 * Every answer is compared with the one expected, and after a refusal every byte
 * of the store with what it was. Exit status: 0 if all are as expected, 1 if one
 * is not, 2 for another argument.
 */
#include <stdarg.h>
#include <stdbool.h>
#include <stdint.h>
#include <stdio.h>
#include <string.h>

#include "loader.h"
#include "loader_text.h"
#include "packages.h"

/* The simulated card's store has as many bytes, so both count the same used. */
enum { CARD_BYTES = 8192 };

/* Behind the seven opening bytes, the entry's kind, its length and the first four bytes of the AID. */
enum { LAST_BYTE_OF_FIRST_DOMAIN = 7 + 1 + 2 + 4 };

/* A store that is lent to the loader; only calls on a scripted one are lines for the simulated card. */
struct store {
    uint8_t *bytes;
    size_t length;
    bool scripted;
};

static uint8_t card_bytes[CARD_BYTES];
static uint8_t copy_bytes[CARD_BYTES];
static const struct store card = {card_bytes, sizeof card_bytes, true};
static const struct store trial = {copy_bytes, sizeof copy_bytes, true};
static const struct store damaged = {copy_bytes, sizeof copy_bytes, false};
static const struct store small = {copy_bytes, LOADER_STORE_LEAST, false};
static const struct store too_small = {copy_bytes, LOADER_STORE_LEAST - 1, false};
static const struct store next_card = {copy_bytes, sizeof copy_bytes, false};

/* The store's bytes before a call. */
static uint8_t before[CARD_BYTES];

static bool telling = true;
static bool scripting = false;
static bool as_expected = true;

/* A sentence of the story. */
static void say(const char *text)
{
    if (telling) {
        puts(text);
    }
}

/* Tells of an answer or a store that is not as expected. */
static void unexpected(const char *asked, const char *answer)
{
    fprintf(stderr, "week: %s: not expected: %s\n", asked, answer);
    as_expected = false;
}

/* Called before each call of the loader. */
static void remember(struct store store)
{
    memcpy(before, store.bytes, store.length);
}

/* A call with its answer: what was asked, number, used after it, remark. */
static void row(struct store store, uint32_t answer, uint32_t expected, const char *remark,
                const char *format, ...)
{
    uint32_t number = LOADER_NUMBER(answer);
    char asked[80];
    va_list arguments;

    va_start(arguments, format);
    vsnprintf(asked, sizeof asked, format, arguments);
    va_end(arguments);
    if (number != LOADER_DONE) {
        remark = loader_number_text(number);
        if (LOADER_FIGURE(answer) != 0 || memcmp(before, store.bytes, store.length) != 0) {
            unexpected(asked, "a refusal with a figure, or one that changed the store");
        }
    }
    if (number != expected) {
        unexpected(asked, remark);
    }
    if (telling) {
        printf("  %-47s %2u   used %3u   %s\n", asked, (unsigned)number, LOADER_USED(store.bytes), remark);
    }
}

static void print_hex(const uint8_t *bytes, size_t length)
{
    putchar(' ');
    for (size_t i = 0; i < length; i++) {
        printf("%02X", bytes[i]);
    }
}

/* A line for the simulated card: a letter, an AID and, for a load, the file. */
static void line(struct store store, char letter, const struct aid *aid, const struct file *file)
{
    if (!scripting || !store.scripted) {
        return;
    }
    putchar(letter);
    print_hex(aid->bytes, aid->length);
    if (file != NULL) {
        print_hex(file->bytes, file->length);
    }
    putchar('\n');
}

static void fresh(struct store store, uint32_t expected)
{
    remember(store);
    row(store, loader_fresh(store.bytes, store.length), expected, loader_number_text(LOADER_DONE),
        "fresh store of %u bytes", (unsigned)store.length);
}

/* A fresh store with the limits of a series. */
static void fresh_limits(struct store store, unsigned depth, unsigned parents, unsigned code,
                         uint32_t expected)
{
    remember(store);
    row(store,
        loader_fresh_limits(store.bytes, store.length, (uint8_t)depth, (uint8_t)parents,
                            (uint16_t)code),
        expected, loader_number_text(LOADER_DONE), "fresh store of %u bytes, limits %u, %u, %u",
        (unsigned)store.length, depth, parents, code);
}

static void create(struct store store, const struct aid *domain, uint32_t expected)
{
    remember(store);
    row(store, loader_create(store.bytes, store.length, domain->bytes, domain->length), expected,
        loader_number_text(LOADER_DONE), "create domain %s", domain->name);
    line(store, 'C', domain, NULL);
}

/* A domain for door readers: its packages must keep to the subset without int. */
static void create_without_int(struct store store, const struct aid *domain, uint32_t expected)
{
    remember(store);
    row(store, loader_create_without_int(store.bytes, store.length, domain->bytes, domain->length),
        expected, loader_number_text(LOADER_DONE), "create domain %s, without int", domain->name);
}

static void delete_domain(struct store store, const struct aid *domain, uint32_t expected)
{
    remember(store);
    row(store, loader_delete(store.bytes, store.length, domain->bytes, domain->length), expected,
        loader_number_text(LOADER_DONE), "delete domain %s", domain->name);
    line(store, 'D', domain, NULL);
}

static void remove_package(struct store store, const struct aid *package, uint32_t expected)
{
    remember(store);
    row(store, loader_remove(store.bytes, store.length, package->bytes, package->length), expected,
        loader_number_text(LOADER_DONE), "remove package %s", package->name);
    line(store, 'R', package, NULL);
}

/* A load. An accepted one carries the depth of the deepest class. */
static uint32_t load(struct store store, const char *what, const struct aid *domain,
                     const struct file *file, unsigned deepest, uint32_t expected)
{
    uint32_t answer;
    char remark[40];

    remember(store);
    answer = loader_load(store.bytes, store.length, domain->bytes, domain->length, file->bytes,
                         file->length);
    snprintf(remark, sizeof remark, "done, deepest class %u", (unsigned)LOADER_FIGURE(answer));
    row(store, answer, expected, remark, "load %s into %s", what, domain->name);
    line(store, 'L', domain, file);
    if (LOADER_NUMBER(answer) == LOADER_DONE && LOADER_FIGURE(answer) != deepest) {
        unexpected(what, "another depth");
    }
    return LOADER_NUMBER(answer);
}

/* Tries a load on a copy of the card. The simulated card has no copy: it loads and removes again. */
static void try_load(const char *what, const struct aid *domain, const struct file *file,
                     const struct aid *package, unsigned deepest, uint32_t expected)
{
    memcpy(copy_bytes, card_bytes, sizeof copy_bytes);
    if (load(trial, what, domain, file, deepest, expected) == LOADER_DONE) {
        line(trial, 'R', package, NULL);
    }
}

/* Asks who may call a method of class 0 of a package. */
static void query(const struct aid *domain, const struct aid *package, const char *method,
                  unsigned name, bool yes, uint32_t expected)
{
    uint32_t answer;

    remember(card);
    answer = loader_query(card.bytes, card.length, domain->bytes, domain->length, package->bytes,
                          package->length, 0, (uint16_t)name);
    row(card, answer, expected, LOADER_FIGURE(answer) == 1 ? "yes" : "no", "may %s call %s of %s?",
        domain->name, method, package->name);
    if (LOADER_FIGURE(answer) != (yes ? 1u : 0u) || memcmp(before, card.bytes, card.length) != 0) {
        unexpected(method, "this yes or no, or a query that changed the store");
    }
}

static void monday(void)
{
    struct file meals;

    say("Monday: a fresh card, three domains, and the canteen's meals.");
    fresh(card, LOADER_DONE);
    create(card, &CANTEEN, LOADER_DONE);
    create(card, &DIRECTORY, LOADER_DONE);
    create(card, &PHARMACY, LOADER_DONE);
    write_meals(&meals);
    load(card, "meals", &CANTEEN, &meals, 1, LOADER_DONE);
}

static void tuesday(void)
{
    static uint8_t card_on_monday[CARD_BYTES];
    struct file statements;

    memcpy(card_on_monday, card_bytes, sizeof card_on_monday);
    say("Tuesday: the directory's statements are tried on a copy of the card.\n"
        "  Their first draft is open to the pharmacy, but calls order of meals, which is not.");
    write_statements(&statements, BY_OWN | BY_PHARMACY);
    try_load("statements, draft,", &DIRECTORY, &statements, &STATEMENTS, 1, LOADER_CALL_POLICY);
    write_statements(&statements, BY_OWN);
    try_load("statements", &DIRECTORY, &statements, &STATEMENTS, 1, LOADER_DONE);
    if (memcmp(card_on_monday, card_bytes, sizeof card_on_monday) == 0) {
        say("  The card itself has every byte of Monday.");
    } else {
        unexpected("a try on a copy", "it changed the card");
    }
}

/* Bad input that the simulated card can be given too. */
static void wednesday_on_the_card(void)
{
    static const struct aid four_bytes = {"A0000000", 4, {0xA0, 0x00, 0x00, 0x00}};
    struct file file;

    create(card, &four_bytes, LOADER_AID_LENGTH);
    create(card, &CANTEEN, LOADER_DOMAIN_EXISTS);
    remove_package(card, &STATEMENTS, LOADER_PACKAGE_UNKNOWN);
    write_meals(&file);
    load(card, "meals", &RADIOLOGY, &file, 1, LOADER_DOMAIN_UNKNOWN);
    load(card, "meals again", &CANTEEN, &file, 1, LOADER_PACKAGE_EXISTS);
    file.length -= 1;
    load(card, "meals, the last byte missing,", &CANTEEN, &file, 1, LOADER_FILE_LAYOUT);
    file.bytes[0] = 'X';
    load(card, "meals, another mark,", &CANTEEN, &file, 1, LOADER_FILE_MARK);
    write_requests(&file, BY_DIRECTORY, BEHIND_CALL);
    load(card, "requests, before cabinet,", &DIRECTORY, &file, 1, LOADER_IMPORT_MISSING);
    if (scripting) {
        puts("C a0000000e1");
    }
}

static void wednesday(void)
{
    struct file meals;

    say("Wednesday: bad input. A refusal leaves every byte of the store.");
    wednesday_on_the_card();
    say("  Other stores: one of 63 bytes, one of 64, and a copy of the card with one bit turned in the\n"
        "  entry of the canteen's domain, so that meals lies in a domain that was never created.");
    memset(copy_bytes, 0, sizeof copy_bytes);
    fresh(too_small, LOADER_STORE_SIZE);
    fresh(small, LOADER_DONE);
    create(small, &CANTEEN, LOADER_DONE);
    write_meals(&meals);
    load(small, "meals", &CANTEEN, &meals, 1, LOADER_STORE_FULL);
    memcpy(copy_bytes, card_bytes, sizeof copy_bytes);
    copy_bytes[LAST_BYTE_OF_FIRST_DOMAIN] ^= 0x01;
    create(damaged, &RADIOLOGY, LOADER_STORE_UNSOUND);
}

static void thursday(void)
{
    struct file statements;

    say("Thursday: the statements, which import meals, are loaded as they were tried.");
    write_statements(&statements, BY_OWN);
    load(card, "statements", &DIRECTORY, &statements, 1, LOADER_DONE);
}

static void friday(void)
{
    struct file diet;

    say("Friday: the pharmacy's diet meal overrides price of the canteen's meal.\n"
        "  Order, loaded on Monday, will run it; so it must allow all that the meal's price allows.");
    write_diet(&diet, BY_PHARMACY);
    load(card, "diet, too narrow,", &PHARMACY, &diet, 2, LOADER_RUNNING_POLICY);
    write_diet(&diet, BY_CANTEEN | BY_DIRECTORY | BY_PHARMACY);
    load(card, "diet", &PHARMACY, &diet, 2, LOADER_DONE);
    query(&CANTEEN, &DIET, "price", NAME_PRICE, true, LOADER_DONE);
}

static void saturday(void)
{
    struct file file;

    say("Saturday: the drug cabinet. Book is for the directory and the pharmacy.");
    write_cabinet(&file);
    load(card, "cabinet", &PHARMACY, &file, 1, LOADER_DONE);
    query(&PHARMACY, &CABINET, "book", NAME_BOOK, true, LOADER_DONE);
    query(&DIRECTORY, &CABINET, "book", NAME_BOOK, true, LOADER_DONE);
    query(&CANTEEN, &CABINET, "book", NAME_BOOK, false, LOADER_DONE);
    query(&RADIOLOGY, &CABINET, "book", NAME_BOOK, false, LOADER_DONE);
    query(&CANTEEN, &CABINET, "order", NAME_ORDER, false, LOADER_METHOD_UNKNOWN);
    say("  Forward of requests calls book; a handler catches what book throws, so requests is of version 2.\n"
        "  In the first draft the handler ends at the last byte of the call, where no instruction starts.");
    write_requests(&file, BY_DIRECTORY, LAST_BYTE_OF_CALL);
    load(card, "requests, draft,", &DIRECTORY, &file, 1, LOADER_HANDLER);
    say("  The canteen tries to reach book through the directory: treat calls forward, forward calls book.\n"
        "  If forward is open to the canteen, requests is refused; if it is not, treats is.");
    write_requests(&file, BY_CANTEEN | BY_DIRECTORY, BEHIND_CALL);
    load(card, "requests, for the canteen,", &DIRECTORY, &file, 1, LOADER_CALL_POLICY);
    write_requests(&file, BY_DIRECTORY, BEHIND_CALL);
    load(card, "requests", &DIRECTORY, &file, 1, LOADER_DONE);
    write_treats(&file);
    load(card, "treats", &CANTEEN, &file, 1, LOADER_CALL_POLICY);
    query(&CANTEEN, &REQUESTS, "forward", NAME_FORWARD, false, LOADER_DONE);
}

static void sunday(void)
{
    say("Sunday: everything is taken off, first in the wrong order, then in the right one.");
    remove_package(card, &MEALS, LOADER_PACKAGE_IMPORTED);
    remove_package(card, &CABINET, LOADER_PACKAGE_IMPORTED);
    delete_domain(card, &CANTEEN, LOADER_DOMAIN_OCCUPIED);
    remove_package(card, &STATEMENTS, LOADER_DONE);
    remove_package(card, &DIET, LOADER_DONE);
    remove_package(card, &MEALS, LOADER_DONE);
    delete_domain(card, &CANTEEN, LOADER_DONE);
    remove_package(card, &REQUESTS, LOADER_DONE);
    remove_package(card, &CABINET, LOADER_DONE);
    delete_domain(card, &PHARMACY, LOADER_DONE);
    delete_domain(card, &DIRECTORY, LOADER_DONE);
    memset(copy_bytes, 0xFF, sizeof copy_bytes);
    loader_fresh(copy_bytes, sizeof copy_bytes);
    if (memcmp(card_bytes, copy_bytes, sizeof card_bytes) == 0) {
        say("The card is again, byte for byte, a fresh one.");
    } else {
        unexpected("the card", "it is not a fresh one again");
    }
}

/* Other stores, which the simulated card has not: its limits are those of version 1. */
static void next_series(void)
{
    struct file rota, meals;

    say("Next: cards of other series, whose limits are chosen when the store is made: how deep a class\n"
        "  may be, how many parents it may have, how long a code may be.\n"
        "  The directory's rota has a class of depth 9 with five parents. Cards of the week's series\n"
        "  allow four parents and depth 8.");
    fresh(next_card, LOADER_DONE);
    create(next_card, &DIRECTORY, LOADER_DONE);
    write_rota(&rota, 9, 5);
    load(next_card, "rota, five parents,", &DIRECTORY, &rota, 9, LOADER_FILE_LAYOUT);
    write_rota(&rota, 9, 4);
    load(next_card, "rota, four parents,", &DIRECTORY, &rota, 9, LOADER_CLASS_PARENTS);
    say("  A series with the greatest limits; a depth of 17 is refused, and the card stays as it was.");
    fresh_limits(next_card, LOADER_DEPTH_MOST + 1, LOADER_PARENTS_MOST, LOADER_CODE_MOST, LOADER_LIMITS);
    fresh_limits(next_card, LOADER_DEPTH_MOST, LOADER_PARENTS_MOST, LOADER_CODE_MOST, LOADER_DONE);
    create(next_card, &DIRECTORY, LOADER_DONE);
    write_rota(&rota, 9, 5);
    load(next_card, "rota, five parents,", &DIRECTORY, &rota, 9, LOADER_DONE);
    say("  A series with small limits: order of meals has 5 bytes of code.");
    fresh_limits(next_card, 2, 1, 4, LOADER_DONE);
    create(next_card, &CANTEEN, LOADER_DONE);
    write_meals(&meals);
    load(next_card, "meals", &CANTEEN, &meals, 1, LOADER_FILE_LAYOUT);
    fresh_limits(next_card, 2, 1, 5, LOADER_DONE);
    create(next_card, &CANTEEN, LOADER_DONE);
    load(next_card, "meals", &CANTEEN, &meals, 1, LOADER_DONE);
}

/* A domain without int, which the simulated card has no line for. */
static void door_readers(void)
{
    struct file clock, lock;

    say("Last: door readers, which run the Java Card subset without int. The doors get a domain without\n"
        "  int; no other domain, of whatever kind, may then have its AID.");
    fresh(next_card, LOADER_DONE);
    create(next_card, &DIRECTORY, LOADER_DONE);
    create_without_int(next_card, &DOORS, LOADER_DONE);
    create(next_card, &DOORS, LOADER_DOMAIN_EXISTS);
    say("  Minutes of clock computes in int: the doors refuse it, the directory does not.");
    write_clock(&clock);
    load(next_card, "clock", &DOORS, &clock, 1, LOADER_CODE_INT);
    load(next_card, "clock", &DIRECTORY, &clock, 1, LOADER_DONE);
    say("  Open of lock calls minutes: clock may use int, as it lies in another domain. In the first draft\n"
        "  lock itself has instructions with int, behind its return, where nothing leads.");
    write_lock(&lock, true);
    load(next_card, "lock, draft,", &DOORS, &lock, 1, LOADER_CODE_INT);
    write_lock(&lock, false);
    load(next_card, "lock", &DOORS, &lock, 1, LOADER_DONE);
    say("  New readers know int. The domain is deleted and comes back as one of the other kind.");
    delete_domain(next_card, &DOORS, LOADER_DOMAIN_OCCUPIED);
    remove_package(next_card, &LOCK, LOADER_DONE);
    delete_domain(next_card, &DOORS, LOADER_DONE);
    create(next_card, &DOORS, LOADER_DONE);
    write_lock(&lock, true);
    load(next_card, "lock, draft,", &DOORS, &lock, 1, LOADER_DONE);
}

/* Writes the bytes of the card's store. */
static void write_store(void)
{
    if (fwrite(card_bytes, 1, sizeof card_bytes, stdout) != sizeof card_bytes || fflush(stdout) != 0) {
        unexpected("standard output", "it cannot be written");
    }
}

int main(int count, char **words)
{
    bool storing = count == 2 && strcmp(words[1], "store") == 0;

    scripting = count == 2 && strcmp(words[1], "card") == 0;
    telling = count == 1;
    if (!telling && !scripting && !storing) {
        fputs("usage: week [card|store]\n", stderr);
        return 2;
    }
    say("What was asked, the number answered, the store's used bytes after it, what that means.");
    monday();
    tuesday();
    wednesday();
    thursday();
    friday();
    saturday();
    if (storing) {
        write_store();
        return as_expected ? 0 : 1;
    }
    sunday();
    next_series();
    door_readers();
    return as_expected ? 0 : 1;
}
