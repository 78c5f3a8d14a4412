/* The domains and package files of the example week. */
#ifndef PACKAGES_H
#define PACKAGES_H

#include <stdbool.h>
#include <stddef.h>
#include <stdint.h>

#include "loader.h"

/* An AID, and what the example calls it. */
struct aid {
    const char *name;
    size_t length;
    uint8_t bytes[LOADER_AID_MOST];
};

/* Domains: the canteen, the staff directory, the pharmacy and the doors; radiology is never created. */
extern const struct aid CANTEEN, DIRECTORY, PHARMACY, DOORS, RADIOLOGY;

/* Packages: each vendor's bytes and a number of its own. */
extern const struct aid MEALS, TREATS, STATEMENTS, REQUESTS, ROTA, CLOCK, DIET, CABINET, LOCK;

/* Method names. A name stands for name and descriptor. */
enum {
    NAME_PRICE = 0x0101,
    NAME_ORDER = 0x0102,
    NAME_TREAT = 0x0103,
    NAME_STATEMENT = 0x0201,
    NAME_FORWARD = 0x0202,
    NAME_MINUTES = 0x0203,
    NAME_BOOK = 0x0301,
    NAME_OPEN = 0x0401
};

/* The domains that a method allows, as a set. */
enum {
    BY_NONE = 0,
    BY_CANTEEN = 1,
    BY_DIRECTORY = 2,
    BY_PHARMACY = 4,
    BY_OWN = 8,   /* FE: the domain that the package is loaded in */
    BY_EVERY = 16 /* FF: every domain; it stands alone */
};

/* A package file while it is written. */
struct file {
    size_t length;
    uint8_t bytes[256];
};

/* Canteen: class 0, a meal with its price; order asks for the price of whatever meal it is given. */
void write_meals(struct file *file);

/* Directory: statement orders a meal, through the canteen's package. */
void write_statements(struct file *file, unsigned statement_allows);

/* Pharmacy: class 0, a diet meal below the canteen's meal, with a price of its own. */
void write_diet(struct file *file, unsigned price_allows);

/* Pharmacy: book takes a drug out of the cabinet; the directory and the pharmacy may call it. */
void write_cabinet(struct file *file);

/* Offsets in the code of forward: the last byte of its call, and where the next instruction starts. */
enum {
    LAST_BYTE_OF_CALL = 2,
    BEHIND_CALL = 3
};

/*
 * Directory: forward calls book; a handler guards the code from the call up to handler_end and catches
 * what book throws. The file is of version 2.
 */
void write_requests(struct file *file, unsigned forward_allows, unsigned handler_end);

/* Canteen: treat calls the directory's forward; it allows no domain. */
void write_treats(struct file *file);

/*
 * Directory: interfaces 0, 1, .., each the parent of the next, and below the last so many of them a class,
 * the shift, which has the given depth. It has no methods.
 */
void write_rota(struct file *file, unsigned depth, unsigned parents);

/* Directory: minutes tells the minutes of a day; it computes in int and answers a short. */
void write_clock(struct file *file);

/*
 * Doors: open calls the clock's minutes; it allows its own domain. In the draft, instructions with int stand
 * behind its return, where nothing leads.
 */
void write_lock(struct file *file, bool draft);

#endif
