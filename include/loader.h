/*
 * The staff card loader: eight operations on a store that the caller lends.
 *
 * Every operation answers number + 256 * figure. The number is 0 when the
 * operation was done; else it is that of the first question answered no
 * (enum loader_number). The figure is the depth of an accepted load's deepest
 * class, 1 for a query's yes, and 0 otherwise. LOADER_NUMBER and LOADER_FIGURE
 * take an answer apart.
 *
 * Slices. Bytes are passed as a pointer and then their number. An AID is passed
 * as its 5 to 16 bare bytes, without the length that stands before it in a
 * file. Any bytes and any lengths may be passed: what is not an AID, a package
 * file or a store is refused by its number.
 *
 * Refusals. Where the number is not 0, every byte of the store is as it was,
 * and the figure is 0.
 *
 * Soundness. Every operation but the two fresh calls first checks the whole
 * store (question 2). This is no checksum: bytes that were changed from outside
 * are noticed only where the store is no longer sound.
 *
 * Policies. A method allows the domains at its indexes, with FF every domain,
 * and by index FE the domain that its own package was loaded in, for as long as
 * it lies there: one package file serves vendors who do not know the domain. The
 * query tells what a method allows where it lies.
 *
 * Versions. A package file is of version 1 or 2. In version 2 each code is
 * followed by its handlers: offsets of the part that is guarded, and of where to
 * go on when that part fails. Files of both versions lie in one store and may
 * import one another. A load checks that handlers fit their code (24) and runs
 * none. A call that a handler guards, or that stands where it goes on, is a call
 * of its method like any other.
 *
 * Calls. A call names a class and a method's name. The class need not declare the
 * name itself. It is searched for in the class and its parents of kind 0 upwards,
 * then in the interfaces of each of these in turn, depth first and in listed order,
 * an interface before its own parents. The first class that declares the name ends
 * the search, whatever the form of its declaration: a static one or one that is not
 * visible hides those behind it. The call means this declaration; 18 and 19 ask
 * about it. It may lie in a package that the file does not import itself. 8B may end
 * at an interface's declaration where the class named is of kind 0, and 8E may name
 * such a class. The receivers of 8B and 8E are the classes at or below the one named.
 *
 * Domains without int. Door readers run the Java Card subset without int, the
 * type of 32 bits. A domain that loader_create_without_int creates is of kind 3:
 * its packages must keep to this subset. A load into it refuses a file with a
 * barred instruction in any of its codes, reached or not, with 26; operands are no
 * instructions. docs/FORMATS.md lists what is barred. Stored in such a domain, a
 * file of this sort makes the store unsound (2). In all else a domain of kind 3 is
 * like one of kind 1. No two domains have the same AID, whatever their kinds. A
 * deleted domain may be created again as either kind. Packages of domains of both
 * kinds may import and call one another.
 *
 * Limits of a series. A store has three limits: the greatest depth of a class,
 * the greatest number of its parents and the greatest length of a code. They are
 * chosen when the store is made. loader_fresh_limits takes them and writes them
 * into the store, which is then of version 2; loader_fresh writes version 1, which
 * means 8, 4 and 4,096. Every other operation reads them from the store, and none
 * changes them. A file with more parents or a longer code is refused with 11, one
 * with a deeper class with 14, whatever the version of the file. A stored limit
 * out of its range makes the store unsound (2).
 *
 * Used. The bytes that a store's opening and its entries take stand in its
 * bytes 5 and 6, the high byte first: LOADER_USED(store). It may be read of any
 * store whose last call answered none of 1, 2 and 30. docs/FORMATS.md has the
 * whole layout; nothing but used need be read.
 *
 * Assumed of the caller, and tested by nothing:
 * - A pointer is valid for its length, for writing too where it is not const.
 *   Where the length is 0 the pointer may be NULL: nothing is read or written
 *   through it. Elsewhere it is not NULL.
 * - A store that is not const overlaps no other argument. Arguments that are
 *   const may overlap each other, the store of a query among them.
 * - All of these bytes rest during the call: no other thread, interrupt or
 *   device writes them, and none reads a store that is being changed.
 * - The stack has the bytes in the table below left.
 * Nothing is asked of alignment: every field is read and written bytewise.
 *
 * Re-entrancy. There is no state but the store: no static variable, no heap, no
 * input or output, and no pointer is kept after the call. Calls on different
 * stores may run at the same time, and so may queries on the same store.
 *
 * Power loss. A refused call and a query write nothing. The others write only
 * when all questions are answered yes, in this order:
 *
 *     loader_fresh,
 *     loader_fresh_limits            every byte
 *     loader_create,
 *     loader_create_without_int,
 *     loader_load                    the entry, at used, its first byte first;
 *                                    then used (bytes 5 and 6)
 *     loader_delete, loader_remove   the later entries, moved up, the first of
 *                                    them first; zeros up to the old used; then
 *                                    used (bytes 5 and 6)
 *
 * Cut off at any byte, a creation or a load leaves the store as it was, the
 * store as it becomes, or one for which every call but the two fresh ones
 * answers 2. A deletion or a removal leaves one of these or, while one entry is
 * written over another, a sound store that is neither: no call notices that. A
 * fresh call that was cut off is made again; until then loader_fresh leaves one of
 * these, loader_fresh_limits one of these or a sound, empty store with other
 * limits. tests/tears.sh cuts calls off at every byte.
 *
 * So the operating system lends a copy in volatile memory and writes that back
 * as a whole, or wraps the call in a transaction over bytes 5 and 6 and: for a
 * creation or a load the bytes from used up to the new used, for a deletion or
 * a removal the bytes from the entry's place up to used. The bytes from 5 up to
 * the greater used always suffice.
 *
 * Limits. A store has LOADER_STORE_LEAST to LOADER_STORE_MOST bytes, an AID
 * LOADER_AID_LEAST to LOADER_AID_MOST. A package file lies in a store whole, so
 * it has fewer than LOADER_STORE_MOST bytes. The limits of a series are 1 to
 * LOADER_DEPTH_MOST, LOADER_PARENTS_MOST and LOADER_CODE_MOST; those of version 1
 * are LOADER_DEPTH_STANDARD, LOADER_PARENTS_STANDARD and LOADER_CODE_STANDARD.
 *
 * Time. Every operation but the two fresh calls judges each installed package
 * again, so its time grows with the bytes installed. Measured with an older
 * compiler on one core of an AMD EPYC with ordinary packages (docs/BENCHMARKS.md
 * has every figure), an operation takes about 0.06 ms over a full store of 8,192
 * bytes and 0.5 ms over one of 65,535. These are no bounds. Packages can be made
 * for the purpose of taking longer: an operation over the slowest store of 65,535
 * bytes that was found takes 3 seconds, with larger limits (see below) too. For
 * each package judged the time is at most a constant times its file's bytes times
 * the bytes of the packages that it imports, directly or not. It does not grow with
 * the number of ways up through the classes, whatever the limits.
 *
 * Stack in bytes on x86-64: no call takes more, whatever the bytes. The figures
 * are read off the library's machine code, every frame and the longest chain of
 * calls; tests/stack.sh reads them again and measures calls beside them. Standard:
 * stores whose depth limit is 8 or less and whose code limit is 4,096 or less,
 * those of version 1 and buffers that are no store among them. Larger: all others.
 * The limit on parents does not matter. Each has a column for stores to 8,192
 * bytes, and one for longer stores.
 *
 *                                 standard limits      larger limits
 *                                  8,192   longer      8,192   longer
 *     loader_fresh                   300      300        300      300
 *     loader_fresh_limits            300      300        300      300
 *     loader_create                7,920   18,430     14,490   26,430
 *     loader_create_without_int    7,920   18,430     14,490   26,430
 *     loader_delete                7,920   18,430     14,490   26,430
 *     loader_load                  7,920   18,430     14,490   26,430
 *     loader_remove                7,920   18,430     14,490   26,430
 *     loader_query                 7,920   18,430     14,490   26,430
 *
 * Linking. libloader.a is for x86-64 Linux. It needs one function from outside:
 * memset, as C99 has it. This header compiles where int has 16 bits or more, and
 * as C++. loader_text.h has a name and a sentence for each number.
 */
#ifndef LOADER_H
#define LOADER_H

#include <stddef.h>
#include <stdint.h>

#ifdef __cplusplus
extern "C" {
#endif

/*
 * The version of this header and of the library that goes with it: the major
 * number grows where a call that was right before means something else, the
 * minor one where something is added. Since 1.1 an accepted load's figure is the
 * depth itself; in 1.0 it was only not less. Since 1.2 index FE in an allowed
 * list means the domain that the package is loaded in; before, it was refused
 * with 11. Since 1.3 package files of version 2 are loaded too; before, they were
 * refused with 10. To a library before 1.3, a store that holds one is not sound.
 * Since 1.4 stores of version 2 have limits of their own, and loader_fresh_limits
 * makes them; LOADER_DEPTH_MOST, the greatest depth in any store, was 8. To a
 * library before 1.4, a store of version 2 is not sound. Since 1.5 domains may be
 * of kind 3, loader_create_without_int creates them, and a load into one may be
 * refused with 26. To a library before 1.5, a store that has one is not sound.
 * Since 1.6 a call may name a class that inherits the method; before, it was refused
 * with 18. To a library before 1.6, a store that holds a package with such a call is
 * not sound.
 */
#define LOADER_VERSION_MAJOR 1u
#define LOADER_VERSION_MINOR 6u
#define LOADER_VERSION (LOADER_VERSION_MAJOR * 256u + LOADER_VERSION_MINOR)

/* The number of an answer: the question that was answered no. 22, 23, 25 and 27 to 29 are no
   numbers of the loader. */
enum loader_number {
    /* Done: every question was answered yes. */
    LOADER_DONE = 0,
    /* Has the store 64 to 65,535 bytes? */
    LOADER_STORE_SIZE = 1,
    /* Is it sound? */
    LOADER_STORE_UNSOUND = 2,
    /* Has every AID given to the call 5 to 16 bytes? */
    LOADER_AID_LENGTH = 3,
    /* Is the domain new? */
    LOADER_DOMAIN_EXISTS = 4,
    /* Has it been created? */
    LOADER_DOMAIN_UNKNOWN = 5,
    /* Does no installed package lie in it? */
    LOADER_DOMAIN_OCCUPIED = 6,
    /* Is the package installed? */
    LOADER_PACKAGE_UNKNOWN = 7,
    /* Does no other installed package import it? */
    LOADER_PACKAGE_IMPORTED = 8,
    /* Does it have this class, and that class this name? */
    LOADER_METHOD_UNKNOWN = 9,
    /* Does the file begin with mark and version, 1 or 2? */
    LOADER_FILE_MARK = 10,
    /* Does the rest read exactly to its end as laid out, size, counts and ranges included? */
    LOADER_FILE_LAYOUT = 11,
    /* Is the package AID not installed? */
    LOADER_PACKAGE_EXISTS = 12,
    /* Is each import installed? */
    LOADER_IMPORT_MISSING = 13,
    /* Does each parent exist, an own one with a smaller number; have interfaces only interface
       parents, classes at most one kind-0 parent, the same one listed twice being two; is each
       depth at most the store's limit? */
    LOADER_CLASS_PARENTS = 14,
    /* Do names differ within each class; is each static method implemented, each interface
       method neither? */
    LOADER_METHOD_FORM = 15,
    /* Does each code split into instructions from offset 0 to its end, low at most high, the last
       being 70, 72-7A, 93 or A8? */
    LOADER_CODE_SPLIT = 16,
    /* Is each branch target an offset where an instruction starts? */
    LOADER_BRANCH_TARGET = 17,
    /* Does each call's reference exist, and does the search from the class that it names end at a
       declaration, visible if it lies outside the file; for 8B non-static and the class named of
       kind 0, 8C implemented, 8D static, 8E non-static of kind 1? */
    LOADER_CALL_REFERENCE = 18,
    /* Does the declaration that each call means allow the loading domain and all that the caller
       allows? */
    LOADER_CALL_POLICY = 19,
    /* For each own class B and n, does the method that runs allow all that each non-static n of B
       and its ancestors allows? */
    LOADER_RUNNING_POLICY = 20,
    /* Does the entry fit, used not passing the buffer's length? */
    LOADER_STORE_FULL = 21,
    /* Is each handler's start below its end, its end at most the code length; do start and target
       begin an instruction, and does end begin one or equal the length? */
    LOADER_HANDLER = 24,
    /* If the domain is of kind 3, is no instruction of any code barred? */
    LOADER_CODE_INT = 26,
    /* Does each limit given lie in its range: depth 1 to 16, parents 1 to 8, code length 1 to
       32,767? */
    LOADER_LIMITS = 30
};

/* The least and greatest lengths of a store and an AID. */
#define LOADER_STORE_LEAST 64u
#define LOADER_STORE_MOST 65535u
#define LOADER_AID_LEAST 5u
#define LOADER_AID_MOST 16u

/* The greatest limits of a series, on the depth of a class, its parents and the bytes of a code;
   the least are 1. */
#define LOADER_DEPTH_MOST 16u
#define LOADER_PARENTS_MOST 8u
#define LOADER_CODE_MOST 32767u

/* The limits of a store of version 1. */
#define LOADER_DEPTH_STANDARD 8u
#define LOADER_PARENTS_STANDARD 4u
#define LOADER_CODE_STANDARD 4096u

/* The number and the figure of an answer. */
#define LOADER_NUMBER(answer) ((answer) % 256u)
#define LOADER_FIGURE(answer) ((answer) / 256u)

/* Used: how many bytes of a store its opening and its entries take. */
#define LOADER_USED(store) ((unsigned)(store)[5] * 256u + (unsigned)(store)[6])

/*
 * Makes the buffer an empty store of version 1, with the limits 8, 4 and 4,096.
 * What it held before is not looked at.
 *
 * In:      store: the buffer, any bytes.
 * Numbers: 1.
 * Changes: every byte of the store: mark, version 1, used = 7, zeros.
 * Figure:  0.
 */
uint32_t loader_fresh(uint8_t *store, size_t store_length);

/*
 * Makes the buffer an empty store of version 2, with the limits of a series. What
 * it held before is not looked at.
 *
 * In:      store: the buffer, any bytes; depth: the greatest depth of a class,
 *          1 to 16; parents: the greatest number of a class's parents, 1 to 8;
 *          code: the greatest length of a code, 1 to 32,767.
 * Numbers: 1, 30, asked in this order.
 * Changes: every byte of the store: mark, version 2, used = 11, the limits in
 *          bytes 7 to 10, zeros.
 * Figure:  0.
 */
uint32_t loader_fresh_limits(uint8_t *store, size_t store_length,
                             uint8_t depth, uint8_t parents, uint16_t code);

/*
 * Creates a domain of kind 1: one whose packages may use int.
 *
 * In:      store; domain: the AID of the new domain.
 * Numbers: 1, 2, 3, 4, 21, asked in this order.
 * Changes: the domain's entry is written at used, and used grows by its
 *          3 + domain_length bytes. All other bytes stay.
 * Figure:  0.
 */
uint32_t loader_create(uint8_t *store, size_t store_length,
                       const uint8_t *domain, size_t domain_length);

/*
 * Creates a domain of kind 3: one whose packages must keep to the subset without
 * int. On the same bytes its number is that of loader_create.
 *
 * In:      store; domain: the AID of the new domain.
 * Numbers: 1, 2, 3, 4, 21, asked in this order.
 * Changes: the domain's entry is written at used, as by loader_create but for its
 *          kind, and used grows by its 3 + domain_length bytes. All other bytes
 *          stay.
 * Figure:  0.
 */
uint32_t loader_create_without_int(uint8_t *store, size_t store_length,
                                   const uint8_t *domain, size_t domain_length);

/*
 * Deletes a domain, of either kind, in which no package lies. Policies that name
 * it stay as they are, and do not prevent it.
 *
 * In:      store; domain: the AID of a created domain.
 * Numbers: 1, 2, 3, 5, 6, asked in this order.
 * Changes: the domain's entry is cut out: the later entries move up in their
 *          order, used shrinks by 3 + domain_length, and the freed bytes at the
 *          end are zero. All bytes before the entry but used stay.
 * Figure:  0.
 */
uint32_t loader_delete(uint8_t *store, size_t store_length,
                       const uint8_t *domain, size_t domain_length);

/*
 * Checks a package file and installs it in a domain of either kind.
 *
 * In:      store; domain: the AID of the loading domain, a created one;
 *          file: the whole package file.
 * Numbers: 1, 2, 3, 5, 10, 11, 12, 13, 14, 15, 16, 17, 24, 26, 18, 19, 20, 21,
 *          asked in this order, each of the whole file before the next. 26 is never
 *          answered where the domain is of kind 1.
 * Changes: the package's entry is written at used: kind, length, the domain's
 *          AID with its length, the file as it is. Used grows by its
 *          4 + domain_length + file_length bytes. All other bytes stay.
 * Figure:  accepted, exactly the depth of the file's deepest class or interface,
 *          the installed classes above it counted; 0 for a file without classes.
 *          It is at most the store's depth limit, so at most LOADER_DEPTH_MOST.
 *          Refused, 0.
 */
uint32_t loader_load(uint8_t *store, size_t store_length,
                     const uint8_t *domain, size_t domain_length,
                     const uint8_t *file, size_t file_length);

/*
 * Removes a package that no other package imports.
 *
 * In:      store; package: the AID of an installed package.
 * Numbers: 1, 2, 3, 7, 8, asked in this order.
 * Changes: the package's entry is cut out: the later entries move up in their
 *          order, used shrinks by the entry's bytes, and the freed bytes at the
 *          end are zero. All bytes before the entry but used stay.
 * Figure:  0.
 */
uint32_t loader_remove(uint8_t *store, size_t store_length,
                       const uint8_t *package, size_t package_length);

/*
 * Says whether a method of an installed package allows a domain.
 *
 * In:      store; domain: an AID, of a created domain or not; package: the AID of
 *          an installed package; class_number: a class of that package, counted
 *          from 0; name: the name of a method that the class itself declares.
 * Numbers: 1, 2, 3, 7, 9, asked in this order; 3 is asked of both AIDs.
 * Changes: nothing.
 * Figure:  1 when the method allows the domain, else 0. Refused, 0.
 */
uint32_t loader_query(const uint8_t *store, size_t store_length,
                      const uint8_t *domain, size_t domain_length,
                      const uint8_t *package, size_t package_length,
                      uint8_t class_number, uint16_t name);

#ifdef __cplusplus
}
#endif

#endif
