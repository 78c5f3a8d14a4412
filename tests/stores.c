/*
 * For tests/inventory.sh: stores as files.
 *
 * stores each FOLDER      a store a line in hex on standard input, `-` for none: FOLDER/1, FOLDER/2, ...
 * stores full STORE PAGE  a store as full of small packages as one can be, their AIDs of 16 bytes, and its page
 */
#include <stdio.h>
#include <stdlib.h>
#include <string.h>

enum { LARGEST = 65535, AID = 16, FILE_BYTES = 13 + AID, ENTRY = 3 + 1 + AID + FILE_BYTES };

static FILE *opened(const char *path)
{
    FILE *file = fopen(path, "wb");
    if (file == NULL) {
        fprintf(stderr, "stores: %s cannot be written\n", path);
        exit(1);
    }
    return file;
}

static int each(const char *folder)
{
    static char line[2 * LARGEST + 3];
    for (int number = 1; fgets(line, sizeof line, stdin) != NULL; number++) {
        char path[500];
        unsigned byte;
        snprintf(path, sizeof path, "%s/%d", folder, number);
        FILE *file = opened(path);
        for (const char *at = line; sscanf(at, "%2X", &byte) == 1; at += 2) {
            fputc((int)byte, file);
        }
        fclose(file);
    }
    return 0;
}

/* The domain's AID is 16 bytes D0, a package's 14 bytes C0 and its number. */
static int full(const char *store_path, const char *page_path)
{
    FILE *store = opened(store_path), *page = opened(page_path);
    unsigned packages = (LARGEST - 7 - 3 - AID) / ENTRY, used = 7 + 3 + AID + packages * ENTRY;
    fprintf(store, "BCS%c%c%c%c%c%c%c", 0, 1, (int)(used >> 8), (int)(used & 255), 1, 0, AID);
    for (int i = 0; i < AID; i++) {
        fputc(0xD0, store);
    }
    for (unsigned number = 0; number < packages; number++) {
        char domain[AID + 1] = "", aid[AID + 1] = "";
        memset(domain, 0xD0, AID);
        memset(aid, 0xC0, AID - 2);
        fprintf(store, "%c%c%c%c%s", 2, 0, ENTRY - 3, AID, domain);
        fprintf(store, "BPK%c%c%c%c%c%s", 0, 1, 0, FILE_BYTES, AID, aid);
        fprintf(store, "%c%c%c%c%c%c%c", (int)(number >> 8), (int)(number & 255), 0, 0, 0, 0, 0);
        for (int i = 0; i < AID - 2; i++) {
            fprintf(page, "C0");
        }
        fprintf(page, "%04X D0D0D0D0D0D0D0D0D0D0D0D0D0D0D0D0 %d 0\n", number, FILE_BYTES);
    }
    fprintf(page, "%u %u 0\n", packages, packages * FILE_BYTES);
    for (unsigned i = used; i < LARGEST; i++) {
        fputc(0, store);
    }
    return fclose(store) | fclose(page);
}

int main(int count, char **words)
{
    if (count == 3 && strcmp(words[1], "each") == 0) {
        return each(words[2]);
    }
    if (count == 4 && strcmp(words[1], "full") == 0) {
        return full(words[2], words[3]);
    }
    fprintf(stderr, "usage: stores each FOLDER | stores full STORE PAGE\n");
    return 2;
}
