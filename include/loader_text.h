/* A name and a sentence for each number of the loader, for logs and screens. Link loader_text.c. */
#ifndef LOADER_TEXT_H
#define LOADER_TEXT_H

#include "loader.h"

#ifdef __cplusplus
extern "C" {
#endif

/* One more than the greatest number. Below it 22, 23, 25 and 27 to 29 are no numbers of the loader. */
#define LOADER_NUMBERS 31u

/* The name of a number, as enum loader_number has it; for any other number "". */
const char *loader_number_name(uint32_t number);

/* What a number means, in a few words without a full stop; for any other number "no number of the loader". */
const char *loader_number_text(uint32_t number);

#ifdef __cplusplus
}
#endif

#endif
