/* Why a file is cut short, or has a wrong mark, in words. */
#ifndef WORDS_H
#define WORDS_H

#include "libc.h"

/* The refusals of blend.h that carry a place. */
enum { CUT_SHORT = 16, WRONG_MARK = 17 };

/* A number with a comma before each three digits: 92,112. */
void put_grouped(FILE *to, uint64_t number);

/* What was being read at the place where the library refuses the file by 16 or 17, what stood there, and in which block that is. */
void put_fault(FILE *to, const uint8_t *file, size_t length, uint64_t refusal, uint64_t fault_at);

#endif
