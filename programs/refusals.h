/* The words of a refusal, from refusals.txt. */
#ifndef REFUSALS_H
#define REFUSALS_H

#include <stdint.h>

/* What is wrong. */
const char *says(uint32_t number);

/* What to do about it. */
const char *advice_on(uint32_t number);

#endif
