#include "refusals.h"

#include <stddef.h>

static const struct {
    uint32_t number;
    const char *name;
    const char *says;
    const char *advice;
} refusals[] = {
#include "refusals.inc"
};

const char *says(uint32_t number)
{
    for (size_t k = 0; k < sizeof refusals / sizeof *refusals; k++)
        if (refusals[k].number == number)
            return refusals[k].says;
    return "This number is not known to the program.";
}

const char *advice_on(uint32_t number)
{
    for (size_t k = 0; k < sizeof refusals / sizeof *refusals; k++)
        if (refusals[k].number == number)
            return refusals[k].advice;
    return "Install the program and the library together.";
}
