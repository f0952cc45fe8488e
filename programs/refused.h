/* A refused message on a page: why, where, and what to do. */
#ifndef REFUSED_H
#define REFUSED_H

#include "walker.h"

void put_refused(const walker *w);

#endif
