/* An accepted message on a page: a tree of its orders and their payments. */
#ifndef TREE_H
#define TREE_H

#include "walker.h"

void put_tree(const walker *w);

#endif
