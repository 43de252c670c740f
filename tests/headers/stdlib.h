/* What the C code here uses of <stdlib.h>. */
#ifndef STDLIB_H
#define STDLIB_H

#include <stddef.h>

void *realloc(void *old, size_t size);
void free(void *old);

#endif
