/* What the C code here uses of <string.h>. */
#ifndef STRING_H
#define STRING_H

int strcmp(const char *first, const char *second);

#endif
