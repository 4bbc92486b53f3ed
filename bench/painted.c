/* For LD_PRELOAD: paints the stack before a program's main and counts, when it ends, what lost its paint. Good to some
   hundred bytes, since main does not begin exactly where the painting did. */
#include <stddef.h>
#include <stdio.h>

enum { DEEP = 200000, PAINT = 0xA5 };

static volatile unsigned char *low;

__attribute__((constructor, noinline)) static void paint(void) {
    volatile unsigned char below[DEEP];
    for (size_t i = 0; i < DEEP; i++) below[i] = PAINT;
    low = below;
}

__attribute__((destructor)) static void tell(void) {
    size_t clean = 0;
    while (low[clean] == PAINT) clean++;
    fprintf(stderr, "%zu bytes\n", DEEP - clean);
}
