/* How much stack the calls take: each runs on a stack of its own that was painted before, and what lost its paint is
   counted. `stack record` writes the longest list that is tried as a record instead. */
#include "chienlohup.h"

#include <pthread.h>
#include <stdio.h>
#include <stdlib.h>
#include <string.h>

enum { STACK = 1 << 20, PAINT = 0xA5, MOST = 64, FACES = 124 };

static int32_t touches[3 * MOST];
static size_t count;
static uint16_t faces[3 * FACES];
static int64_t out[4];

static void nothing(void) {}

static void build(void) { chienlohup_build(touches, 3 * count, faces, 3 * FACES, out); }

static void plumb(void) {
    double heights[2];
    chienlohup_plumb(touches, 3 * count, 0, 0, out, heights);
}

static void *run(void *call) {
    (*(void (**)(void))call)();
    return NULL;
}

static size_t painted(void (*call)(void)) {
    static unsigned char stack[STACK] __attribute__((aligned(4096)));
    pthread_attr_t attributes;
    pthread_t thread;
    memset(stack, PAINT, STACK);
    pthread_attr_init(&attributes);
    if (pthread_attr_setstack(&attributes, stack, STACK) || pthread_create(&thread, &attributes, run, &call)) exit(1);
    pthread_join(thread, NULL);
    size_t clean = 0;
    while (stack[clean] == PAINT) clean++;
    return STACK - clean;
}

/* Touches of a bowl, far ones and near ones by turns: all are corners. */
static void lay(size_t n) {
    count = n;
    for (size_t i = 0; i < n; i++) {
        int32_t at = (int32_t)(i * 37 % MOST), x = at % 8 - 4, y = at / 8 - 4;
        touches[3 * i] = 100 * x;
        touches[3 * i + 1] = 100 * y;
        touches[3 * i + 2] = x * x + y * y;
    }
}

int main(int argc, char **argv) {
    static uint8_t record[3 + 6 * MOST];
    if (argc == 2 && strcmp(argv[1], "record") == 0) {
        lay(MOST);
        chienlohup_write(touches, 3 * count, record, sizeof record, out);
        return fwrite(record, 1, (size_t)out[2], stdout) != (size_t)out[2];
    }
    painted(nothing); /* the first thread of a program takes more */
    size_t idle = painted(nothing);
    for (size_t n = 4; n <= MOST; n *= 2) {
        lay(n);
        size_t of_build = painted(build) - idle;
        long long built = (long long)out[2];
        printf("%2zu touches, %3lld faces: build %zu bytes, plumb %zu bytes\n", n, built, of_build, painted(plumb) - idle);
    }
    return 0;
}
