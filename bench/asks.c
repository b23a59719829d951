/* Asks every receiver of a stored state, over and over, through the library for C, and prints the least seconds of one round: what a
   map viewer pays for a redraw. */

#define _POSIX_C_SOURCE 199309L

#include <stdio.h>
#include <time.h>

#include "ngoretaiwhe.h"

enum { ROUNDS = 200 };

static uint8_t store[NGORETAIWHE_STORE_LENGTH];

static double now(void)
{
    struct timespec t;

    clock_gettime(CLOCK_MONOTONIC, &t);
    return (double)t.tv_sec + (double)t.tv_nsec * 1e-9;
}

/* How many receivers of the store were refused. */
static unsigned refused(void)
{
    unsigned count = 0;

    for (size_t slot = 0; slot < NGORETAIWHE_RECEIVERS; slot++) {
        uint8_t output[NGORETAIWHE_OUTPUT_LENGTH];

        count += ngoretaiwhe_ask(store, sizeof store, slot, output, sizeof output) != NGORETAIWHE_DONE;
    }
    return count;
}

int main(int argc, char **argv)
{
    FILE *file = argc == 2 ? fopen(argv[1], "rb") : NULL;
    double least = 1e9;

    if (file == NULL || fread(store, 1, sizeof store, file) != sizeof store) {
        fprintf(stderr, "usage: asks STORE\n");
        return 1;
    }
    for (int round = 0; round < ROUNDS; round++) {
        double begun = now(), seconds;

        if (refused() > 0) {
            fprintf(stderr, "asks: a receiver is refused\n");
            return 1;
        }
        seconds = now() - begun;
        if (seconds < least)
            least = seconds;
    }
    printf("%.6f\n", least);
    return 0;
}
