/* viewer [JOB]: what a map viewer does with the road-noise book. It applies the records of a job, in the file JOB or on standard
   input, one by one to a cleared store, tells on standard error which were refused, and prints the levels of all receivers. */

/* Build: cc -std=c99 -O2 -I include -o viewer examples/viewer.c target/staticlib/libviewer.a
   Exit status: 0; 2 if the job stopped at a record refused 2 or 3; 1 if the job cannot be read or the table not be written. */

#include <stdint.h>
#include <stdio.h>

#include "ngoretaiwhe.h"

enum { WHOLE = 0, FAILED = 1, STOPPED = 2 };

enum { LONGEST_RECORD = 34 };

/* How many bytes a record has, by its kind. No kind is 0 or above 9: of such a record one byte is read, which has the kind in it
   and is all that the library needs to refuse it. */
static const size_t record_lengths[16] = {1, 9, 2, 30, 2, 2, 20, 34, 15, 2, 1, 1, 1, 1, 1, 1};

static const char *const meanings[] = {
    [NGORETAIWHE_DONE] = "done",
    [NGORETAIWHE_DAMAGED] = "the store is damaged",
    [NGORETAIWHE_LENGTH] = "the job ends inside the record",
    [NGORETAIWHE_UNKNOWN_KIND] = "there is no such kind of record",
    [NGORETAIWHE_LEFTOVER] = "a bit that is left over at the end of the record is set",
    [NGORETAIWHE_FIELD] = "the field of that number is not allowed",
    [NGORETAIWHE_SURFACE] = "the surface is for more than 60 km/h",
    [NGORETAIWHE_TRUCK] = "a truck would be quieter than a car",
    [NGORETAIWHE_TAKEN] = "the slot is in use",
    [NGORETAIWHE_VACANT] = "nothing stands in the slot",
    [NGORETAIWHE_NEAR] = "road and receiver are less than 5 m apart",
    [NGORETAIWHE_FAR] = "road and receiver are more than 2 km apart",
    [NGORETAIWHE_LONG] = "the road is longer than half the way to the receiver",
    [NGORETAIWHE_LOUD] = "the road brings more than 90 dB to the receiver",
    [NGORETAIWHE_TWO_WALLS] = "two noise walls stand between road and receiver",
};

/* The book. The library keeps nothing of it, and locks nothing: in a viewer with several threads one at a time may apply, and none
   may ask meanwhile. Asks alone may go on side by side. */
static uint8_t store[NGORETAIWHE_STORE_LENGTH];

/* The place is a field's number for a 5, the slot of the other one, road or receiver, for 10 to 14, and 0 for the rest. */
static void report(const char *what, unsigned long which, uint32_t result)
{
    unsigned number = ngoretaiwhe_number(result);
    const char *meaning = number < sizeof meanings / sizeof meanings[0] ? meanings[number] : "not listed";

    fprintf(stderr, "%s %lu: refused %u at %u: %s\n", what, which, number, ngoretaiwhe_place(result), meaning);
}

/* Reads the next record and returns how many bytes of it there are: too few if the job ends inside it, which is the library's to
   refuse, and 0 at the end of the job or where it cannot be read. */
static size_t read_record(FILE *job, uint8_t record[LONGEST_RECORD])
{
    int first = getc(job);
    size_t length;

    if (first == EOF)
        return 0;
    record[0] = (uint8_t)first;
    length = 1 + fread(record + 1, 1, record_lengths[first >> 4] - 1, job);
    return ferror(job) ? 0 : length;
}

/* A refused record leaves every byte of the store as it was, so that there is nothing to undo, and the next one can be applied.
   After a 2 or a 3 nobody knows where the next one begins. */
static int apply_job(FILE *job)
{
    uint8_t record[LONGEST_RECORD];
    unsigned long count = 0;
    size_t length;

    while ((length = read_record(job, record)) > 0) {
        uint32_t result = ngoretaiwhe_apply(store, sizeof store, record, length);
        unsigned number = ngoretaiwhe_number(result);

        count++;
        if (number != NGORETAIWHE_DONE)
            report("record", count, result);
        if (number == NGORETAIWHE_LENGTH || number == NGORETAIWHE_UNKNOWN_KIND)
            return STOPPED;
    }
    return ferror(job) ? FAILED : WHOLE;
}

/* Two bytes of an answer are a level in tenths of a dB, the low byte first on every machine: they are not to be copied into a
   uint16_t as they are. */
static void print_level(int width, const uint8_t bytes[2])
{
    unsigned level = bytes[0] + 256u * bytes[1];

    if (level == NGORETAIWHE_QUIET)
        printf("  %*s", width, "quiet");
    else
        printf("  %*u.%u", width - 2, level / 10, level % 10);
}

/* An ask of an empty slot is refused 9, so that a viewer need not remember where receivers stand. */
static int print_receivers(void)
{
    int status = WHOLE;

    printf("slot  L_DEN  L_Night\n");
    for (unsigned slot = 0; slot < NGORETAIWHE_RECEIVERS; slot++) {
        uint8_t output[NGORETAIWHE_OUTPUT_LENGTH];
        uint32_t result = ngoretaiwhe_ask(store, sizeof store, slot, output, sizeof output);
        unsigned number = ngoretaiwhe_number(result);

        if (number == NGORETAIWHE_DONE) {
            printf("%4u", slot);
            print_level(5, output);
            print_level(7, output + 2);
            printf("\n");
        } else if (number != NGORETAIWHE_VACANT) {
            report("receiver", slot, result);
            status = FAILED;
        }
    }
    return status;
}

int main(int argc, char **argv)
{
    const char *name = argc > 1 ? argv[1] : "standard input";
    FILE *job = argc > 1 ? fopen(name, "rb") : stdin;
    int status;

    if (job == NULL) {
        perror(name);
        return FAILED;
    }
    /* Refused for another length only, and this is the length. */
    ngoretaiwhe_clear(store, sizeof store);
    status = apply_job(job);
    if (status == FAILED) {
        perror(name);
        return FAILED;
    }
    fclose(job);
    if (print_receivers() == FAILED)
        status = FAILED;
    if (fflush(stdout) != 0 || ferror(stdout)) {
        perror("standard output");
        return FAILED;
    }
    return status;
}
