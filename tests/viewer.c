/* Makes the viewer's calls that come as frames, on bytes just as long as told, and writes each result and the bytes as they are then.
   A frame that is cut short, or is none, ends it with status 1; a call that writes where it must not ends it with status 3. */

#include "ngoretaiwhe.h"

#include <stdio.h>
#include <stdlib.h>
#include <string.h>

/* A frame: a byte for the call; one that is not 0 if NULL is passed where nothing is lent; one for how many bytes past an aligned
   address lent bytes begin; the store; then the record to apply, or the slot to ask, in eight bytes, and the output as it is before.
   Store, record and output are a length in four bytes, and the bytes. Numbers are most significant byte first. */
enum { CLEAR, APPLY, ASK };
enum { MOST_SHIFT = 15, LONGEST = 1 << 20 };

/* Bytes on either side of what a call may write, and what they hold. What it may only read has nothing after it. */
enum { GUARD = 64, GUARD_BYTE = 0xa5 };

enum { NO_FRAME = 1, OVERWRITTEN = 3 };

/* How a frame's bytes are lent. */
struct lending {
    int null;
    size_t shift;
};

/* Bytes that are lent, the block they are in, and that block as it was before the call. */
struct lent {
    uint8_t *bytes, *block, *before;
    size_t from, length, size;
};

static void fail(int status, const char *why)
{
    fflush(stdout);
    fprintf(stderr, "viewer: %s\n", why);
    exit(status);
}

static void get(uint8_t *bytes, size_t length)
{
    if (fread(bytes, 1, length, stdin) != length)
        fail(NO_FRAME, "the frame is cut short");
}

static uint64_t get_number(size_t length)
{
    uint8_t bytes[8];
    uint64_t number = 0;
    get(bytes, length);
    for (size_t at = 0; at < length; at++)
        number = number << 8 | bytes[at];
    return number;
}

static void put(const uint8_t *bytes, size_t length)
{
    if (fwrite(bytes, 1, length, stdout) != length)
        fail(NO_FRAME, "the answer cannot be written");
}

static void put_result(uint32_t result)
{
    uint8_t bytes[4];
    for (size_t at = 0; at < 4; at++)
        bytes[at] = (uint8_t)(result >> (24 - 8 * at));
    put(bytes, 4);
}

static uint8_t *allocate(size_t size)
{
    uint8_t *block = malloc(size > 0 ? size : 1);
    if (!block)
        fail(NO_FRAME, "there is no memory");
    return block;
}

/* Takes bytes off the frame, with a guard on either side of them. */
static struct lent take_lent(struct lending lending, size_t guard)
{
    struct lent lent;
    lent.length = get_number(4);
    if (lent.length > LONGEST)
        fail(NO_FRAME, "the frame lends too much");
    lent.from = lending.shift + guard;
    lent.size = lent.from + lent.length + guard;
    lent.block = allocate(lent.size);
    memset(lent.block, GUARD_BYTE, lent.size);
    get(lent.block + lent.from, lent.length);
    lent.before = allocate(lent.size);
    memcpy(lent.before, lent.block, lent.size);
    lent.bytes = lending.null && lent.length == 0 ? NULL : lent.block + lent.from;
    return lent;
}

static void check(const struct lent *lent, size_t from, size_t to, const char *why)
{
    if (memcmp(lent->block + from, lent->before + from, to - from) != 0)
        fail(OVERWRITTEN, why);
}

static void check_written(const struct lent *lent)
{
    check(lent, 0, lent->from, "bytes before the lent ones were written");
    check(lent, lent->from + lent->length, lent->size, "bytes after the lent ones were written");
}

static void check_read(const struct lent *lent)
{
    check(lent, 0, lent->size, "bytes that are only lent to be read were written");
}

static void release(struct lent *lent)
{
    free(lent->block);
    free(lent->before);
}

/* Writes the bytes as they are after the call, and gives back their memory. */
static void put_lent(struct lent *lent)
{
    put(lent->block + lent->from, lent->length);
    release(lent);
}

static void clear(struct lending lending)
{
    struct lent store = take_lent(lending, GUARD);
    uint32_t result = ngoretaiwhe_clear(store.bytes, store.length);
    check_written(&store);
    put_result(result);
    put_lent(&store);
}

static void apply(struct lending lending)
{
    struct lent store = take_lent(lending, GUARD);
    struct lent record = take_lent(lending, 0);
    uint32_t result = ngoretaiwhe_apply(store.bytes, store.length, record.bytes, record.length);
    check_written(&store);
    check_read(&record);
    put_result(result);
    put_lent(&store);
    release(&record);
}

static void ask(struct lending lending)
{
    struct lent store = take_lent(lending, 0);
    uint64_t slot = get_number(8);
    struct lent output = take_lent(lending, GUARD);
    uint32_t result = ngoretaiwhe_ask(store.bytes, store.length, (size_t)slot, output.bytes, output.length);
    check_read(&store);
    check_written(&output);
    put_result(result);
    put_lent(&store);
    put_lent(&output);
}

static struct lending get_lending(void)
{
    struct lending lending;
    lending.null = get_number(1) != 0;
    lending.shift = get_number(1);
    if (lending.shift > MOST_SHIFT)
        fail(NO_FRAME, "the frame shifts too far");
    return lending;
}

int main(void)
{
    int call;
    while ((call = getchar()) != EOF) {
        struct lending lending = get_lending();
        if (call == CLEAR)
            clear(lending);
        else if (call == APPLY)
            apply(lending);
        else if (call == ASK)
            ask(lending);
        else
            fail(NO_FRAME, "there is no such call");
    }
    if (ferror(stdin) || fflush(stdout) != 0)
        fail(NO_FRAME, "the frames cannot be read, or the answers not written");
    return 0;
}
