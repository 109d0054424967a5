/* The machine as a program in C uses it, by rl_vm.h alone: for each image file that it is given it prints the
 * checker's line and the runner's line. It ends with 1 where an answer leaves a number unwritten, work memory that is
 * not zero, or more of the result changed than the value's bytes; or where a slice of the header's length is refused
 * with 9, or one that is shorter by one element is not. */
#include "rl_vm.h"

#include <stdio.h>
#include <stdlib.h>
#include <string.h>

enum { BUDGET = 1000000, ROOM = 4096, UNWRITTEN = 0xEE, USED = 0xA5, CHECK_SLICES = 8, RUN_SLICES = 13 };

/* A work slice: its memory, the bytes of an element, how many elements it has, and how many of them are lent. */
struct slice {
    void *at;
    size_t size;
    size_t most;
    size_t count;
};

#define LENGTH(memory) (sizeof(memory) / sizeof((memory)[0]))
#define SLICE(memory) { (memory), sizeof((memory)[0]), LENGTH(memory), LENGTH(memory) }

static uint8_t bytes[RL_VM_BYTES];
static size_t ends[RL_VM_ENDS];
static uint8_t kinds[RL_VM_KINDS];
static uint64_t payloads[RL_VM_PAYLOADS];
static size_t table[RL_VM_TABLE];
static size_t heights[RL_VM_HEIGHTS];
static size_t depths[RL_VM_DEPTHS];
static size_t todo[RL_VM_TODO];
static uint64_t texts[RL_VM_TEXTS];
static uint64_t classes[RL_VM_CLASSES];
static uint64_t stack[RL_VM_STACK];
static uint64_t locals[RL_VM_LOCALS];
static size_t starts[RL_VM_STARTS];
static uint64_t globals[RL_VM_GLOBALS];
static uint64_t cells[RL_VM_CELLS];
static uint16_t memo[RL_VM_MEMO];

static struct slice for_check[CHECK_SLICES] = {
    SLICE(bytes), SLICE(ends), SLICE(kinds), SLICE(payloads),
    SLICE(table), SLICE(heights), SLICE(depths), SLICE(todo),
};

static struct slice for_run[RUN_SLICES] = {
    SLICE(bytes), SLICE(ends), SLICE(kinds), SLICE(payloads), SLICE(table), SLICE(texts), SLICE(classes),
    SLICE(stack), SLICE(locals), SLICE(starts), SLICE(globals), SLICE(cells), SLICE(memo),
};

static uint8_t image[RL_VM_IMAGE_MOST + 1];
static size_t image_len;
static uint8_t result[ROOM];

static void fail(const char *file, const char *why)
{
    fprintf(stderr, "sheets: %s: %s\n", file, why);
    exit(1);
}

static void read_image(const char *file)
{
    FILE *in = fopen(file, "rb");
    if (in == NULL)
        fail(file, "cannot be opened");
    image_len = fread(image, 1, sizeof image, in);
    if (ferror(in) || fclose(in) != 0)
        fail(file, "cannot be read");
}

/* No answer may depend on what stood in the memory. */
static void dirty(struct slice *slices, int n)
{
    for (int i = 0; i < n; i++)
        memset(slices[i].at, USED, slices[i].size * slices[i].most);
}

/* All memory that was lent is zero, and what was not lent is as it was. */
static void see_zero(const char *file, const struct slice *slices, int n)
{
    for (int i = 0; i < n; i++) {
        const uint8_t *at = slices[i].at;
        size_t lent = slices[i].size * slices[i].count;
        for (size_t k = 0; k < lent; k++)
            if (at[k] != 0)
                fail(file, "work memory is not zero");
        for (size_t k = lent; k < slices[i].size * slices[i].most; k++)
            if (at[k] != USED)
                fail(file, "memory that was not lent is changed");
    }
}

static size_t check(const char *file, size_t *line, size_t *chunk, size_t *offset)
{
    *line = *chunk = *offset = SIZE_MAX;
    dirty(for_check, CHECK_SLICES);
    size_t number = rl_vm_check(image, image_len, bytes, for_check[0].count, ends, for_check[1].count, kinds, for_check[2].count,
                                payloads, for_check[3].count, table, for_check[4].count, heights, for_check[5].count,
                                depths, for_check[6].count, todo, for_check[7].count, line, chunk, offset);
    if (*line == SIZE_MAX || *chunk == SIZE_MAX || *offset == SIZE_MAX)
        fail(file, "check leaves a number unwritten");
    see_zero(file, for_check, CHECK_SLICES);
    return number;
}

static size_t run(const char *file, size_t *count, size_t *length, size_t *line, size_t *chunk, size_t *offset)
{
    *count = *length = *line = *chunk = *offset = SIZE_MAX;
    dirty(for_run, RUN_SLICES);
    memset(result, UNWRITTEN, sizeof result);
    size_t number = rl_vm_run(image, image_len, BUDGET, result, sizeof result, bytes, for_run[0].count, ends, for_run[1].count,
                              kinds, for_run[2].count, payloads, for_run[3].count, table, for_run[4].count,
                              texts, for_run[5].count, classes, for_run[6].count, stack, for_run[7].count,
                              locals, for_run[8].count, starts, for_run[9].count, globals, for_run[10].count,
                              cells, for_run[11].count, memo, for_run[12].count, count, length, line, chunk, offset);
    if (*count == SIZE_MAX || *length == SIZE_MAX || *line == SIZE_MAX || *chunk == SIZE_MAX || *offset == SIZE_MAX)
        fail(file, "run leaves a number unwritten");
    if (*length > sizeof result)
        fail(file, "a value is longer than its slice");
    for (size_t k = *length; k < sizeof result; k++)
        if (result[k] != UNWRITTEN)
            fail(file, "the result is changed behind the value");
    see_zero(file, for_run, RUN_SLICES);
    return number;
}

static void say_check(const char *file)
{
    size_t line, chunk, offset;
    size_t number = check(file, &line, &chunk, &offset);
    if (number == 0)
        printf("pass\n");
    else if (number < 10)
        printf("refused %zu %zu\n", number, line);
    else
        printf("fault %zu %04zu %04zu\n", number, chunk, offset);
}

static void say_run(const char *file)
{
    size_t count, length, line, chunk, offset;
    size_t number = run(file, &count, &length, &line, &chunk, &offset);
    if (number == 0) {
        printf("value %zu ", count);
        for (size_t k = 0; k < length; k++)
            printf("%02X", result[k]);
        printf("\n");
    } else if (number < 10) {
        printf("refused %zu %zu\n", number, line);
    } else {
        printf("stop %zu %zu %04zu %04zu\n", number, count, chunk, offset);
    }
}

/* The header's lengths are the least: each slice that lacks one element is refused with 9. */
static void see_least(const char *file)
{
    size_t number, count, length, line, chunk, offset;
    for (int i = 0; i < CHECK_SLICES; i++) {
        for_check[i].count--;
        number = check(file, &line, &chunk, &offset);
        for_check[i].count++;
        if (number != 9)
            fail(file, "a short slice is not refused by check");
    }
    for (int i = 0; i < RUN_SLICES; i++) {
        for_run[i].count--;
        number = run(file, &count, &length, &line, &chunk, &offset);
        for_run[i].count++;
        if (number != 9)
            fail(file, "a short slice is not refused by run");
    }
}

int main(int argc, char **argv)
{
    for (int i = 1; i < argc; i++) {
        read_image(argv[i]);
        see_least(argv[i]);
        say_check(argv[i]);
        say_run(argv[i]);
    }
    return 0;
}
