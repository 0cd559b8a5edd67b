/*
 * The calls on sheets on memory that ends where the lent bytes end. Reads lines as `geusomin replay` does, of the calls below,
 * and prints the same for each. Every line is run twice: what is lent first begins where its memory begins, then ends where
 * it ends, and before and behind it lies memory without access. All of it runs on a stack of 160 KB. So a call that touches a
 * byte beyond what it was lent, or takes too much stack, ends the program by the signal SIGSEGV. Behind an answer stands
 * ` damaged` where an input has changed, and ` differs` where the second run is answered otherwise.
 *
 * Calls that misbehave, by names that the library does not have, show that this is seen.
 */
#define _DEFAULT_SOURCE

#include <inttypes.h>
#include <pthread.h>
#include <stdbool.h>
#include <stdio.h>
#include <stdlib.h>
#include <string.h>
#include <sys/mman.h>

#include "geusomin.h"

#define STACK ((size_t)160 << 10)
#define INPUT_MAX ((size_t)1 << 20)
#define NUMBER_MAX 65536
#define GUARD ((size_t)1 << 20)

typedef uint32_t find_call(const uint8_t *sheet, size_t sheet_len, const uint8_t *text, size_t text_len, size_t *place, size_t *compared);

static _Noreturn void fail(const char *what)
{
    fprintf(stderr, "guarded_sheets: %s\n", what);
    exit(EXIT_FAILURE);
}

/* Calls to be caught. */

static uint32_t reads_before_sheet(const uint8_t *sheet, size_t sheet_len, const uint8_t *text, size_t text_len, size_t *place, size_t *compared)
{
    (void)sheet_len, (void)text, (void)text_len;
    *place = *compared = ((const volatile uint8_t *)sheet)[-1];
    return 0;
}

static uint32_t reads_behind_text(const uint8_t *sheet, size_t sheet_len, const uint8_t *text, size_t text_len, size_t *place, size_t *compared)
{
    (void)sheet, (void)sheet_len;
    *place = *compared = ((const volatile uint8_t *)text)[text_len];
    return 0;
}

static uint32_t writes_beside_place(const uint8_t *sheet, size_t sheet_len, const uint8_t *text, size_t text_len, size_t *place, size_t *compared)
{
    (void)sheet, (void)sheet_len, (void)text, (void)text_len;
    *compared = 0;
    ((volatile size_t *)place)[1] = 0;
    return 0;
}

static uint32_t changes_sheet(const uint8_t *sheet, size_t sheet_len, const uint8_t *text, size_t text_len, size_t *place, size_t *compared)
{
    (void)text, (void)text_len;
    ((uint8_t *)sheet)[sheet_len - 1] ^= 1;
    *place = *compared = 1;
    return 0;
}

static uint32_t tells_places(const uint8_t *sheet, size_t sheet_len, const uint8_t *text, size_t text_len, size_t *place, size_t *compared)
{
    (void)sheet_len, (void)text, (void)text_len;
    *place = *compared = (size_t)sheet;
    return 0;
}

static uint32_t takes_stack(const uint8_t *sheet, size_t sheet_len, const uint8_t *text, size_t text_len, size_t *place, size_t *compared)
{
    volatile uint8_t frame[STACK];

    (void)sheet, (void)sheet_len, (void)text, (void)text_len;
    frame[0] = 0;
    *place = *compared = frame[0];
    return 0;
}

static const struct {
    const char *name;
    find_call *run;
} finds[] = {
    {"find", geusomin_find},
    {"reads_before_sheet", reads_before_sheet},
    {"reads_behind_text", reads_behind_text},
    {"writes_beside_place", writes_beside_place},
    {"changes_sheet", changes_sheet},
    {"tells_places", tells_places},
    {"takes_stack", takes_stack},
};

/* Memory between guards. */

struct memory {
    uint8_t *at;
    size_t size;
};

static struct memory inputs[2], numbers[2];

static struct memory guarded(size_t size)
{
    uint8_t *all = mmap(NULL, GUARD + size + GUARD, PROT_NONE, MAP_PRIVATE | MAP_ANONYMOUS, -1, 0);

    if (all == MAP_FAILED || mprotect(all + GUARD, size, PROT_READ | PROT_WRITE) != 0)
        fail("no memory");
    return (struct memory){all + GUARD, size};
}

/* Bytes at the end of the memory, or at its beginning. */
static uint8_t *lent(struct memory memory, size_t size, bool at_end)
{
    return memory.at + (at_end ? memory.size - size : 0);
}

struct bytes {
    const uint8_t *at;
    size_t length;
};

static uint8_t *lent_input(size_t which, struct bytes given, bool at_end)
{
    return memcpy(lent(inputs[which], given.length, at_end), given.at, given.length);
}

static size_t *lent_number(size_t which, bool at_end)
{
    size_t *number = (size_t *)(void *)lent(numbers[which], sizeof *number, at_end);

    *number = SIZE_MAX;
    return number;
}

/* One run. */

struct answer {
    uint32_t refusal;
    size_t told[2];
    bool damaged;
};

static void run_find(find_call *find, const struct bytes given[2], bool at_end, struct answer *answer)
{
    uint8_t *sheet = lent_input(0, given[0], at_end), *text = lent_input(1, given[1], at_end);
    size_t *place = lent_number(0, at_end), *compared = lent_number(1, at_end);

    answer->refusal = find(sheet, given[0].length, text, given[1].length, place, compared);
    answer->told[0] = *place;
    answer->told[1] = *compared;
    if (answer->refusal != 0 && *place != 0)
        fail("a refused search has a place");
    answer->damaged = memcmp(sheet, given[0].at, given[0].length) != 0 || memcmp(text, given[1].at, given[1].length) != 0;
}

static bool is_same(const struct answer *a, const struct answer *b)
{
    return a->refusal == b->refusal && memcmp(a->told, b->told, sizeof a->told) == 0;
}

/* Lines. */

static struct bytes decoded(size_t which, const char *hex)
{
    static uint8_t given[2][INPUT_MAX];
    size_t length;

    if (hex == NULL)
        fail("a line is no call");
    length = strcmp(hex, "-") == 0 ? 0 : strlen(hex) / 2;
    if (length > INPUT_MAX)
        fail("too many bytes");
    for (size_t i = 0; i < length; i++) {
        const char pair[] = {hex[2 * i], hex[2 * i + 1], 0};

        given[which][i] = (uint8_t)strtoul(pair, NULL, 16);
    }
    return (struct bytes){given[which], length};
}

static find_call *find_named(const char *name)
{
    for (size_t i = 0; name != NULL && i < sizeof finds / sizeof *finds; i++)
        if (strcmp(name, finds[i].name) == 0)
            return finds[i].run;
    fail("no such call");
}

static void run_line(char *line)
{
    find_call *find = find_named(strtok(line, " \n"));
    const struct bytes given[2] = {decoded(0, strtok(NULL, " \n")), decoded(1, strtok(NULL, " \n"))};
    struct answer first, second;

    run_find(find, given, false, &first);
    run_find(find, given, true, &second);
    if (first.refusal != 0)
        printf("no %" PRIu32 " %zu", first.refusal, first.told[1]);
    else
        printf("ok %zu %zu", first.told[0], first.told[1]);
    puts(first.damaged || second.damaged ? " damaged" : is_same(&first, &second) ? "" : " differs");
}

static void *run_lines(void *unused)
{
    char *line = NULL;
    size_t size = 0;

    while (getline(&line, &size, stdin) >= 0)
        run_line(line);
    free(line);
    return unused;
}

int main(void)
{
    struct memory stack = guarded(STACK);
    pthread_attr_t attributes;
    pthread_t thread;

    /* what was answered is out where a call ends the program */
    setvbuf(stdout, NULL, _IOLBF, 0);
    for (size_t i = 0; i < 2; i++) {
        inputs[i] = guarded(INPUT_MAX);
        numbers[i] = guarded(NUMBER_MAX);
    }
    if (pthread_attr_init(&attributes) != 0 || pthread_attr_setstack(&attributes, stack.at, stack.size) != 0
        || pthread_create(&thread, &attributes, run_lines, NULL) != 0 || pthread_join(thread, NULL) != 0)
        fail("no thread");
    return fflush(stdout) == 0 ? EXIT_SUCCESS : EXIT_FAILURE;
}
