/*
 * Sheets of 20,971,526 bytes, which no text makes and no line of `geusomin replay` holds; and how long a search takes. It all
 * runs on a stack of 160 KB.
 *
 * Usage: large FILE     declarations, a line each
 * Prints the times, and what is not as it should be; the last line is `N passed, M failed`.
 */
#define _DEFAULT_SOURCE

#include <inttypes.h>
#include <pthread.h>
#include <stdbool.h>
#include <stdio.h>
#include <stdlib.h>
#include <string.h>
#include <sys/mman.h>
#include <time.h>

#include "geusomin.h"

#define STACK ((size_t)160 << 10)
#define GUARD ((size_t)1 << 20)
#define HEAD 6
#define ROUNDS 5           /* of which the fastest counts */
#define LIMIT 0.05         /* seconds for a sheet of 21 MB: a twentieth */
#define DIGITS_LIMIT 0.2   /* for one that has nothing but array lengths of twenty digits, each of them written */
#define MOST GEUSOMIN_DECLARATIONS_MAX
#define LONGEST UINT64_MAX /* of an array */

static int passed, failed;

static _Noreturn void fail(const char *what)
{
    fprintf(stderr, "large: %s\n", what);
    exit(EXIT_FAILURE);
}

static void judge(bool right, const char *what, const char *which)
{
    if (right)
        passed++;
    else
        failed++, printf("large: %s: %s\n", what, which);
}

static void *allocate(size_t size)
{
    void *block = malloc(size);

    if (block == NULL)
        fail("no memory");
    return block;
}

/* Of this thread's processor time. */
static double seconds(void)
{
    struct timespec now;

    clock_gettime(CLOCK_THREAD_CPUTIME_ID, &now);
    return (double)now.tv_sec + (double)now.tv_nsec / 1e9;
}

/* Bytes that are put together. */

struct bytes {
    uint8_t *at;
    size_t length;
};

static void put(struct bytes *out, const void *bytes, size_t length)
{
    memcpy(out->at + out->length, bytes, length);
    out->length += length;
}

static void put_text(struct bytes *out, const char *text)
{
    put(out, text, strlen(text));
}

static void put_number(struct bytes *out, uint64_t number, size_t size)
{
    for (; size > 0; size--, number >>= 8)
        put(out, &(uint8_t){(uint8_t)number}, 1);
}

/* A record's head; `close_record` sets its length. */
static size_t open_record(struct bytes *out, unsigned kind)
{
    put_number(out, 0, 4);
    put_number(out, kind, 2);
    return out->length - HEAD;
}

static void close_record(struct bytes *out, size_t start)
{
    struct bytes head = {out->at + start, 0};

    put_number(&head, out->length - start, 4);
}

/* Declarations of exactly GEUSOMIN_RECORD_MAX bytes. Those of a family agree in their canonical texts but for the end. */

enum family { WIDTHS, LENGTHS, FAMILIES };

static const char *const names[FAMILIES] = {"fourteen_bytes", "four"}; /* so long that the records have that size */
#define WIDE_INPUTS 1858
#define SUFFIXES 2921

static void put_field(struct bytes *out, unsigned width, size_t suffixes, uint64_t last)
{
    size_t field = open_record(out, GEUSOMIN_FIELD), kind;

    put_number(out, 0, 2);
    close_record(out, open_record(out, 0x11));
    kind = open_record(out, 2);
    put_number(out, width, 2);
    close_record(out, kind);
    for (size_t i = 0; i < suffixes; i++) {
        size_t suffix = open_record(out, 0xA);

        put_number(out, i + 1 == suffixes ? last : LONGEST, 8);
        close_record(out, suffix);
    }
    close_record(out, field);
}

static void put_inputs(struct bytes *out, enum family family, unsigned which)
{
    if (family == LENGTHS) {
        put_field(out, 256, SUFFIXES + 1, LONGEST - which);
        return;
    }
    for (size_t i = 0; i < WIDE_INPUTS; i++)
        put_field(out, 256, 0, 0);
    put_field(out, 8 * (1 + which / 32), 0, 0);
    put_field(out, 8 * (1 + which % 32), 0, 0);
}

/* With so many bytes more in its name. */
static void put_function(struct bytes *out, enum family family, unsigned which, size_t more)
{
    size_t function = open_record(out, GEUSOMIN_FUNCTION), part;

    put_number(out, 2, 2);
    part = open_record(out, 0x11);
    put_text(out, names[family]);
    for (; more > 0; more--)
        put_text(out, "x");
    close_record(out, part);
    part = open_record(out, 0x12);
    put_inputs(out, family, which);
    close_record(out, part);
    close_record(out, open_record(out, 0x12));
    close_record(out, function);
}

static void put_line(struct bytes *out, enum family family, unsigned which)
{
    char last[64];

    put_text(out, names[family]);
    put_text(out, "(");
    if (family == LENGTHS) {
        put_text(out, "uint256");
        for (size_t i = 0; i < SUFFIXES; i++)
            put_text(out, "[18446744073709551615]");
        snprintf(last, sizeof last, "[%" PRIu64 "])", LONGEST - which);
    } else {
        for (size_t i = 0; i < WIDE_INPUTS; i++)
            put_text(out, "uint256,");
        snprintf(last, sizeof last, "uint%u,uint%u)", 8 * (1 + which / 32), 8 * (1 + which % 32));
    }
    put_text(out, last);
}

/* Searches. */

static struct bytes sheet, line;
static double limit;

static void sought(const char *what, const char *which, uint32_t refusal, size_t place, size_t compared)
{
    double best = 1e9;
    bool right = true;

    for (int i = 0; i < ROUNDS; i++) {
        size_t told[2] = {SIZE_MAX, SIZE_MAX};
        double before = seconds(), took;
        uint32_t got = geusomin_find(sheet.at, sheet.length, line.at, line.length, &told[0], &told[1]);

        took = seconds() - before;
        best = took < best ? took : best;
        right = right && got == refusal && told[0] == place && told[1] == compared;
    }
    judge(right, which, what);
    judge(best <= limit, "too slow", what);
    if (place == MOST || refusal == GEUSOMIN_NOT_WELL_FORMED)
        printf("%s, %s: %.1f ms\n", what, which, best * 1e3);
}

static void seek(enum family family, unsigned which, size_t less)
{
    line.length = 0;
    put_line(&line, family, which);
    line.length -= less;
}

/* A sheet of so many declarations of a family, the last one's number and size given. */
static void fill(enum family family, unsigned count, unsigned last, size_t more)
{
    size_t start;

    sheet.length = 0;
    start = open_record(&sheet, GEUSOMIN_SHEET);
    for (unsigned i = 0; i + 1 < count; i++)
        put_function(&sheet, family, i, 0);
    put_function(&sheet, family, last, more);
    close_record(&sheet, start);
}

static void try_family(enum family family)
{
    const char *what = family == WIDTHS ? "inputs of all widths" : "array lengths";

    limit = family == WIDTHS ? LIMIT : DIGITS_LIMIT;
    fill(family, MOST, MOST - 1, 0);
    if (sheet.length != GEUSOMIN_LENT_SHEET_MAX)
        fail("the sheet is not as long as it should be");
    seek(family, MOST - 1, 0);
    sought(what, "found last", 0, MOST, MOST);
    sheet.at[4] ^= 1;
    sought(what, "no sheet's kind", GEUSOMIN_NOT_WELL_FORMED, 0, 0);
    sheet.at[4] ^= 1;
    sheet.length--;
    sought(what, "a byte too few", GEUSOMIN_NOT_WELL_FORMED, 0, 0);
    sheet.length += 2;
    sought(what, "a byte too many", GEUSOMIN_NOT_WELL_FORMED, 0, 0);
    sheet.length--;
    sheet.at[sheet.length - 1] ^= 1;
    sought(what, "wrong in the last byte", GEUSOMIN_NOT_WELL_FORMED, 0, 0);
    sheet.at[sheet.length - 1] ^= 1;
    seek(family, 0, 0);
    sought(what, "found first", 0, 1, 1);
    seek(family, MOST, 0);
    sought(what, "not there", GEUSOMIN_NO_SUCH_FUNCTION, 0, MOST);
    seek(family, MOST - 1, 1);
    sought(what, "a text too short", GEUSOMIN_NO_SUCH_FUNCTION, 0, MOST);
    fill(family, MOST, 0, 0);
    sought(what, "the first again", GEUSOMIN_NOT_WELL_FORMED, 0, 0);
    fill(family, MOST + 1, MOST, 0);
    sought(what, "one declaration too many", GEUSOMIN_NOT_WELL_FORMED, 0, 0);
    fill(family, MOST, MOST - 1, 1);
    sought(what, "a declaration of 40,961 bytes", GEUSOMIN_NOT_WELL_FORMED, 0, 0);
}

/* Ordinary declarations: as many as a sheet may have, the last of them a function, by longer names from the second round on. */

static struct bytes texts[MOST], whole;

static bool is_apart(size_t count, struct bytes text)
{
    uint8_t record[2][4096], canonical[2][8192];
    size_t n[2], length[2];

    if (geusomin_parse_function(text.at, text.length, record[0], sizeof record[0], &n[0]) != 0
        || geusomin_canonical(record[0], n[0], canonical[0], sizeof canonical[0], &length[0]) != 0)
        return false;
    for (size_t i = 0; i < count; i++)
        if (geusomin_parse_function(texts[i].at, texts[i].length, record[1], sizeof record[1], &n[1]) == 0
            && geusomin_canonical(record[1], n[1], canonical[1], sizeof canonical[1], &length[1]) == 0 && length[0] == length[1]
            && memcmp(canonical[0], canonical[1], length[0]) == 0)
            return false;
    return true;
}

static size_t read_file(const char *name, uint8_t *bytes, size_t size)
{
    FILE *file = fopen(name, "rb");
    size_t length;

    if (file == NULL)
        fail(name);
    length = fread(bytes, 1, size, file);
    fclose(file);
    return length;
}

static void gather(const char *name)
{
    static uint8_t file[1 << 16];
    const uint8_t *end = file + read_file(name, file, sizeof file);
    size_t count = 0;

    whole = (struct bytes){allocate(1 << 20), 0};
    for (int round = 0; count < MOST; round++) {
        for (const uint8_t *at = file, *feed; count < MOST && at < end; at = feed + 1) {
            struct bytes text = {whole.at + whole.length, 0};
            const uint8_t *open;

            feed = memchr(at, '\n', (size_t)(end - at));
            feed = feed != NULL ? feed : end;
            open = memchr(at, '(', (size_t)(feed - at));
            if (open == NULL)
                continue;
            put(&text, at, (size_t)(open - at));
            for (int i = 0; i < round; i++)
                put_text(&text, "x");
            put(&text, open, (size_t)(feed - open));
            if (!is_apart(count, text))
                continue;
            texts[count++] = text;
            whole.length += text.length;
            put_text(&whole, "\n");
        }
    }
}

static double general(void)
{
    static uint8_t record[GEUSOMIN_RECORD_MAX];
    double before = seconds();
    size_t value;

    for (size_t i = 0; i < MOST; i++)
        if (geusomin_parse_declaration(texts[i].at, texts[i].length, record, sizeof record, &value) != 0)
            fail("an ordinary declaration is refused");
    return seconds() - before;
}

static double found(void)
{
    size_t place, compared;
    double before = seconds();
    uint32_t refusal = geusomin_find(sheet.at, sheet.length, line.at, line.length, &place, &compared);
    double took = seconds() - before;

    if (refusal != 0 || place != MOST || compared != MOST)
        fail("the last of ordinary functions is not found");
    return took;
}

static void try_ordinary(const char *name)
{
    static uint8_t record[GEUSOMIN_RECORD_MAX];
    double read = 1e9, search = 1e9;
    size_t value, told;

    gather(name);
    if (geusomin_parse_sheet(whole.at, whole.length, sheet.at, GEUSOMIN_SHEET_MAX, &sheet.length, &told) != 0)
        fail("the sheet is refused");
    if (geusomin_parse_declaration(texts[MOST - 1].at, texts[MOST - 1].length, record, sizeof record, &value) != 0
        || geusomin_canonical(record, value, line.at, GEUSOMIN_LINE_MAX, &line.length) != 0)
        fail("the last declaration is refused");
    for (int i = 0; i < 100 * ROUNDS; i++) {
        double once = general(), other = found();

        read = once < read ? once : read;
        search = other < search ? other : search;
    }
    printf("512 ordinary functions: found last in %.1f us, read by the general call in %.1f us\n", search * 1e6, read * 1e6);
    judge(search <= read, "too slow", "found last among ordinary functions");
}

static void *try_all(void *name)
{
    sheet = (struct bytes){allocate(GEUSOMIN_LENT_SHEET_MAX + GEUSOMIN_RECORD_MAX + HEAD), 0};
    line = (struct bytes){allocate(GEUSOMIN_LINE_MAX), 0};
    try_family(WIDTHS);
    try_family(LENGTHS);
    try_ordinary(name);
    return name;
}

int main(int argc, char **argv)
{
    uint8_t *all = mmap(NULL, GUARD + STACK, PROT_NONE, MAP_PRIVATE | MAP_ANONYMOUS, -1, 0);
    pthread_attr_t attributes;
    pthread_t thread;

    if (argc != 2)
        fail("usage: large FILE");
    if (all == MAP_FAILED || mprotect(all + GUARD, STACK, PROT_READ | PROT_WRITE) != 0)
        fail("no memory");
    if (pthread_attr_init(&attributes) != 0 || pthread_attr_setstack(&attributes, all + GUARD, STACK) != 0
        || pthread_create(&thread, &attributes, try_all, argv[1]) != 0 || pthread_join(thread, NULL) != 0)
        fail("no thread");
    printf("%d passed, %d failed\n", passed, failed);
    return failed > 0;
}
