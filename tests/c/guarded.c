/*
 * The calls on memory that ends where the lent bytes end. Reads lines `CALL HEX ROOM`, or `CALL HEX HEX` for a call that is
 * lent data in place of room, as `geusomin replay` does and prints the same for each. Every line is run twice: input, data,
 * buffer, *value and *line first begin where their memory begins, then end where it ends, and before and behind it lies
 * memory without access. All of it runs on a stack of 64 KB. So a call that touches a byte beyond what it was lent, or takes
 * too much stack, ends the program by the signal SIGSEGV. Behind an answer stands ` damaged` where the input, the data, or a
 * byte that the answer does not count as written, has changed, and ` differs` where the second run is answered otherwise.
 *
 * `guarded STACK ROOM` runs it on a stack of so many bytes, with at most so much room.
 *
 * Calls that misbehave, by names that the library does not have, show that this is seen.
 */
#define _DEFAULT_SOURCE

#include <inttypes.h>
#include <pthread.h>
#include <stdbool.h>
#include <stdio.h>
#include <stdlib.h>
#include <string.h>
#include <sys/mman.h>

#include "geusomin.h"

#define INPUT_MAX 131072
#define ROOM_MAX 2097152
#define VALUE_MAX 65536
#define GUARD ((size_t)1 << 20)
#define FILL 0xA5

typedef uint32_t call(const uint8_t *in, size_t length, uint8_t *out, size_t room, size_t *value);
typedef uint32_t lined_call(const uint8_t *in, size_t length, uint8_t *out, size_t room, size_t *value, size_t *line);
typedef uint32_t data_call(const uint8_t *in, size_t length, const uint8_t *data, size_t data_length, size_t *value);

static size_t stack_size = 65536, most_room = 131072;

static _Noreturn void fail(const char *what)
{
    fprintf(stderr, "guarded: %s\n", what);
    exit(EXIT_FAILURE);
}

/* Calls to be caught, and one that may do what it does. */

static uint32_t touches(const uint8_t *in, size_t length, uint8_t *out, size_t room, size_t *value)
{
    static volatile uint8_t seen;

    for (size_t i = 0; i < length; i++)
        seen = in[i];
    (void)seen;
    memset(out, 0, room);
    *value = room;
    return 0;
}

static uint32_t reads_before(const uint8_t *in, size_t length, uint8_t *out, size_t room, size_t *value)
{
    (void)length, (void)out, (void)room;
    *value = ((const volatile uint8_t *)in)[-1];
    return GEUSOMIN_NOT_WELL_FORMED;
}

static uint32_t reads_behind(const uint8_t *in, size_t length, uint8_t *out, size_t room, size_t *value)
{
    (void)out, (void)room;
    *value = ((const volatile uint8_t *)in)[length];
    return GEUSOMIN_NOT_WELL_FORMED;
}

static uint32_t writes_before(const uint8_t *in, size_t length, uint8_t *out, size_t room, size_t *value)
{
    (void)in, (void)length, (void)room;
    ((volatile uint8_t *)out)[-1] = FILL;
    *value = 0;
    return 0;
}

static uint32_t writes_behind(const uint8_t *in, size_t length, uint8_t *out, size_t room, size_t *value)
{
    (void)in, (void)length;
    ((volatile uint8_t *)out)[room] = FILL;
    *value = 0;
    return 0;
}

static uint32_t writes_beside_value(const uint8_t *in, size_t length, uint8_t *out, size_t room, size_t *value)
{
    (void)in, (void)length, (void)out, (void)room;
    value[0] = 0;
    ((volatile size_t *)value)[1] = 0;
    return 0;
}

static uint32_t writes_and_refuses(const uint8_t *in, size_t length, uint8_t *out, size_t room, size_t *value)
{
    (void)in, (void)length;
    out[room - 1] = 0;
    *value = 0;
    return GEUSOMIN_NO_ROOM;
}

static uint32_t changes_input(const uint8_t *in, size_t length, uint8_t *out, size_t room, size_t *value)
{
    (void)out, (void)room;
    ((uint8_t *)in)[length - 1] ^= 1;
    *value = 0;
    return 0;
}

static uint32_t tells_places(const uint8_t *in, size_t length, uint8_t *out, size_t room, size_t *value)
{
    (void)length, (void)out, (void)room;
    *value = (size_t)in;
    return GEUSOMIN_NOT_UTF8;
}

static uint32_t takes_stack(const uint8_t *in, size_t length, uint8_t *out, size_t room, size_t *value)
{
    volatile uint8_t frame[stack_size];

    (void)in, (void)length, (void)out, (void)room;
    frame[0] = 0;
    *value = frame[0];
    return 0;
}

static uint32_t writes_beside_line(const uint8_t *in, size_t length, uint8_t *out, size_t room, size_t *value, size_t *line)
{
    (void)in, (void)length, (void)out, (void)room;
    *value = 0;
    ((volatile size_t *)line)[1] = 0;
    return GEUSOMIN_REPEATED;
}

static uint32_t forgets_line(const uint8_t *in, size_t length, uint8_t *out, size_t room, size_t *value, size_t *line)
{
    (void)in, (void)length, (void)out, (void)room, (void)line;
    *value = 0;
    return 0;
}

static uint32_t tells_line_of_places(const uint8_t *in, size_t length, uint8_t *out, size_t room, size_t *value, size_t *line)
{
    (void)length, (void)out, (void)room;
    *value = 0;
    *line = (size_t)in;
    return GEUSOMIN_REPEATED;
}

static uint32_t touches_data(const uint8_t *in, size_t length, const uint8_t *data, size_t data_length, size_t *value)
{
    static volatile uint8_t seen;

    for (size_t i = 0; i < length; i++)
        seen = in[i];
    for (size_t i = 0; i < data_length; i++)
        seen = data[i];
    (void)seen;
    *value = 0;
    return 0;
}

static uint32_t reads_before_data(const uint8_t *in, size_t length, const uint8_t *data, size_t data_length, size_t *value)
{
    (void)in, (void)length, (void)data_length;
    *value = ((const volatile uint8_t *)data)[-1];
    return GEUSOMIN_NOT_AN_ENCODING;
}

static uint32_t reads_behind_data(const uint8_t *in, size_t length, const uint8_t *data, size_t data_length, size_t *value)
{
    (void)in, (void)length;
    *value = ((const volatile uint8_t *)data)[data_length];
    return GEUSOMIN_NOT_AN_ENCODING;
}

static uint32_t changes_data(const uint8_t *in, size_t length, const uint8_t *data, size_t data_length, size_t *value)
{
    (void)in, (void)length;
    ((uint8_t *)data)[data_length - 1] ^= 1;
    *value = 0;
    return 0;
}

static uint32_t tells_length_of_data(const uint8_t *in, size_t length, const uint8_t *data, size_t data_length, size_t *value)
{
    (void)in, (void)length, (void)data;
    *value = data_length;
    return 0;
}

static const struct {
    const char *name;
    call *run;
} calls[] = {
    {"general", geusomin_parse_declaration},
    {"function", geusomin_parse_function},
    {"constructor", geusomin_parse_constructor},
    {"event", geusomin_parse_event},
    {"error", geusomin_parse_error},
    {"kind", geusomin_parse_kind},
    {"kind_text", geusomin_kind_text},
    {"canonical", geusomin_canonical},
    {"signature", geusomin_signature},
    {"full", geusomin_full_text},
    {"name", geusomin_copy_name},
    {"heads", geusomin_heads},
    {"message:general", geusomin_message_declaration},
    {"message:function", geusomin_message_function},
    {"message:constructor", geusomin_message_constructor},
    {"message:event", geusomin_message_event},
    {"message:error", geusomin_message_error},
    {"touches", touches},
    {"reads_before", reads_before},
    {"reads_behind", reads_behind},
    {"writes_before", writes_before},
    {"writes_behind", writes_behind},
    {"writes_beside_value", writes_beside_value},
    {"writes_and_refuses", writes_and_refuses},
    {"changes_input", changes_input},
    {"tells_places", tells_places},
    {"takes_stack", takes_stack},
};

static const struct {
    const char *name;
    lined_call *run;
} lined_calls[] = {
    {"sheet", geusomin_parse_sheet},
    {"writes_beside_line", writes_beside_line},
    {"forgets_line", forgets_line},
    {"tells_line_of_places", tells_line_of_places},
};

static const struct {
    const char *name;
    data_call *run;
} data_calls[] = {
    {"check_data", geusomin_check_data},
    {"touches_data", touches_data},
    {"reads_before_data", reads_before_data},
    {"reads_behind_data", reads_behind_data},
    {"changes_data", changes_data},
    {"tells_length_of_data", tells_length_of_data},
};

/* A call of one of the sorts. */
struct named {
    call *run;
    lined_call *run_lined;
    data_call *run_data;
};

/* Memory between guards. */

struct memory {
    uint8_t *at;
    size_t size;
};

static struct memory input, data_input, output, number, line_number;

static struct memory guarded(size_t size)
{
    uint8_t *all = mmap(NULL, GUARD + size + GUARD, PROT_NONE, MAP_PRIVATE | MAP_ANONYMOUS, -1, 0);

    if (all == MAP_FAILED || mprotect(all + GUARD, size, PROT_READ | PROT_WRITE) != 0)
        fail("no memory");
    return (struct memory){all + GUARD, size};
}

/* Bytes at the end of the memory, or at its beginning. */
static uint8_t *lent(struct memory memory, size_t size, bool at_end)
{
    return memory.at + (at_end ? memory.size - size : 0);
}

static bool is_filled(const uint8_t *bytes, size_t length)
{
    return length == 0 || (bytes[0] == FILL && memcmp(bytes, bytes + 1, length - 1) == 0);
}

/* One run. */

/* What a call is lent, in a copy that it does not see. */
struct lending {
    const uint8_t *given, *data;
    size_t length, data_length, room;
};

struct answer {
    uint32_t refusal;
    size_t value, line, written;
    bool lined, damaged;
    uint8_t bytes[ROOM_MAX];
};

/* The memory of the buffer is filled before and after. */
static void run(struct named tried, const struct lending *lending, bool at_end, struct answer *answer)
{
    size_t length = lending->length, data_length = lending->data_length, room = lending->room;
    uint8_t *in = lent(input, length, at_end), *data = lent(data_input, data_length, at_end), *out = lent(output, room, at_end), *behind;
    size_t *value = (size_t *)(void *)lent(number, sizeof *value, at_end);
    size_t *line = (size_t *)(void *)lent(line_number, sizeof *line, at_end);

    memcpy(in, lending->given, length);
    memcpy(data, lending->data, data_length);
    *value = *line = 1;
    answer->lined = tried.run_lined != NULL;
    if (answer->lined)
        answer->refusal = tried.run_lined(in, length, out, room, value, line);
    else if (tried.run_data != NULL)
        answer->refusal = tried.run_data(in, length, data, data_length, value);
    else
        answer->refusal = tried.run(in, length, out, room, value);
    answer->value = *value;
    answer->line = *line;
    answer->written = answer->refusal == 0 ? *value : 0;
    if (answer->written > room)
        fail("a length is over the room");
    if (answer->lined && answer->refusal == 0 && *line != 0)
        fail("an accepted sheet has a line");
    behind = out + answer->written;
    answer->damaged = memcmp(in, lending->given, length) != 0 || memcmp(data, lending->data, data_length) != 0
        || !is_filled(output.at, (size_t)(out - output.at)) || !is_filled(behind, (size_t)(output.at + output.size - behind));
    memcpy(answer->bytes, out, answer->written);
    memset(answer->damaged ? output.at : out, FILL, answer->damaged ? output.size : answer->written);
}

static bool is_same(const struct answer *a, const struct answer *b)
{
    return a->refusal == b->refusal && a->value == b->value && a->line == b->line && memcmp(a->bytes, b->bytes, a->written) == 0;
}

static void print_answer(const struct answer *answer)
{
    if (answer->refusal != 0 && answer->lined)
        printf("no %" PRIu32 " %zu %zu", answer->refusal, answer->line, answer->value);
    else if (answer->refusal != 0)
        printf("no %" PRIu32 " %zu", answer->refusal, answer->value);
    else
        fputs(answer->written == 0 ? "ok -" : "ok ", stdout);
    for (size_t i = 0; i < answer->written; i++) {
        putchar("0123456789abcdef"[answer->bytes[i] >> 4]);
        putchar("0123456789abcdef"[answer->bytes[i] & 15]);
    }
}

/* Lines. */

static struct named call_named(const char *name)
{
    for (size_t i = 0; i < sizeof calls / sizeof *calls; i++)
        if (strcmp(name, calls[i].name) == 0)
            return (struct named){calls[i].run, NULL, NULL};
    for (size_t i = 0; i < sizeof lined_calls / sizeof *lined_calls; i++)
        if (strcmp(name, lined_calls[i].name) == 0)
            return (struct named){NULL, lined_calls[i].run, NULL};
    for (size_t i = 0; i < sizeof data_calls / sizeof *data_calls; i++)
        if (strcmp(name, data_calls[i].name) == 0)
            return (struct named){NULL, NULL, data_calls[i].run};
    fail("no such call");
}

static size_t decode(const char *hex, uint8_t *bytes)
{
    size_t length = strcmp(hex, "-") == 0 ? 0 : strlen(hex) / 2;

    if (length > INPUT_MAX)
        fail("too many bytes");
    for (size_t i = 0; i < length; i++) {
        const char pair[] = {hex[2 * i], hex[2 * i + 1], 0};

        bytes[i] = (uint8_t)strtoul(pair, NULL, 16);
    }
    return length;
}

static size_t room_of(const char *field)
{
    size_t room = strcmp(field, "-") == 0 ? most_room : strtoul(field, NULL, 10);

    if (room > most_room)
        fail("too much room");
    return room;
}

static void run_line(char *line)
{
    static uint8_t given[INPUT_MAX], data[INPUT_MAX];
    static struct answer first, second;
    const char *name = strtok(line, " \n"), *hex = strtok(NULL, " \n"), *last = strtok(NULL, " \n");
    struct lending lending = {given, data, 0, 0, 0};
    struct named tried;

    if (last == NULL)
        fail("a line is no call");
    tried = call_named(name);
    lending.length = decode(hex, given);
    if (tried.run_data != NULL)
        lending.data_length = decode(last, data);
    else
        lending.room = room_of(last);
    run(tried, &lending, false, &first);
    run(tried, &lending, true, &second);
    print_answer(&first);
    puts(first.damaged || second.damaged ? " damaged" : is_same(&first, &second) ? "" : " differs");
}

static void *run_lines(void *unused)
{
    char *line = NULL;
    size_t size = 0;

    while (getline(&line, &size, stdin) >= 0)
        run_line(line);
    free(line);
    return unused;
}

int main(int argc, char **argv)
{
    struct memory stack;
    pthread_attr_t attributes;
    pthread_t thread;

    if (argc == 3) {
        stack_size = strtoul(argv[1], NULL, 10);
        most_room = strtoul(argv[2], NULL, 10);
    }
    if ((argc != 1 && argc != 3) || most_room > ROOM_MAX)
        fail("usage: guarded [STACK ROOM]");
    stack = guarded(stack_size);
    /* what was answered is out where a call ends the program */
    setvbuf(stdout, NULL, _IOLBF, 0);
    input = guarded(INPUT_MAX);
    data_input = guarded(INPUT_MAX);
    output = guarded(most_room);
    number = guarded(VALUE_MAX);
    line_number = guarded(VALUE_MAX);
    memset(output.at, FILL, output.size);
    if (pthread_attr_init(&attributes) != 0 || pthread_attr_setstack(&attributes, stack.at, stack.size) != 0
        || pthread_create(&thread, &attributes, run_lines, NULL) != 0 || pthread_join(thread, NULL) != 0)
        fail("no thread");
    return fflush(stdout) == 0 ? EXIT_SUCCESS : EXIT_FAILURE;
}
