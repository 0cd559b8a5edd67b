/*
 * The calls of include/geusomin.h on the command line; `geusomin --help` tells how. A line is what stands before its line
 * feed; the last one of a file may lack it.
 */
#define _POSIX_C_SOURCE 200809L

#include <errno.h>
#include <fcntl.h>
#include <inttypes.h>
#include <stdbool.h>
#include <stdio.h>
#include <stdlib.h>
#include <string.h>
#include <time.h>
#include <unistd.h>

#include "geusomin.h"

enum status {
    ANSWERED = 0,
    FAILED = 1,
    MISUSED = 2,
    REFUSED = 3
};

typedef uint32_t call(const uint8_t *in, size_t length, uint8_t *out, size_t room, size_t *value);

/* The calls by the names that `replay` takes. */
static const struct {
    const char *name;
    call *run;
} calls[] = {
    {"general", geusomin_parse_declaration},
    {"function", geusomin_parse_function},
    {"constructor", geusomin_parse_constructor},
    {"event", geusomin_parse_event},
    {"error", geusomin_parse_error},
    {"kind", geusomin_parse_kind},
    {"kind_text", geusomin_kind_text},
    {"canonical", geusomin_canonical},
    {"signature", geusomin_signature},
    {"full", geusomin_full_text},
    {"name", geusomin_copy_name},
    {"heads", geusomin_heads},
    {"message:general", geusomin_message_declaration},
    {"message:function", geusomin_message_function},
    {"message:constructor", geusomin_message_constructor},
    {"message:event", geusomin_message_event},
    {"message:error", geusomin_message_error},
};

#define CALLS (sizeof calls / sizeof *calls)

/* And those of another form: geusomin_parse_sheet tells a line, geusomin_check_data and geusomin_find are lent bytes twice. */
static const char sheet_call[] = "sheet", data_call[] = "check_data", find_call[] = "find";

struct bytes {
    const uint8_t *at;
    size_t length;
};

/* Ends the program, with a message. */
static _Noreturn void stop(enum status status, const char *where, const char *why)
{
    fprintf(stderr, "geusomin: %s: %s\n", where, why);
    exit(status);
}

static double seconds(void)
{
    struct timespec now;

    clock_gettime(CLOCK_MONOTONIC, &now);
    return (double)now.tv_sec + (double)now.tv_nsec / 1e9;
}

/* Output. Standard output goes through a buffer of its own, so that a failed write is seen where it happens, with the
   system's reason. */
static struct {
    size_t used;
    uint8_t bytes[1 << 16];
} output;

static void flush(void)
{
    size_t sent = 0;

    while (sent < output.used) {
        ssize_t wrote = write(STDOUT_FILENO, output.bytes + sent, output.used - sent);

        if (wrote >= 0)
            sent += (size_t)wrote;
        else if (errno != EINTR)
            stop(FAILED, "standard output", strerror(errno));
    }
    output.used = 0;
}

static void print(const uint8_t *bytes, size_t length)
{
    while (length > sizeof output.bytes - output.used) {
        size_t fits = sizeof output.bytes - output.used;

        memcpy(output.bytes + output.used, bytes, fits);
        output.used += fits;
        bytes += fits;
        length -= fits;
        flush();
    }
    memcpy(output.bytes + output.used, bytes, length);
    output.used += length;
}

static void print_text(const char *text)
{
    print((const uint8_t *)text, strlen(text));
}

static void print_number(uint64_t number)
{
    uint8_t digits[20];
    size_t from = sizeof digits;

    do {
        digits[--from] = (uint8_t)('0' + number % 10);
        number /= 10;
    } while (number > 0);
    print(digits + from, sizeof digits - from);
}

/* Some systems tell only here that a write failed. */
static void close_output(void)
{
    flush();
    if (close(STDOUT_FILENO) != 0)
        stop(FAILED, "standard output", strerror(errno));
}

/* Lines answered, in all and by the refusal's number, where 0 is acceptance. */
static struct {
    uint64_t lines, by_number[GEUSOMIN_NO_ROOM + 1];
    bool watched; /* somebody sees standard error */
    double started, told;
} tally;

static void tell_progress(void)
{
    double now;

    if (!tally.watched)
        return;
    now = seconds();
    if (now - tally.told < 1)
        return;
    tally.told = now;
    fprintf(stderr, "geusomin: lines so far: %" PRIu64 "\n", tally.lines);
}

static void tell_rate(double rate)
{
    if (rate < 1e6)
        fprintf(stderr, ", %.0f lines a second\n", rate);
    else
        fprintf(stderr, ", %.1f million lines a second\n", rate / 1e6);
}

static void tell_summary(void)
{
    double took = seconds() - tally.started;
    const char *before = " (";

    fprintf(stderr, "geusomin: %" PRIu64 " %s, %" PRIu64 " accepted, %" PRIu64 " refused", tally.lines, tally.lines == 1 ? "line" : "lines",
            tally.by_number[0], tally.lines - tally.by_number[0]);
    for (int number = 1; number <= GEUSOMIN_NO_ROOM; number++) {
        if (tally.by_number[number] > 0) {
            fprintf(stderr, "%s%d: %" PRIu64, before, number, tally.by_number[number]);
            before = ", ";
        }
    }
    if (tally.by_number[0] < tally.lines)
        fputc(')', stderr);
    tell_rate(took > 0 ? (double)tally.lines / took : 0);
}

/* Input: the files that are named, one after the other, through a window. Its bytes from `from` to `end` are read and not
   yet handed out. A line is handed out where it stands and stays there until the next is asked for. Of a line longer than
   the window the front is handed out, and the rest is skipped. */
static uint8_t window[1 << 20];

static struct {
    char **files;     /* still to be read, up to a null pointer */
    const char *name; /* of what is read now */
    int file;
    bool reading, opened; /* whether a file is being read, and whether it was opened here */
    uint64_t line;        /* which line of its file was handed out, counted from 1 */
    size_t from, end;
    bool cut; /* what is left of a cut line comes first */
    size_t size;
    uint8_t *bytes;
} input = {.size = sizeof window, .bytes = window};

/* What was printed goes out first. */
static _Noreturn void stop_reading(int error)
{
    flush();
    stop(FAILED, input.name, strerror(error));
}

/* False where every file has been read. */
static bool open_next(void)
{
    const char *name = *input.files;

    if (name == NULL)
        return false;
    input.files++;
    input.opened = strcmp(name, "-") != 0;
    input.name = input.opened ? name : "standard input";
    input.file = input.opened ? open(name, O_RDONLY) : STDIN_FILENO;
    if (input.file < 0)
        stop_reading(errno);
    input.reading = true;
    input.line = 0;
    return true;
}

static void close_input(void)
{
    if (input.opened)
        close(input.file);
    input.reading = false;
}

/* Reads on behind the bytes that are held; false at the end of the file. What was printed goes out before. */
static bool refill(void)
{
    ssize_t got;

    if (!input.reading)
        return false;
    flush();
    tell_progress();
    input.end -= input.from;
    memmove(input.bytes, input.bytes + input.from, input.end);
    input.from = 0;
    do
        got = read(input.file, input.bytes + input.end, input.size - input.end);
    while (got < 0 && errno == EINTR);
    if (got < 0)
        stop_reading(errno);
    if (got == 0)
        close_input();
    input.end += (size_t)got;
    return got > 0;
}

static void skip_cut_line(void)
{
    const uint8_t *feed;

    do {
        input.from = input.end;
        if (!refill())
            return;
        feed = memchr(input.bytes, '\n', input.end);
    } while (feed == NULL);
    input.from = (size_t)(feed - input.bytes) + 1;
}

/* False where the file has no more line. */
static bool next_of_file(struct bytes *line)
{
    const uint8_t *feed;
    size_t searched = 0, held;

    if (input.cut)
        skip_cut_line();
    for (;;) {
        held = input.end - input.from;
        feed = memchr(input.bytes + input.from + searched, '\n', held - searched);
        input.cut = feed == NULL && held == input.size;
        searched = held;
        if (feed != NULL || input.cut || !refill())
            break;
    }
    line->at = input.bytes + input.from;
    line->length = feed != NULL ? (size_t)(feed - line->at) : held;
    input.from += line->length + (feed != NULL);
    input.line++;
    return feed != NULL || held > 0;
}

/* False where no file has one more. */
static bool next_line(struct bytes *line)
{
    while (!next_of_file(line))
        if (!open_next())
            return false;
    return true;
}

/* What `deposit` prints, and the message. */

static int record_kind_of(const uint8_t *record)
{
    return record[4] | record[5] << 8;
}

static const char *keyword_of(int record_kind)
{
    switch (record_kind) {
    case GEUSOMIN_FUNCTION:
        return "function";
    case GEUSOMIN_CONSTRUCTOR:
        return "constructor";
    case GEUSOMIN_EVENT:
        return "event";
    default:
        return "error";
    }
}

/* One byte over the limit is enough to see that a text is over it. */
static struct bytes judged(struct bytes line)
{
    if (line.length > GEUSOMIN_TEXT_MAX)
        line.length = GEUSOMIN_TEXT_MAX + 1;
    return line;
}

/* The canonical text, `-` for a constructor; or the full line, which a constructor has too. */
static void print_line(struct bytes record, bool full)
{
    static uint8_t text[GEUSOMIN_LINE_MAX];
    call *write_line = full ? geusomin_full_text : geusomin_canonical;
    size_t length;

    if (!full && record_kind_of(record.at) == GEUSOMIN_CONSTRUCTOR)
        print_text("-");
    else if (write_line(record.at, record.length, text, sizeof text, &length) == 0)
        print(text, length);
    else
        stop(FAILED, "the library", "a record that was read is refused");
}

static void print_message(struct bytes text)
{
    uint8_t message[GEUSOMIN_MESSAGE_MAX];
    size_t length;

    if (geusomin_message_declaration(text.at, text.length, message, sizeof message, &length) != 0)
        stop(FAILED, "the library", "a message is too long");
    if (length > 0) {
        print_text("\t");
        print(message, length);
    }
}

static void print_refusal(uint32_t number, size_t position)
{
    print_text("no ");
    print_number(number);
    print_text(" ");
    print_number(position);
}

static void print_deposit(struct bytes text, bool full)
{
    static uint8_t record[GEUSOMIN_RECORD_MAX];
    size_t value;
    uint32_t refusal = geusomin_parse_declaration(text.at, text.length, record, sizeof record, &value);

    if (refusal == 0) {
        print_text("ok ");
        print_text(keyword_of(record_kind_of(record)));
        print_text(" ");
        print_number(value);
        print_text(" ");
        print_line((struct bytes){record, value}, full);
    } else {
        print_refusal(refusal, value);
        print_message(text);
    }
    print_text("\n");
    tally.lines++;
    tally.by_number[refusal]++;
}

struct options {
    bool check, full, quiet;
};

static enum status print_deposits(char **files, struct options options)
{
    struct bytes line;

    tally.watched = !options.quiet && isatty(STDERR_FILENO);
    tally.started = tally.told = seconds();
    input.files = files;
    while (next_line(&line))
        print_deposit(judged(line), options.full);
    close_output();
    if (!options.quiet)
        tell_summary();
    return options.check && tally.by_number[0] < tally.lines ? REFUSED : ANSWERED;
}

/* Sheets. */

#define HEAD 6

static void print_lined_refusal(uint32_t number, size_t line, size_t position)
{
    print_text("no ");
    print_number(number);
    print_text(" ");
    print_number(line);
    print_text(" ");
    print_number(position);
}

/* A file whole; of one over the limit as much as shows that it is over it. */
static struct bytes sheet_of(char **file)
{
    input.files = file;
    open_next();
    while (input.end <= GEUSOMIN_SHEET_TEXT_MAX && refill())
        continue;
    return (struct bytes){input.bytes, input.end <= GEUSOMIN_SHEET_TEXT_MAX ? input.end : GEUSOMIN_SHEET_TEXT_MAX + 1};
}

/* The line of that number, counted from 1, in a text that has so many. */
static struct bytes line_of(struct bytes text, size_t number)
{
    const uint8_t *end = text.at + text.length, *feed = memchr(text.at, '\n', text.length);

    for (; number > 1; number--) {
        text.at = feed + 1;
        feed = memchr(text.at, '\n', (size_t)(end - text.at));
    }
    return (struct bytes){text.at, (size_t)((feed != NULL ? feed : end) - text.at)};
}

static size_t length_of(const uint8_t *record)
{
    return (size_t)record[0] | (size_t)record[1] << 8 | (size_t)record[2] << 16 | (size_t)record[3] << 24;
}

static size_t count_of(struct bytes sheet)
{
    size_t count = 0;

    for (size_t at = HEAD; at < sheet.length; at += length_of(sheet.at + at))
        count++;
    return count;
}

static enum status print_sheet(char **file, struct options options)
{
    static uint8_t record[GEUSOMIN_SHEET_MAX];
    struct bytes text = sheet_of(file);
    size_t value, line;
    uint32_t refusal = geusomin_parse_sheet(text.at, text.length, record, sizeof record, &value, &line);

    if (refusal == 0) {
        print_text("ok ");
        print_number(count_of((struct bytes){record, value}));
        print_text(" ");
        print_number(value);
    } else {
        print_lined_refusal(refusal, line, value);
        if (line > 0)
            print_message(line_of(text, line));
    }
    print_text("\n");
    close_output();
    return options.check && refusal != 0 ? REFUSED : ANSWERED;
}

/* Replay. The lent buffer is filled beforehand and reaches past the room that is lent. */

#define REPLAY_LINE_MAX ((size_t)1 << 23) /* longer than a line with two of the longest sheet records in hex */
#define ROOM_MAX 131072
#define SHEET_ROOM_MAX 2097152
#define PAST_ROOM 64
#define FILL 0xA5

static char *standard_input[] = {"-", NULL};

/* What was answered goes out first. */
static _Noreturn void stop_replay(const char *why)
{
    char where[64];

    flush();
    snprintf(where, sizeof where, "replay: line %" PRIu64, input.line);
    stop(MISUSED, where, why);
}

/* Takes the part of a line before its next space. */
static struct bytes take_field(struct bytes *line)
{
    const uint8_t *space = memchr(line->at, ' ', line->length);
    struct bytes field = {line->at, space != NULL ? (size_t)(space - line->at) : line->length};

    line->at += field.length + (space != NULL);
    line->length -= field.length + (space != NULL);
    return field;
}

static bool is(struct bytes field, const char *word)
{
    return field.length == strlen(word) && memcmp(field.at, word, field.length) == 0;
}

static call *call_named(struct bytes name)
{
    for (size_t i = 0; i < CALLS; i++)
        if (is(name, calls[i].name))
            return calls[i].run;
    stop_replay("no call has that name");
}

static size_t room_of(struct bytes field, size_t most)
{
    size_t room = 0;

    if (is(field, "-"))
        return most;
    if (field.length == 0)
        stop_replay("no room is given");
    for (size_t i = 0; i < field.length; i++) {
        if (field.at[i] < '0' || '9' < field.at[i])
            stop_replay("the room is no number");
        room = 10 * room + (field.at[i] - (size_t)'0');
        if (room > most)
            stop_replay("the room is too large");
    }
    return room;
}

static uint8_t digit_of(uint8_t c)
{
    if ('0' <= c && c <= '9')
        return (uint8_t)(c - '0');
    if ('a' <= c && c <= 'f')
        return (uint8_t)(c - 'a' + 10);
    stop_replay("the bytes are not in lower-case hex");
}

/* A block of its own size: a tool that watches memory sees where this program steps past its end. */
static uint8_t *allocate(size_t size)
{
    uint8_t *block = malloc(size > 0 ? size : 1);

    if (block == NULL)
        stop(FAILED, "memory", strerror(errno));
    return block;
}

/* What is none ends the program before there is a block. */
static void see_hex(struct bytes hex)
{
    if (hex.length == 0)
        stop_replay("no bytes are given");
    if (is(hex, "-"))
        return;
    if (hex.length % 2 != 0)
        stop_replay("the bytes are not in pairs of digits");
    for (size_t i = 0; i < hex.length; i++)
        digit_of(hex.at[i]);
}

static struct bytes decoded(struct bytes hex)
{
    size_t length = is(hex, "-") ? 0 : hex.length / 2;
    uint8_t *block = allocate(length);

    for (size_t i = 0; i < length; i++)
        block[i] = (uint8_t)(digit_of(hex.at[2 * i]) << 4 | digit_of(hex.at[2 * i + 1]));
    return (struct bytes){block, length};
}

static void print_hex(struct bytes bytes)
{
    static const char digits[] = "0123456789abcdef";

    if (bytes.length == 0)
        print_text("-");
    for (size_t i = 0; i < bytes.length; i++)
        print((uint8_t[]){(uint8_t)digits[bytes.at[i] >> 4], (uint8_t)digits[bytes.at[i] & 15]}, 2);
}

static bool is_kept(const uint8_t *bytes, size_t length)
{
    for (size_t i = 0; i < length; i++)
        if (bytes[i] != FILL)
            return false;
    return true;
}

static void replay_data(struct bytes record_hex, struct bytes data_hex)
{
    struct bytes record, data;
    size_t value = 1;
    uint32_t refusal;

    see_hex(record_hex);
    see_hex(data_hex);
    record = decoded(record_hex);
    data = decoded(data_hex);
    refusal = geusomin_check_data(record.at, record.length, data.at, data.length, &value);
    if (refusal == 0 && value != 0)
        stop(FAILED, "the library", "data that are accepted have a length");
    if (refusal == 0)
        print_text("ok -");
    else
        print_refusal(refusal, value);
    print_text("\n");
    free((void *)record.at);
    free((void *)data.at);
}

/* Lent numbers hold something else beforehand. */
static void replay_find(struct bytes sheet_hex, struct bytes text_hex)
{
    struct bytes sheet, text;
    size_t place = SIZE_MAX, compared = SIZE_MAX;
    uint32_t refusal;

    see_hex(sheet_hex);
    see_hex(text_hex);
    sheet = decoded(sheet_hex);
    text = decoded(text_hex);
    refusal = geusomin_find(sheet.at, sheet.length, text.at, text.length, &place, &compared);
    if (refusal != 0 && place != 0)
        stop(FAILED, "the library", "a refused search has a place");
    print_text(refusal == 0 ? "ok " : "no ");
    print_number(refusal == 0 ? place : refusal);
    print_text(" ");
    print_number(compared);
    print_text("\n");
    free((void *)sheet.at);
    free((void *)text.at);
}

static void replay_call(struct bytes name, struct bytes hex, struct bytes room_field)
{
    struct bytes in;
    bool is_sheet = is(name, sheet_call);
    call *run = is_sheet ? NULL : call_named(name);
    size_t room = room_of(room_field, is_sheet ? SHEET_ROOM_MAX : ROOM_MAX), size = room + PAST_ROOM, value = 0, told = 1, written;
    uint8_t *out;
    uint32_t refusal;

    see_hex(hex);
    in = decoded(hex);
    out = allocate(size);
    memset(out, FILL, size);
    if (is_sheet)
        refusal = geusomin_parse_sheet(in.at, in.length, out, room, &value, &told);
    else
        refusal = run(in.at, in.length, out, room, &value);
    written = refusal == 0 ? value : 0;
    if (written > room)
        stop(FAILED, "the library", "a length is over the room");
    if (is_sheet && refusal == 0 && told != 0)
        stop(FAILED, "the library", "an accepted sheet has a line");
    if (refusal == 0) {
        print_text("ok ");
        print_hex((struct bytes){out, written});
    } else if (is_sheet) {
        print_lined_refusal(refusal, told, value);
    } else {
        print_refusal(refusal, value);
    }
    print_text(is_kept(out + written, size - written) ? "\n" : " damaged\n");
    free(out);
    free((void *)in.at);
}

static void replay_line(struct bytes line)
{
    struct bytes name = take_field(&line), hex = take_field(&line);

    if (is(name, data_call))
        replay_data(hex, line);
    else if (is(name, find_call))
        replay_find(hex, line);
    else
        replay_call(name, hex, line);
}

static enum status replay(void)
{
    struct bytes line;

    input.files = standard_input;
    input.size = REPLAY_LINE_MAX;
    input.bytes = allocate(input.size);
    while (next_line(&line)) {
        if (input.cut)
            stop_replay("the line is too long");
        replay_line(line);
    }
    close_output();
    return ANSWERED;
}

/* Bench. */

/* What is timed: as many lines as fit, and the records that are read of them. */
#define KEPT_MAX 65536
#define STORE_MAX ((size_t)1 << 26)

struct corpus {
    size_t count;
    struct bytes kept[KEPT_MAX];
};

static struct corpus texts, lined, functions;
static uint8_t *store;
static size_t stored;

/* False where the store is full. */
static bool keep(struct corpus *corpus, struct bytes bytes)
{
    if (corpus->count == KEPT_MAX || bytes.length > STORE_MAX - stored)
        return false;
    memcpy(store + stored, bytes.at, bytes.length);
    corpus->kept[corpus->count++] = (struct bytes){store + stored, bytes.length};
    stored += bytes.length;
    return true;
}

/* Runs a call over all that is kept, again and again for a second, and prints the fastest turn. */
static void time_call(const char *name, call *run, const struct corpus *corpus)
{
    static uint8_t out[ROOM_MAX];
    double started = seconds(), best = 1e9, total = 0;
    char line[128];
    size_t value;

    if (corpus->count == 0)
        return;
    for (size_t i = 0; i < corpus->count; i++)
        total += (double)corpus->kept[i].length;
    do {
        double before = seconds(), took;

        for (size_t i = 0; i < corpus->count; i++)
            run(corpus->kept[i].at, corpus->kept[i].length, out, sizeof out, &value);
        took = seconds() - before;
        if (took < best)
            best = took;
    } while (seconds() - started < 1);
    snprintf(line, sizeof line, "%s: %zu inputs of %.0f bytes on average, %.0f ns each\n", name, corpus->count,
             total / (double)corpus->count, best * 1e9 / (double)corpus->count);
    print_text(line);
    flush();
}

/* Keeps a text, and its record for the calls that take it; false where the store is full. */
static bool keep_line(struct bytes text)
{
    static uint8_t record[GEUSOMIN_RECORD_MAX];
    size_t value;
    bool kept = keep(&texts, text);

    if (geusomin_parse_declaration(text.at, text.length, record, sizeof record, &value) != 0)
        return kept;
    if (record_kind_of(record) != GEUSOMIN_CONSTRUCTOR)
        kept = kept && keep(&lined, (struct bytes){record, value});
    if (record_kind_of(record) == GEUSOMIN_FUNCTION)
        kept = kept && keep(&functions, (struct bytes){record, value});
    return kept;
}

static enum status bench(char **file)
{
    struct bytes line;

    input.files = file;
    store = allocate(STORE_MAX);
    while (next_line(&line)) {
        if (!keep_line(judged(line))) {
            fprintf(stderr, "geusomin: bench: only the first %zu lines are timed\n", texts.count);
            break;
        }
    }
    time_call("general", geusomin_parse_declaration, &texts);
    time_call("canonical", geusomin_canonical, &lined);
    time_call("signature", geusomin_signature, &functions);
    time_call("full", geusomin_full_text, &lined);
    close_output();
    return ANSWERED;
}

/* The command line. */

static const char usage[] =
    "usage: geusomin [--check] [--full] [--quiet] [FILE..]\n"
    "       geusomin sheet [--check] [FILE]\n"
    "       geusomin replay\n"
    "       geusomin bench FILE\n"
    "       geusomin --help | --version\n";

static const char about[] =
    "\n"
    "Reads declarations, a line each, from the files one after the other; `-`, or no file at all, is standard input. A last\n"
    "line without a line feed ends with its file. For each line it prints one:\n"
    "  ok KEYWORD LENGTH LINE   what was read, its record's length, its canonical line (`-` for a constructor)\n"
    "  no NUMBER POSITION       why the line is refused, and where; behind a tab the message, where there is one\n"
    "On standard error it tells how many lines there were, how many were accepted, how many were refused with each number,\n"
    "and how many it answered a second; a terminal is told once a second how many there were so far.\n"
    "\n"
    "  --check      exit with status 3 where a line, or the sheet, was refused\n"
    "  --full       print the full line, names and mark words included, in place of the canonical one; a constructor's too\n"
    "  --quiet      tell nothing on standard error but failures\n"
    "  --           what follows are files\n"
    "  --help       print this\n"
    "  --version    print the version\n"
    "  sheet        read a file, or standard input, as one sheet of declarations, a line each, and print `ok COUNT LENGTH`:\n"
    "               how many it has, its record's length; or `no NUMBER LINE POSITION`, and behind a tab the line's message\n"
    "  replay       read lines `CALL HEX ROOM` from standard input and print `ok HEX` or `no NUMBER POSITION` for each, of\n"
    "               a sheet `no NUMBER LINE POSITION`. HEX is in lower case, `-` for no bytes; ROOM is how many bytes the\n"
    "               call is lent, `-` for the most, 131072, for a sheet 2097152. check_data has HEX for ROOM, the data.\n"
    "               A line `find SHEET TEXT`, both as HEX, is answered by `ok PLACE COMPARED` or `no NUMBER COMPARED`\n"
    "  bench FILE   time the general, canonical, signature and full calls over a file of declarations\n"
    "\n"
    "A first argument `sheet`, `replay` or `bench` is the command; ./sheet names the file.\n"
    "\n"
    "Status:\n"
    "  0 all was read and answered\n"
    "  1 the input or the output failed\n"
    "  2 an argument, or a line of replay, is malformed\n"
    "  3 with --check: all was read and answered, and a line, or the sheet, was refused\n"
    "It stops at the first failure; what it answered before is printed.\n"
    "\n"
    "Calls of replay:\n";

static enum status help(void)
{
    print_text(usage);
    print_text(about);
    for (size_t i = 0; i < CALLS; i++) {
        print_text("  ");
        print_text(calls[i].name);
        print_text("\n");
    }
    print_text("  ");
    print_text(sheet_call);
    print_text("\n  ");
    print_text(data_call);
    print_text("\n  ");
    print_text(find_call);
    print_text("\n\nRefusals:\n");
    for (uint32_t number = 1; number <= GEUSOMIN_NO_SUCH_FUNCTION; number++) {
        if (geusomin_refusal_text(number) != NULL) {
            print_text(number < 10 ? "   " : "  ");
            print_number(number);
            print_text(" ");
            print_text(geusomin_refusal_text(number));
            print_text("\n");
        }
    }
    close_output();
    return ANSWERED;
}

static enum status version(void)
{
    print_text("geusomin " GEUSOMIN_VERSION "\n");
    close_output();
    return ANSWERED;
}

static enum status misused(const char *argument, const char *why)
{
    fprintf(stderr, "geusomin: %s: %s\n%s", argument, why, usage);
    return MISUSED;
}

/* Options may stand before, between and behind the files, up to `--`. The files are moved to the front of the arguments. */
static enum status read_files(char **arguments, bool is_sheet)
{
    struct options options = {false, false, false};
    bool in_front = true; /* of `--` */
    char **files = arguments, **last = arguments;

    for (char *argument; (argument = *arguments) != NULL; arguments++) {
        if (!in_front || argument[0] != '-' || strcmp(argument, "-") == 0)
            *last++ = argument;
        else if (strcmp(argument, "--") == 0)
            in_front = false;
        else if (strcmp(argument, "--check") == 0)
            options.check = true;
        else if (strcmp(argument, "--full") == 0)
            options.full = true;
        else if (strcmp(argument, "--quiet") == 0)
            options.quiet = true;
        else if (strcmp(argument, "--help") == 0)
            return help();
        else if (strcmp(argument, "--version") == 0)
            return version();
        else
            return misused(argument, "no such option");
    }
    *last = NULL;
    if (is_sheet && options.full)
        return misused("--full", "not for a sheet");
    if (is_sheet && last > files + 1)
        return misused("sheet", "takes one file");
    files = last > files ? files : standard_input;
    return is_sheet ? print_sheet(files, options) : print_deposits(files, options);
}

int main(int argc, char **argv)
{
    const char *command = argc > 1 ? argv[1] : "";

    setvbuf(stderr, NULL, _IOLBF, BUFSIZ); /* what is told goes out a line at a time */
    if (strcmp(command, "replay") == 0)
        return argc == 2 ? replay() : misused("replay", "takes no argument");
    if (strcmp(command, "bench") == 0)
        return argc == 3 ? bench(argv + 2) : misused("bench", "takes one file");
    if (strcmp(command, "sheet") == 0)
        return read_files(argv + 2, true);
    return read_files(argv + (argc > 0), false);
}
