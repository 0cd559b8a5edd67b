/*
 * Geusomin: a proved reader of Solidity declarations, for C and C++. The library is built for x86-64.
 *
 * A call reads the bytes that its first pointer and length lend, and writes into the `room` bytes that its second pointer
 * lends. It returns 0 on acceptance, and *value is then the length of what it wrote: that many first bytes of the buffer
 * are new, and the later ones are as they were. Otherwise it returns the number of a refusal, *value is its position, and
 * the whole buffer is as it was. geusomin_check_data reads what both its pointers lend and writes into neither, and so does
 * geusomin_find, whose comment tells what it sets.
 *
 * Positions are byte offsets from 0 in the text that was lent, or, of a sheet, in one of its lines. Nothing is terminated by
 * a zero, neither what is lent nor what is written: texts, records, lines, names and messages are bytes with a length, and a
 * zero is a byte like others.
 *
 * The caller sees to it that
 *   - each pointer may be read, or written, over its whole length,
 *   - what is lent to one call does not overlap: neither input and buffer, nor either of them and a number that the call
 *     sets, nor two such numbers,
 *   - no pointer is null, not even one whose length is 0.
 * Beyond that, any bytes and any lengths have an answer. No call allocates or keeps anything, so threads may call at the
 * same time, each with buffers of its own. As built on x86-64, geusomin_parse_sheet, geusomin_check_data and geusomin_find
 * take less than 160 KB of stack in all, and every other call less than 64 KB.
 */
#ifndef GEUSOMIN_H
#define GEUSOMIN_H

#include <stddef.h>
#include <stdint.h>

#ifdef __cplusplus
extern "C" {
#endif

#define GEUSOMIN_VERSION "0.9.0"

/* A text of more than GEUSOMIN_TEXT_MAX bytes is refused with 8. A record of more than GEUSOMIN_RECORD_MAX bytes is not
   well formed, and a reading call writes at most 10 bytes for each byte of its text, so a buffer of GEUSOMIN_RECORD_MAX
   bytes is room enough for the record of every text. */
#define GEUSOMIN_TEXT_MAX 4096
#define GEUSOMIN_RECORD_MAX 40960

/* What a call on records writes is less than twice as long as the record, so a buffer of GEUSOMIN_LINE_MAX bytes is room
   enough for it. */
#define GEUSOMIN_LINE_MAX 81920

/* Room enough for every message. */
#define GEUSOMIN_MESSAGE_MAX 256

/* A sheet text of more than GEUSOMIN_SHEET_TEXT_MAX bytes is refused with 21, and one of more than
   GEUSOMIN_DECLARATIONS_MAX declarations with 22. A sheet record has at most 10 bytes for each byte of its text and 6 more,
   so a buffer of GEUSOMIN_SHEET_MAX bytes is room enough for the record of every sheet. GEUSOMIN_TEXT_MAX and
   GEUSOMIN_RECORD_MAX bind each of its declarations, not the sheet. */
#define GEUSOMIN_SHEET_TEXT_MAX 65536
#define GEUSOMIN_SHEET_MAX 655366
#define GEUSOMIN_DECLARATIONS_MAX 512

/* A well-formed sheet record of any origin has at most so many bytes: GEUSOMIN_DECLARATIONS_MAX declarations of
   GEUSOMIN_RECORD_MAX bytes, and 6 more. */
#define GEUSOMIN_LENT_SHEET_MAX 20971526

/* What geusomin_heads writes is less than a quarter as long as the record, so a buffer of GEUSOMIN_HEADS_MAX bytes is room
   enough for it. Heads, and data, of more than GEUSOMIN_DATA_MAX bytes are refused with 24. */
#define GEUSOMIN_HEADS_MAX 10240
#define GEUSOMIN_DATA_MAX 65536

/* The refusals. "Wanted" is what the reader looked for where the position says. Each call below names those that it can
   give, and gives no other. */
enum geusomin_refusal {
    GEUSOMIN_EOS = 1,                  /* end of text where `(` or `)` was wanted */
    GEUSOMIN_EXPECT_OPEN = 2,          /* `(` wanted */
    GEUSOMIN_EXPECT_CLOSE = 3,         /* `)` wanted */
    GEUSOMIN_EXPECT_DECLARATION = 4,   /* none of the four openings, position 0 */
    GEUSOMIN_EXPECT_KEYWORD = 5,       /* keyword wanted, position 0 */
    GEUSOMIN_EXPECT_IDENTIFIER = 6,    /* identifier wanted */
    GEUSOMIN_EXPECT_END = 7,           /* end of declaration wanted */
    GEUSOMIN_TOO_LONG = 8,             /* over 4,096 bytes, position 0 */
    GEUSOMIN_NOT_UTF8 = 9,             /* not UTF-8, position the length of the longest valid prefix */
    GEUSOMIN_TOO_DEEP = 10,            /* the reader meets a 33rd open tuple, position its `(` */
    /* for the kind call only, at position 0: what remains once readable suffixes are off is no kind */
    GEUSOMIN_INVALID_BIT_WIDTH = 11,   /* it starts with `int` or `uint` */
    GEUSOMIN_INVALID_BYTE_LENGTH = 12, /* it starts with `bytes` */
    GEUSOMIN_UNKNOWN = 13,             /* it starts otherwise; or the kind text starts with `(` and is no kind */
    /* 14 was "kind text starts with `(`" until 0.2; nothing has it now, since such texts are read */
    /* of lent records, at position 0 */
    GEUSOMIN_NOT_WELL_FORMED = 15,     /* record not well formed, or of the wrong sort: a field where a declaration is due */
    GEUSOMIN_WRONG_SORT = 16,          /* canonical or name of a constructor, or signature, heads or data of anything but a
                                          function */
    /* of lent buffers */
    GEUSOMIN_NO_ROOM = 20,             /* too short for the whole output, position 0 */
    /* of sheets, at position 0 */
    GEUSOMIN_SHEET_TOO_LONG = 21,      /* text over 65,536 bytes, line 0 */
    GEUSOMIN_TOO_MANY_DECLARATIONS = 22, /* more than 512 declarations, at the line of the 513th */
    GEUSOMIN_REPEATED = 23,            /* keyword and canonical text of an earlier line, or a second constructor */
    /* of call data, at position 0 */
    GEUSOMIN_CALL_TOO_LONG = 24,       /* total head, or for geusomin_check_data the data, over 65,536 bytes */
    GEUSOMIN_NOT_AN_ENCODING = 25,     /* the data are no encoding of values of the inputs' kinds */
    /* of the search in a sheet */
    GEUSOMIN_NO_SUCH_FUNCTION = 26     /* none has that text */
};

/* What a refusal's number says, in the words of docs/01-scope.md and docs/02-change-requests.md; NULL for a number that is
   none. */
static inline const char *geusomin_refusal_text(uint32_t number)
{
    switch (number) {
    case GEUSOMIN_EOS:
        return "end of text where `(` or `)` was wanted";
    case GEUSOMIN_EXPECT_OPEN:
        return "`(` wanted";
    case GEUSOMIN_EXPECT_CLOSE:
        return "`)` wanted";
    case GEUSOMIN_EXPECT_DECLARATION:
        return "none of the four openings";
    case GEUSOMIN_EXPECT_KEYWORD:
        return "keyword wanted";
    case GEUSOMIN_EXPECT_IDENTIFIER:
        return "identifier wanted";
    case GEUSOMIN_EXPECT_END:
        return "end of declaration wanted";
    case GEUSOMIN_TOO_LONG:
        return "over 4,096 bytes";
    case GEUSOMIN_NOT_UTF8:
        return "not UTF-8";
    case GEUSOMIN_TOO_DEEP:
        return "the reader meets a 33rd open tuple (a declaration's own list isn't one)";
    case GEUSOMIN_INVALID_BIT_WIDTH:
        return "what remains once readable suffixes are off is no kind: it starts with `int` or `uint`";
    case GEUSOMIN_INVALID_BYTE_LENGTH:
        return "what remains once readable suffixes are off is no kind: it starts with `bytes`";
    case GEUSOMIN_UNKNOWN:
        return "what remains once readable suffixes are off is no kind: it starts otherwise";
    case GEUSOMIN_NOT_WELL_FORMED:
        return "record not well formed (or of the wrong sort: a field where a declaration is due)";
    case GEUSOMIN_WRONG_SORT:
        return "canonical or name of a constructor, or signature of anything but a function";
    case GEUSOMIN_NO_ROOM:
        return "too short for the whole output";
    case GEUSOMIN_SHEET_TOO_LONG:
        return "text over 65,536 bytes";
    case GEUSOMIN_TOO_MANY_DECLARATIONS:
        return "more than 512 declarations";
    case GEUSOMIN_REPEATED:
        return "same keyword and same canonical text (or a second constructor) as an earlier line";
    case GEUSOMIN_CALL_TOO_LONG:
        return "total head, or in the second call the data, over 65,536 bytes";
    case GEUSOMIN_NOT_AN_ENCODING:
        return "the data are no such encoding";
    case GEUSOMIN_NO_SUCH_FUNCTION:
        return "none has that text";
    default:
        return NULL;
    }
}

/*
 * Records. A record is its length, 4 bytes that count the whole record; its record kind, 2 bytes; its body. Numbers are
 * little-endian. The layout of every body, and when a record is well formed, stand in docs/01-scope.md, section "One
 * call, from text to line", paragraph "Record"; of docs/02-change-requests.md order 1 adds the marks 2 and 3, and order 5 the
 * sheet. Three numbers of 2 bytes each tell what else a text said:
 *
 *   mark        of a field: 1 where `indexed` stands behind its kind, in an event's own list; 2 where `calldata` and 3 where
 *               `memory` stands there, in a function's or a constructor's own lists, at an array, a tuple, `bytes` or
 *               `string`; else 0
 *   mutability  of a function: 0 pure, 1 view, 2 none stated, 3 payable; of a constructor: 2 or 3
 *   anonymous   of an event: 1 where `anonymous` stands behind its list; else 0
 *
 * A function's visibility word, `external` or `public`, is not kept: the record is that of the text without it.
 *
 * A field record may be taken out of its list and handed to the calls that take a field. One with mark 1, 2 or 3 is not
 * well formed by itself: a mark other than 0 stands in a declaration's own lists only. With its mark, bytes 6 and 7, set
 * to 0 it is.
 */

/* The record kinds of what the calls write and take: bytes 4 and 5 of a record. */
enum geusomin_record_kind {
    GEUSOMIN_FIELD = 0x10,
    GEUSOMIN_FUNCTION = 0x20,
    GEUSOMIN_CONSTRUCTOR = 0x21,
    GEUSOMIN_EVENT = 0x22,
    GEUSOMIN_ERROR = 0x23,
    GEUSOMIN_SHEET = 0x30
};

/*
 * The reading calls take a text and write its record.
 */

/* The general one: a text that starts with `function`, `constructor`, `event` or `error`. Blanks before it are refused.
   Refusals: 1 to 10, 20. */
uint32_t geusomin_parse_declaration(const uint8_t *text, size_t text_len, uint8_t *record, size_t room, size_t *value);

/* Those named for a keyword. They skip leading blanks. Refusals: 1 to 3, 5 to 10, 20. */
uint32_t geusomin_parse_function(const uint8_t *text, size_t text_len, uint8_t *record, size_t room, size_t *value);
uint32_t geusomin_parse_event(const uint8_t *text, size_t text_len, uint8_t *record, size_t room, size_t *value);
uint32_t geusomin_parse_error(const uint8_t *text, size_t text_len, uint8_t *record, size_t room, size_t *value);

/* The same for a constructor, which has no name. Refusals: 1 to 3, 5, 7 to 10, 20. */
uint32_t geusomin_parse_constructor(const uint8_t *text, size_t text_len, uint8_t *record, size_t room, size_t *value);

/* The kind call: a whole text as a kind, which is what Solidity calls a type. Writes a field record with mark 0 and an
   empty name. A tuple is `(`, kinds parted by `,`, `)`, then suffixes; it has no blanks and no names here, and no field in
   its record has one. A text that starts with `(` is refused with 10 where some beginning of it has 33 more `(` than `)`,
   at the first such `(`, and with 13 whatever else is wrong with it. The text that geusomin_kind_text writes of a field is
   read as the same kind if it has at most GEUSOMIN_TEXT_MAX bytes. Refusals: 8 to 13, 20. */
uint32_t geusomin_parse_kind(const uint8_t *text, size_t text_len, uint8_t *record, size_t room, size_t *value);

/*
 * The sheet call takes a text of many declarations, a line each, and writes their records in one.
 */

/* Lines are parted by line feeds, bytes 10, and by nothing else; n of them part n + 1 lines. A line of blanks only, the
   empty one among them, is passed over, however long. Every other one is read by the general call as it stands: a carriage
   return at its end is a blank, and blanks before a declaration are refused. A text without declarations, that of no bytes
   among them, is a sheet too. The sheet record has record kind GEUSOMIN_SHEET; its body is the declarations' records in
   order, each as geusomin_parse_declaration writes it.
   On acceptance *line is 0. Otherwise it is the refusal's line, counted from 1, and *value the position within that line;
   20 and 21 have line 0. 21 comes before all else; of several refused lines the first counts; where every line is read,
   22, 23 and 20 come in this order.
   Refusals: 1 to 10, 20 to 23. */
uint32_t geusomin_parse_sheet(const uint8_t *text, size_t text_len, uint8_t *record, size_t room, size_t *value,
                              size_t *line);

/*
 * The calls on sheets take sheet records of any origin, which are checked first: the bytes are one record of record kind
 * GEUSOMIN_SHEET, with at most GEUSOMIN_DECLARATIONS_MAX well-formed declarations of at most GEUSOMIN_RECORD_MAX bytes each,
 * of which none has the keyword and the canonical text of an earlier one, or is a second constructor.
 */

/* Finds the function of a sheet that has a canonical text. Any bytes of any length may be sought; they are compared as they
   are. It returns 0 where there is such a function: *place tells which one it is, counting the sheet's functions only, from
   1, and *compared is the same number, since so many were compared. No other function of the sheet has that text. Otherwise
   it returns a refusal, and *place is 0: with 26 *compared is the number of the sheet's functions, with 15 it is 0.
   Refusals: 15, 26. */
uint32_t geusomin_find(const uint8_t *sheet, size_t sheet_len, const uint8_t *text, size_t text_len, size_t *place,
                       size_t *compared);

/*
 * The calls on records take bytes of any origin, which are checked first, and write a text.
 */

/* Canonical text of a function, an event or an error: name, `(`, kinds parted by `,`, `)`. Refusals: 15, 16, 20. */
uint32_t geusomin_canonical(const uint8_t *record, size_t record_len, uint8_t *text, size_t room, size_t *value);

/* Of a function: canonical text, `:`, and the outputs in brackets. Refusals: 15, 16, 20. */
uint32_t geusomin_signature(const uint8_t *record, size_t record_len, uint8_t *text, size_t room, size_t *value);

/* The full line of a declaration, a constructor too: the keyword; a space and the name, of a constructor none; the list; a
   space and the mutability word unless none is stated; ` returns ` and the list if there are outputs; ` anonymous` where it
   is set. A field is its kind, spelled as in canonical text, then a space and the word of its mark if it has one, then a
   space and its name if it has one. A tuple's components are written so, and fields are parted by `,`. A line of at most
   GEUSOMIN_TEXT_MAX bytes is read by the general call, and by the one named for its keyword, as this very record; a longer
   one is written, and refused with 8 where it is read. Refusals: 15, 20. */
uint32_t geusomin_full_text(const uint8_t *record, size_t record_len, uint8_t *text, size_t room, size_t *value);

/* The kind of a field, as canonical text has it. Refusals: 15, 20. */
uint32_t geusomin_kind_text(const uint8_t *record, size_t record_len, uint8_t *text, size_t room, size_t *value);

/* The name of a function, an event, an error or a field; a field's may be empty. Refusals: 15, 16, 20. */
uint32_t geusomin_copy_name(const uint8_t *record, size_t record_len, uint8_t *text, size_t room, size_t *value);

/*
 * The calls on call data take a function's record, of any origin and checked first, and go by the kinds of its inputs. Call
 * data are the bytes of a call's arguments, without the four bytes of the selector in front. They are encoded as the
 * Solidity Contract ABI Specification says in its section Formal Specification of the Encoding. `bytes`, `string`, every
 * open array, fixed arrays of dynamic elements (even of none) and tuples with a dynamic part are dynamic, all else is static.
 */

/* For each input in order 5 bytes: 1 if it is dynamic, else 0; its head length in bytes, a number of 4 bytes: 32 if it is
   dynamic, else the whole length of its values. 24 comes before 20. Refusals: 15, 16, 20, 24. */
uint32_t geusomin_heads(const uint8_t *record, size_t record_len, uint8_t *heads, size_t room, size_t *value);

/* Whether all of the data are the encoding of some values: offsets as the Specification's encoder sets them, with no gap and
   nothing shared; its padding, the sign repeated for `int` and zero otherwise; any bytes in a `string`; no open array of over
   65,536 elements. Nothing is written: on acceptance *value is 0. Refusals: 15, 16, 24, 25. */
uint32_t geusomin_check_data(const uint8_t *record, size_t record_len, const uint8_t *data, size_t data_len, size_t *value);

/*
 * The message call writes the message of the error that the reading call of that name finds in a text, as
 * `expected identifier at position 8("function| ()")`. Where the reading call accepts the text, or its refusal has no
 * message (8 to 10), it writes nothing and *value is 0.
 */

/* Refusals: 20. */
uint32_t geusomin_message_declaration(const uint8_t *text, size_t text_len, uint8_t *out, size_t room, size_t *value);
uint32_t geusomin_message_function(const uint8_t *text, size_t text_len, uint8_t *out, size_t room, size_t *value);
uint32_t geusomin_message_constructor(const uint8_t *text, size_t text_len, uint8_t *out, size_t room, size_t *value);
uint32_t geusomin_message_event(const uint8_t *text, size_t text_len, uint8_t *out, size_t room, size_t *value);
uint32_t geusomin_message_error(const uint8_t *text, size_t text_len, uint8_t *out, size_t room, size_t *value);

#ifdef __cplusplus
}
#endif

#endif
