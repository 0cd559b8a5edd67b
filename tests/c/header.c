/* The header by itself, in C99, C11 and C++: its version, the texts of the refusals, and a call. */
#include "geusomin.h"
#include "geusomin.h"

#include <stdio.h>
#include <stdlib.h>

static void print_refusal(uint32_t number)
{
    const char *text = geusomin_refusal_text(number);

    printf("%lu %s\n", (unsigned long)number, text != NULL ? text : "-");
}

int main(void)
{
    static const uint8_t text[] = "function f(uint a)";
    static uint8_t record[GEUSOMIN_RECORD_MAX], line[GEUSOMIN_LINE_MAX];
    size_t record_length, line_length;
    uint32_t number;

    puts(GEUSOMIN_VERSION);
    for (number = 0; number <= 40; number++)
        print_refusal(number);
    print_refusal(UINT32_MAX);
    if (geusomin_parse_declaration(text, sizeof text - 1, record, sizeof record, &record_length) != 0
        || geusomin_canonical(record, record_length, line, sizeof line, &line_length) != 0)
        return EXIT_FAILURE;
    printf("%.*s\n", (int)line_length, (const char *)line);
    return EXIT_SUCCESS;
}
