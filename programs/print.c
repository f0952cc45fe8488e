#include "print.h"

#include <inttypes.h>
#include <stdio.h>
#include <string.h>

#include "refusals.h"

enum { LINE_WIDTH = 98 };

void print_count(uint32_t count, const char *what)
{
    printf("%" PRIu32 " %s%s", count, what, count == 1 ? "" : "s");
}

size_t print_word(size_t column, const char *word, size_t length, size_t indent)
{
    if (column + 1 + length > LINE_WIDTH) {
        printf("\n%*s", (int)indent, "");
        column = indent;
    } else {
        putchar(' ');
        column++;
    }
    printf("%.*s", (int)length, word);
    return column + length;
}

/* A line that begins with these words and goes on with that text. */
static void print_text(const char *begin, const char *text, size_t indent)
{
    size_t column = strlen(begin);

    printf("%s", begin);
    while (*text != '\0') {
        size_t length = strcspn(text, " ");
        column = print_word(column, text, length, indent);
        text += length + strspn(text + length, " ");
    }
    putchar('\n');
}

void print_refusal(const char *begin, uint32_t number, size_t indent)
{
    char words[96];

    snprintf(words, sizeof words, "%srefused, number %" PRIu32 ":", begin, number);
    print_text(words, says(number), indent);
}

void print_advice(uint32_t number, size_t indent)
{
    char words[32];

    snprintf(words, sizeof words, "%*sWhat to do:", (int)indent, "");
    print_text(words, advice_on(number), indent);
}

/* A byte outside plain text as \xNN; gives how many columns it takes. */
static int print_byte(uint8_t byte)
{
    if (byte < 0x20 || byte > 0x7E)
        return printf("\\x%02X", (unsigned)byte);
    putchar(byte);
    return 1;
}

int print_bytes(slice bytes)
{
    int columns = 0;

    for (size_t k = 0; k < bytes.length; k++)
        columns += print_byte(bytes.first[k]);
    return columns;
}

void print_value(slice value, marks m)
{
    size_t at = 0;

    for (int byte = next_byte(value, &at, m); byte >= 0; byte = next_byte(value, &at, m))
        print_byte((uint8_t)byte);
}
