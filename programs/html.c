#include "html.h"

#include <inttypes.h>
#include <stdio.h>

#include "refusals.h"

static void put_ascii(uint8_t byte)
{
    switch (byte) {
    case '&': fputs("&amp;", stdout); break;
    case '<': fputs("&lt;", stdout); break;
    case '>': fputs("&gt;", stdout); break;
    case '"': fputs("&quot;", stdout); break;
    case '\'': fputs("&#39;", stdout); break;
    default: putchar(byte);
    }
}

static void put_byte(uint8_t byte)
{
    if (byte >= 0x20 && byte <= 0x7E)
        put_ascii(byte);
    else if (byte >= 0xA0 && byte != 0xAD)
        printf("&#%u;", (unsigned)byte);
    else
        printf("<span class=\"byte\">\\x%02X</span>", (unsigned)byte);
}

void put_bytes(slice bytes)
{
    for (size_t k = 0; k < bytes.length; k++)
        put_byte(bytes.first[k]);
}

void put_value(slice value, marks m)
{
    size_t at = 0;

    for (int byte = next_byte(value, &at, m); byte >= 0; byte = next_byte(value, &at, m))
        put_byte((uint8_t)byte);
}

void put_words(const char *words)
{
    for (; *words != '\0'; words++)
        put_ascii((uint8_t)*words);
}

/* Whether a letter can be shown as it is: none that cannot be seen or that turns the line about, and no number that is no letter. */
static int is_shown(uint32_t letter)
{
    return letter >= 0xA0 && letter != 0xAD && (letter < 0x2000 || letter > 0x206F) && (letter < 0xD800 || letter > 0xF8FF)
        && (letter < 0xFDD0 || letter > 0xFDEF) && letter != 0xFEFF && (letter & 0xFFFE) != 0xFFFE && letter <= 0xEFFFF;
}

/* The letter of two to four bytes that begins here, and how many they are; 0 if there is none that can be shown. */
static size_t letter_at(const uint8_t *bytes, uint32_t *letter)
{
    size_t length = bytes[0] >= 0xF0 ? 4 : bytes[0] >= 0xE0 ? 3 : 2;
    static const uint32_t least[] = {0, 0, 0x80, 0x800, 0x10000};

    if (bytes[0] < 0xC0 || bytes[0] > 0xF7)
        return 0;
    *letter = bytes[0] & (0xFFu >> (length + 1));
    for (size_t k = 1; k < length; k++) {
        if ((bytes[k] & 0xC0) != 0x80)
            return 0;
        *letter = *letter << 6 | (bytes[k] & 0x3F);
    }
    return *letter >= least[length] && is_shown(*letter) ? length : 0;
}

void put_name(const char *name)
{
    const uint8_t *bytes = (const uint8_t *)name;

    while (*bytes != '\0') {
        uint32_t letter = 0;
        size_t length = letter_at(bytes, &letter);
        if (*bytes >= 0x20 && *bytes <= 0x7E)
            put_ascii(*bytes);
        else if (length > 0)
            printf("&#%lu;", (unsigned long)letter);
        else
            printf("\\x%02X", (unsigned)*bytes);
        bytes += length > 0 ? length : 1;
    }
}

void put_count(uint32_t count, const char *what)
{
    printf("%" PRIu32 " %s%s", count, what, count == 1 ? "" : "s");
}

void put_refusal(uint32_t number)
{
    printf("<p class=\"says\"><strong>Number %" PRIu32 ".</strong> ", number);
    put_words(says(number));
    printf("</p>\n");
}

void put_advice(uint32_t number)
{
    printf("<p class=\"do\"><strong>What to do:</strong> ");
    put_words(advice_on(number));
    printf("</p>\n");
}

void put_cut(int is_cut)
{
    fputs(is_cut ? "<span class=\"more\">...</span>" : "", stdout);
}

void put_shown(slice bytes, size_t place, size_t most)
{
    slice shown = shown_of(bytes, place, most);

    printf("<code>");
    put_cut(shown.first > bytes.first);
    put_bytes(shown);
    put_cut(shown.first + shown.length < bytes.first + bytes.length);
    printf("</code>");
}
