#include "segments.h"

#include <string.h>

size_t una_length(slice file)
{
    return file.length >= 9 && memcmp(file.first, "UNA", 3) == 0 ? 9 : 0;
}

marks marks_of(slice file)
{
    const uint8_t *c = una_length(file) > 0 ? file.first + 3 : (const uint8_t *)":+,? '";

    return (marks){c[0], c[1], c[3] != ' ', c[3], c[5]};
}

/* The position after the byte at position at, and after the one that it releases. */
static size_t after_byte(slice text, size_t at, marks m)
{
    int releases = m.has_release && text.first[at] == m.release && at + 1 < text.length;

    return at + (releases ? 2 : 1);
}

slice segment_at(slice text, size_t at, marks m)
{
    size_t end = at;

    while (end < text.length && text.first[end] != m.terminator)
        end = after_byte(text, end, m);
    return part_of(text, at, end < text.length ? end + 1 : end);
}

size_t after_breaks(slice text, size_t at)
{
    while (at < text.length && (text.first[at] == '\r' || text.first[at] == '\n'))
        at++;
    return at;
}

size_t first_segment(slice file)
{
    size_t una = una_length(file);

    return una > 0 ? after_breaks(file, una) : 0;
}

size_t next_segment(slice text, size_t at, marks m)
{
    return after_breaks(text, at + segment_at(text, at, m).length);
}

components components_of(slice segment, marks m)
{
    return (components){segment, m, 0, 0, 0, part_of(segment, 0, 0), m.component, 0};
}

int next_component(components *c)
{
    size_t end = c->next;

    if (c->is_over)
        return 0;
    if (c->ended_by == c->m.element) {
        c->element++;
        c->component = 0;
    }
    c->component++;
    while (end < c->segment.length && c->segment.first[end] != c->m.component && c->segment.first[end] != c->m.element
           && c->segment.first[end] != c->m.terminator)
        end = after_byte(c->segment, end, c->m);
    c->found = part_of(c->segment, c->next, end);
    c->is_over = end >= c->segment.length || c->segment.first[end] == c->m.terminator;
    c->ended_by = c->is_over ? c->m.terminator : c->segment.first[end];
    c->next = end + 1;
    return 1;
}

slice component(slice segment, uint32_t element, uint32_t number, marks m)
{
    components c = components_of(segment, m);

    while (next_component(&c) && c.element <= element)
        if (c.element == element && c.component == number)
            return c.found;
    return part_of(segment, 0, 0);
}

int next_byte(slice value, size_t *at, marks m)
{
    if (*at >= value.length)
        return -1;
    size_t next = after_byte(value, *at, m);
    *at = next;
    return value.first[next - 1];
}

int is_text(slice value, const char *text, marks m)
{
    size_t at = 0;

    for (; *text != '\0'; text++)
        if (next_byte(value, &at, m) != (uint8_t)*text)
            return 0;
    return at == value.length;
}

int is_digits(slice value, size_t count)
{
    for (size_t k = 0; k < value.length; k++)
        if (value.first[k] < '0' || value.first[k] > '9')
            return 0;
    return value.length == count;
}

slice place_in(slice segment, size_t place, int is_byte, marks m)
{
    size_t length = is_byte ? 1 : component(segment, 0, 1, m).length;

    if (place >= segment.length)
        return part_of(segment, segment.length, segment.length);
    if (length == 0 || length > segment.length - place)
        length = 1;
    return part_of(segment, place, place + length);
}

slice shown_of(slice segment, size_t place, size_t most)
{
    size_t start = place > most / 3 ? place - most / 3 : 0;

    if (segment.length <= most)
        return segment;
    if (start > segment.length - most)
        start = segment.length - most;
    return part_of(segment, start, start + most);
}
