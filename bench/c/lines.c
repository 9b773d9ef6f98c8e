// A line of a listing: its fields and its form.
#include "lines.h"

// Tells field number `count`, which lies between two places; false where no line has so many.
static inline bool add_field(struct line *line, const uint8_t *from, const uint8_t *to) {
    if (line->count > MOST_FIELDS)
        return false;
    line->fields[line->count++] = (struct told){from, to - from};
    return true;
}

void split_line(const uint8_t *from, const uint8_t *end, struct line *line) {
    line->count = 0;
    for (const uint8_t *at = from; at < end; at++) {
        if (*at != '\t' && *at != '\n')
            continue;
        if (!add_field(line, from, at))
            break;
        from = at + 1;
        if (*at == '\n') {
            line->next = from;
            return;
        }
    }
    line->count = 0;
}

static inline bool ends_in_blank(struct told field) {
    return field.width > 0 && field.bytes[field.width - 1] == ' ';
}

static inline bool is_wide(struct told field, size_t width) {
    return field.width == width && !ends_in_blank(field);
}

static inline bool is_text(struct told field) {
    return field.width <= TEXT && !ends_in_blank(field);
}

static inline bool has_letter(const struct line *line, char letter) {
    return line->fields[0].width == 1 && line->fields[0].bytes[0] == letter;
}

bool is_header_line(const struct line *line) {
    const struct told *a = line->fields;
    return line->count == 1 + FIELDS_OF_A && has_letter(line, 'A') && is_wide(a[1], 2) &&
           is_wide(a[2], 8) && is_wide(a[3], 8) && is_text(a[4]) && is_wide(a[5], 6) &&
           is_wide(a[6], 10) && is_wide(a[7], 10) && (a[8].width == 0 || is_wide(a[8], 8));
}

bool is_payment_line(const struct line *line) {
    static const size_t widths[] = {8, 8, 10, 13, 2, 3, 8, 10, 11};
    enum { NUMBERS = sizeof widths / sizeof widths[0] };
    if (line->count < 1 + FIELDS_OF_C || (line->count - 1 - FIELDS_OF_C) % 2 != 0)
        return false;
    if (!has_letter(line, 'C'))
        return false;
    const struct told *c = line->fields + 1;
    for (size_t i = 0; i < NUMBERS; i++)
        if (!is_wide(c[i], widths[i]))
            return false;
    for (size_t i = NUMBERS; i < FIELDS_OF_C; i++)
        if (!is_text(c[i]))
            return false;
    for (size_t i = FIELDS_OF_C; i < line->count - 1; i += 2)
        if (!is_wide(c[i], MARK) || !is_text(c[i + 1]))
            return false;
    return true;
}
