/* Plans of the library for lines START<tab>GOAL of lowercase hex, answered as the program plan does; so the model judges them. */
#include "guarded.h"
#include "parts.h"
#include "peer_text.h"

enum { MOST_LINE_BYTES = 4 * MOST_LENT_BYTES + 1, MOST_PLAN_BYTES = 4 + 5 * MOST_LENT_BYTES / 2 + 1 };

struct field {
    uint8_t bytes[MOST_LENT_BYTES];
    size_t count;
};

/* The whole text as pairs of digits; 0 if it is something else. */
static int read_field(const uint8_t *text, size_t length, struct field *field)
{
    uint64_t value;
    if (length % 2 != 0 || length > 2 * MOST_LENT_BYTES)
        return 0;
    field->count = length / 2;
    for (size_t i = 0; i < field->count; i++) {
        if (!read_hex(text + 2 * i, 2, &value))
            return 0;
        field->bytes[i] = (uint8_t)value;
    }
    return 1;
}

static int read_fields(const uint8_t *line, size_t length, struct field *start, struct field *goal)
{
    size_t tab = 0;
    while (tab < length && line[tab] != '\t')
        tab++;
    return tab < length && read_field(line, tab, start) && read_field(line + tab + 1, length - tab - 1, goal);
}

static uint8_t *put_plan(uint8_t *to, const struct field *start, const struct field *goal)
{
    uint8_t pairs[MOST_LENT_BYTES] = {0};
    uint64_t writes[1] = {0};
    uint32_t refusal = guarded_plan(start->bytes, start->count, goal->bytes, goal->count, pairs,
                                    2 * part->most_writes, writes);
    if (refusal)
        return put_refusal(to, refusal);
    to = PUT_WORDS(to, "plan");
    for (uint64_t n = 0; n < writes[0] && n < part->most_writes; n++)
        to = put_hex(put_hex(put_byte(to, '\t'), pairs[2 * n], 2), pairs[2 * n + 1], 2);
    return put_byte(to, '\n');
}

int main(void)
{
    static struct stream stream;
    const uint8_t *line;
    size_t length;
    while ((line = next_line(&stream, MOST_LINE_BYTES, &length))) {
        struct field start, goal;
        uint8_t *to = put_begin(&stream, MOST_PLAN_BYTES);
        to = read_fields(line, length, &start, &goal) ? put_plan(to, &start, &goal) : put_refusal(to, UNREADABLE);
        put_end(&stream, to);
    }
    flush(&stream);
    return 0;
}
