/* New marks of the library for lines of a healthy set: the refusal and the marks after. So the model judges them. */
#include "guarded.h"
#include "image_lines.h"
#include "peer_text.h"

enum { LINE_BYTES = 16, MOST_NEW_MARKS_BYTES = 3 + MARKS_BYTES };

/* What the memory for the marks holds before. */
static const struct ghixramel_marks old_marks = {.set = 0x3C3C3C3C3C3C3C3C, .healthy = 0x7777777777777777};

static uint8_t *put_new_marks(uint8_t *to, uint64_t healthy)
{
    struct ghixramel_marks marks = old_marks;
    uint32_t refusal = guarded_marks_new(&marks, healthy);
    return put_byte(put_marks(put_byte(put_decimal(to, refusal), '\t'), &marks), '\n');
}

int main(void)
{
    static struct stream stream;
    const uint8_t *line;
    size_t length;
    while ((line = next_line(&stream, LINE_BYTES, &length))) {
        uint64_t healthy = 0;
        uint8_t *to = put_begin(&stream, MOST_NEW_MARKS_BYTES);
        to = length == LINE_BYTES && read_hex(line, LINE_BYTES, &healthy) ? put_new_marks(to, healthy) : put_refusal(to, UNREADABLE);
        put_end(&stream, to);
    }
    flush(&stream);
    return 0;
}
