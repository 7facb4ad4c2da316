/* Sign-offs of the library for lines of an image's thirteen fields, the marks' two and a pin: the refusal and the marks after. So the
 * model judges them. */
#include "guarded.h"
#include "image_lines.h"
#include "peer_text.h"

enum { LINE_BYTES = IMAGE_BYTES + MARKS_BYTES + 8, MOST_SIGN_OFF_BYTES = 3 + MARKS_BYTES };

struct asked {
    struct ghixramel_image image;
    struct ghixramel_marks marks;
    uint32_t pin;
};

/* The fields have fixed widths, so a line of the right length with a tab after each of fifteen fields has no room for more. */
static int read_asked(const uint8_t *line, size_t length, struct asked *asked)
{
    uint8_t text[LINE_BYTES + 1];
    uint64_t pin = 0;
    if (length != LINE_BYTES)
        return 0;
    memcpy(text, line, LINE_BYTES);
    text[LINE_BYTES] = '\n';
    int readable = field(marks_fields(image_fields(text, &asked->image), &asked->marks), 8, &pin) != NULL;
    asked->pin = (uint32_t)pin;
    return readable;
}

static uint8_t *put_sign_off(uint8_t *to, struct asked *asked)
{
    struct ghixramel device = guarded_device(&asked->image);
    uint32_t refusal = guarded_sign_off(&device, &asked->marks, asked->pin);
    return put_byte(put_marks(put_byte(put_decimal(to, refusal), '\t'), &asked->marks), '\n');
}

int main(void)
{
    static struct stream stream;
    const uint8_t *line;
    size_t length;
    while ((line = next_line(&stream, LINE_BYTES, &length))) {
        struct asked asked = {0};
        uint8_t *to = put_begin(&stream, MOST_SIGN_OFF_BYTES);
        to = read_asked(line, length, &asked) ? put_sign_off(to, &asked) : put_refusal(to, UNREADABLE);
        put_end(&stream, to);
    }
    flush(&stream);
    return 0;
}
