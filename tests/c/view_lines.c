/* Views of the library for lines of an image's thirteen fields and a register number: the byte that a fetch would show, INT, the pins
 * driven low and high, as the program trace answers; in the place of what was refused its refusal. So the model judges them. */
#include "guarded.h"
#include "image_lines.h"
#include "view_text.h"

enum { LINE_BYTES = IMAGE_BYTES + 8, MOST_VIEWS_BYTES = 32 };

struct asked {
    struct ghixramel_image image;
    uint32_t number;
};

/* The fields have fixed widths, so a line of the right length with a tab after each of thirteen fields has no room for more. */
static int read_asked(const uint8_t *line, size_t length, struct asked *asked)
{
    uint8_t text[LINE_BYTES + 1];
    uint64_t number = 0;
    if (length != LINE_BYTES)
        return 0;
    memcpy(text, line, LINE_BYTES);
    text[LINE_BYTES] = '\n';
    int readable = field(image_fields(text, &asked->image), 8, &number) != NULL;
    asked->number = (uint32_t)number;
    return readable;
}

static uint8_t *put_byte_shown(uint8_t *to, const struct ghixramel *device, uint32_t number)
{
    uint8_t shown[1] = {0};
    uint32_t refusal = guarded_show(device, number, shown);
    return refusal ? put_refused(to, refusal) : put_hex(to, shown[0], 2);
}

static uint8_t *put_views(uint8_t *to, const struct asked *asked)
{
    struct ghixramel device = guarded_device(&asked->image);
    to = put_byte(put_byte_shown(to, &device, asked->number), '\t');
    to = put_byte(put_int(to, &device), '\t');
    return put_byte(put_drives(to, &device), '\n');
}

int main(void)
{
    static struct stream stream;
    const uint8_t *line;
    size_t length;
    while ((line = next_line(&stream, LINE_BYTES, &length))) {
        struct asked asked = {0};
        uint8_t *to = put_begin(&stream, MOST_VIEWS_BYTES);
        to = read_asked(line, length, &asked) ? put_views(to, &asked) : put_refusal(to, UNREADABLE);
        put_end(&stream, to);
    }
    flush(&stream);
    return 0;
}
