/* Bursts with marks of the library for lines of an image's thirteen fields, the marks' two, the number of events asked, the bytes of room
 * for answers and the events' bytes: the refusal, the events done, all of the room, the image and the marks after. So the model judges
 * them. */
#include "burst_text.h"

enum { FRONT_BYTES = IMAGE_BYTES + MARKS_BYTES + ASKED_BYTES, MOST_LINE_BYTES = FRONT_BYTES + 2 * MOST_EVENT_BYTES };

struct asked {
    struct ghixramel_image image;
    struct ghixramel_marks marks;
    struct burst burst;
};

static int read_asked(const uint8_t *line, size_t length, struct asked *asked)
{
    return length >= FRONT_BYTES &&
           read_burst(marks_fields(image_fields(line, &asked->image), &asked->marks), length - IMAGE_BYTES - MARKS_BYTES, &asked->burst);
}

static uint8_t *put_asked(uint8_t *to, struct asked *asked)
{
    struct ghixramel device = guarded_device(&asked->image);
    struct burst *burst = &asked->burst;
    uint32_t refusal = guarded_marked_burst(&device, &asked->marks, burst->events, burst->event_bytes, burst->asked, burst->answers,
                                            burst->room, burst->done);
    to = put_byte(put_burst(to, refusal, burst, &device), '\t');
    return put_byte(put_marks(to, &asked->marks), '\n');
}

int main(void)
{
    static struct stream stream;
    static struct asked asked;
    const uint8_t *line;
    size_t length;
    while ((line = next_line(&stream, MOST_LINE_BYTES, &length))) {
        uint8_t *to = put_begin(&stream, MOST_BURST_BYTES + MARKS_BYTES);
        to = read_asked(line, length, &asked) ? put_asked(to, &asked) : put_refusal(to, UNREADABLE);
        put_end(&stream, to);
    }
    flush(&stream);
    return 0;
}
