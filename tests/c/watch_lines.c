/* A watch log on standard input, answered by the library: a log of the program trace whose devices have marks, made with their healthy
 * levels in a fourth field, with lines that sign a pin off; after the drives stand the marks. So the model judges them. */
#include "guarded.h"
#include "parts.h"
#include "view_text.h"

enum { MOST_LINE_BYTES = 32, MOST_WATCH_BYTES = 48, MOST_FIELDS = 4 };
/* A log says no number of a device. */
enum { LOGGED_NUMBER = 0 };
/* Beside the kinds of event. */
enum { DEVICE_LINE = 6, SIGN_LINE = 7 };

static const char header[] = "answer\tint\tlow\thigh\tmarks\n";

/* A line between its tabs; one field more than any line has tells that there are too many. */
struct fields {
    uint32_t count;
    struct {
        const uint8_t *at;
        size_t bytes;
    } field[MOST_FIELDS + 1];
};

struct line {
    uint32_t kind;
    uint64_t argument; /* of an event, or the pin */
    const struct part *part;
    uint64_t choice, levels, healthy;
};

struct shelf {
    int made;
    struct ghixramel device;
    struct ghixramel_marks marks;
};

static struct fields split(const uint8_t *text, size_t length)
{
    struct fields fields = {.count = 1, .field = {{text, 0}}};
    for (size_t i = 0; i < length; i++) {
        if (text[i] != '\t') {
            fields.field[fields.count - 1].bytes++;
        } else if (fields.count <= MOST_FIELDS) {
            fields.field[fields.count].at = text + i + 1;
            fields.count++;
        }
    }
    return fields;
}

/* The word, and so many fields in all. */
static int is_line(const struct fields *fields, const char *word, size_t bytes, uint32_t count)
{
    return fields->count == count && fields->field[0].bytes == bytes && memcmp(fields->field[0].at, word, bytes) == 0;
}

#define IS_LINE(fields, word, count) is_line(fields, word, sizeof(word) - 1, count)

static int read_number(const struct fields *fields, uint32_t place, size_t digits, uint64_t *value)
{
    return fields->field[place].bytes == digits && read_hex(fields->field[place].at, digits, value);
}

static int read_device(const struct fields *fields, const struct part *of, struct line *line)
{
    line->kind = DEVICE_LINE;
    line->part = of;
    return read_number(fields, 1, 1, &line->choice) && read_number(fields, 2, of->digits, &line->levels) &&
           read_number(fields, 3, of->digits, &line->healthy);
}

static int read_word(const struct fields *fields, struct line *line)
{
    if (IS_LINE(fields, "start", 1))
        line->kind = GHIXRAMEL_START;
    else if (IS_LINE(fields, "stop", 1))
        line->kind = GHIXRAMEL_STOP;
    else if (IS_LINE(fields, "reset", 1))
        line->kind = GHIXRAMEL_RESET;
    else
        return 0;
    return 1;
}

static int read_argument(const struct fields *fields, struct line *line, uint32_t kind, size_t digits)
{
    line->kind = kind;
    return read_number(fields, 1, digits, &line->argument);
}

/* Levels have the digits of the part that there is; a number that its calls refuse is read. */
static int read_line(const uint8_t *text, size_t length, struct line *line)
{
    const struct fields fields = split(text, length);
    if (IS_LINE(&fields, "device", 4))
        return read_device(&fields, &parts[0], line);
    if (IS_LINE(&fields, "device34", 4))
        return read_device(&fields, &parts[1], line);
    if (IS_LINE(&fields, "byte", 2))
        return read_argument(&fields, line, GHIXRAMEL_BYTE, 2);
    if (IS_LINE(&fields, "fetch", 2))
        return read_argument(&fields, line, GHIXRAMEL_FETCH, 1);
    if (IS_LINE(&fields, "pins", 2))
        return read_argument(&fields, line, GHIXRAMEL_LEVELS, part->digits);
    if (IS_LINE(&fields, "sign", 2))
        return read_argument(&fields, line, SIGN_LINE, 2);
    return read_word(&fields, line);
}

/* Both or none: a part, a device and its marks from before stay. */
static uint32_t make(struct shelf *shelf, const struct line *line)
{
    const struct part *before = part;
    struct shelf made = {.made = 1};
    part = line->part;
    uint32_t refusal = guarded_power_on(&made.device, (uint32_t)line->choice, line->levels, LOGGED_NUMBER);
    if (refusal == GHIXRAMEL_DONE)
        refusal = guarded_marks_new(&made.marks, line->healthy);
    if (refusal == GHIXRAMEL_DONE)
        *shelf = made;
    else
        part = before;
    return refusal;
}

/* 0, or the refusal that the line is answered by: but for a pin's, whatever the library refuses is unreadable. */
static uint32_t carry_out(struct shelf *shelf, const struct line *line, uint8_t answer[2])
{
    if (line->kind == DEVICE_LINE)
        return make(shelf, line) ? UNREADABLE : 0;
    if (!shelf->made)
        return UNREADABLE;
    if (line->kind == SIGN_LINE)
        return guarded_sign_off(&shelf->device, &shelf->marks, (uint32_t)line->argument);
    return guarded_marked_step(&shelf->device, &shelf->marks, line->kind, line->argument, answer) ? UNREADABLE : 0;
}

static uint8_t *put_shelf(uint8_t *to, const struct shelf *shelf, const uint8_t answer[2])
{
    to = put_byte(put_answer(to, answer), '\t');
    to = put_byte(put_int(to, &shelf->device), '\t');
    to = put_byte(put_drives(to, &shelf->device), '\t');
    return put_byte(put_pins(to, shelf->marks.set, part->digits), '\n');
}

static uint8_t *put_line(uint8_t *to, struct shelf *shelf, const uint8_t *text, size_t length)
{
    struct line line = {0};
    uint8_t answer[2] = {GHIXRAMEL_NOTHING, 0};
    if (length > MOST_LINE_BYTES || !read_line(text, length, &line))
        return put_refusal(to, UNREADABLE);
    uint32_t refusal = carry_out(shelf, &line, answer);
    return refusal ? put_refusal(to, refusal) : put_shelf(to, shelf, answer);
}

int main(void)
{
    static struct stream stream;
    static struct shelf shelf;
    const uint8_t *text;
    size_t length;
    put_end(&stream, PUT_WORDS(put_begin(&stream, MOST_WATCH_BYTES), header));
    while ((text = next_line(&stream, MOST_LINE_BYTES, &length)))
        put_end(&stream, put_line(put_begin(&stream, MOST_WATCH_BYTES), &shelf, text, length));
    flush(&stream);
    return 0;
}
