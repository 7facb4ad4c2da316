/* The trace program over the peer: a log on standard input, one answer for each line on standard output. */
#include "peer_text.h"

#ifndef PEER_DEVICE
#define PEER_DEVICE "device"
#endif

enum { MOST_LINE_BYTES = 32, DEVICE_LINE = 6, DEVICE_BYTES = sizeof(PEER_DEVICE "\t") - 1 };
/* A log says no number of a device. */
enum { LOGGED_NUMBER = 0 };

struct line {
    uint32_t kind; /* an event's kind, or DEVICE_LINE */
    uint32_t choice;
    uint64_t argument;
};

#define BEGINS(line, words) (memcmp(line, words, sizeof(words) - 1) == 0)

static inline int read_words(const uint8_t *text, struct line *line)
{
    if (BEGINS(text, "start"))
        line->kind = PEER_START;
    else if (BEGINS(text, "reset"))
        line->kind = PEER_RESET;
    else
        return 0;
    return 1;
}

static inline int read_byte_or_fetch(const uint8_t *text, struct line *line)
{
    if (BEGINS(text, "byte\t")) {
        line->kind = PEER_BYTE;
        return read_hex(text + 5, 2, &line->argument);
    }
    line->kind = PEER_FETCH;
    return BEGINS(text, "fetch\t") && read_hex(text + 6, 1, &line->argument) && line->argument <= 1;
}

static inline int read_device(const uint8_t *text, struct line *line)
{
    uint64_t choice;
    if (!BEGINS(text, PEER_DEVICE "\t") || !read_hex(text + DEVICE_BYTES, 1, &choice) || text[DEVICE_BYTES + 1] != '\t')
        return 0;
    line->kind = DEVICE_LINE;
    line->choice = (uint32_t)choice;
    return read_hex(text + DEVICE_BYTES + 2, PEER_DIGITS, &line->argument);
}

/* 1 if the line has one of the seven forms; its length tells all but two of them apart. */
static inline int read_line(const uint8_t *text, size_t length, struct line *line)
{
    line->argument = 0;
    switch (length) {
    case sizeof("stop") - 1:
        line->kind = PEER_STOP;
        return BEGINS(text, "stop");
    case sizeof("start") - 1:
        return read_words(text, line);
    case sizeof("byte\tHH") - 1:
        return read_byte_or_fetch(text, line);
    case sizeof("pins\t") - 1 + PEER_DIGITS:
        line->kind = PEER_LEVELS;
        return BEGINS(text, "pins\t") && read_hex(text + 5, PEER_DIGITS, &line->argument);
    case DEVICE_BYTES + sizeof("C\t") - 1 + PEER_DIGITS:
        return read_device(text, line);
    default:
        return 0;
    }
}

/* 1 if the line was carried out; before the first device line there is no device. */
static inline int carry_out(struct peer *device, int *made, const struct line *line, uint8_t answer[2])
{
    if (line->kind != DEVICE_LINE)
        return *made && peer_step(device, line->kind, line->argument, answer) == 0;
    if (peer_power_on(device, line->choice, line->argument, LOGGED_NUMBER) != 0)
        return 0;
    *made = 1;
    answer[0] = PEER_NOTHING;
    return 1;
}

int main(void)
{
    static struct stream stream;
    static struct peer device;
    int made = 0;
    const uint8_t *text;
    size_t length;
    put_end(&stream, PUT_WORDS(put_begin(&stream, MOST_ANSWER_BYTES), "answer\tint\tlow\thigh\n"));
    while ((text = next_line(&stream, MOST_LINE_BYTES, &length))) {
        struct line line;
        uint8_t answer[2] = {0, 0};
        uint8_t *to = put_begin(&stream, MOST_ANSWER_BYTES);
        if (read_line(text, length, &line) && carry_out(&device, &made, &line, answer))
            to = put_byte(put_outputs(to, &device, answer), '\n');
        else
            to = put_refusal(to, UNREADABLE);
        put_end(&stream, to);
    }
    flush(&stream);
    return 0;
}
