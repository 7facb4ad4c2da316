/* Comparisons of the library for pairs of events and answers: the lengths of both in decimal, a space between and a newline after, then
 * the bytes of both. For each it prints a line of verdict, offset and length, a space between. So the model judges them. */
#include "checks.h"
#include "guarded.h"
#include "text.h"

static uint8_t events[MOST_TEXT_BYTES], answers[MOST_TEXT_BYTES];

static _Noreturn void stop(const char *why)
{
    dprintf(STANDARD_ERROR, "log_pairs: %s\n", why);
    exit(1);
}

static int has_more(struct stream *stream)
{
    return stream->at < stream->end || refill(stream, 0);
}

static void take(struct stream *stream, uint8_t *to, size_t bytes)
{
    while (bytes > 0) {
        if (!has_more(stream))
            stop("the input ends in a pair");
        size_t there = stream->end - stream->at, taken = there < bytes ? there : bytes;
        memcpy(to, stream->in + stream->at, taken);
        stream->at += taken;
        to += taken;
        bytes -= taken;
    }
}

static uint8_t take_byte(struct stream *stream)
{
    uint8_t byte;
    take(stream, &byte, 1);
    return byte;
}

/* The number, and what comes after its digits. */
static size_t take_length(struct stream *stream, uint8_t mark)
{
    size_t length = 0;
    for (uint8_t digit = take_byte(stream); digit != mark; digit = take_byte(stream)) {
        if (digit < '0' || digit > '9')
            stop("a length is no number");
        length = 10 * length + (size_t)(digit - '0');
        if (length > MOST_TEXT_BYTES)
            stop("a text is too long");
    }
    return length;
}

static void compare_pair(size_t event_bytes, size_t answer_bytes)
{
    uint8_t verdict[1] = {0};
    uint64_t part[2] = {0};
    want("refusal of a comparison", GHIXRAMEL_DONE, guarded_compare(events, event_bytes, answers, answer_bytes, verdict, part));
    printf("%u %lu %lu\n", verdict[0], (unsigned long)part[0], (unsigned long)part[1]);
}

int main(void)
{
    static struct stream stream;
    while (has_more(&stream)) {
        size_t event_bytes = take_length(&stream, ' ');
        size_t answer_bytes = take_length(&stream, '\n');
        take(&stream, events, event_bytes);
        take(&stream, answers, answer_bytes);
        compare_pair(event_bytes, answer_bytes);
    }
    return 0;
}
