/* Writes the log that the trace programs are timed on: the same traffic as the steps', one line in 500 unreadable, and a
 * new device every 100,000 lines. The same log each time. */
#include "mix.h"
#include "peer.h"
#include "text.h"

enum { LINES = 4000000, LINES_A_DEVICE = 100000, UNREADABLE_ONE_IN = 500, MOST_BYTES = 64, SEED = 1 };

static uint8_t *put_device(uint8_t *to, struct mix *mix, uint64_t *random)
{
    uint32_t choice = random_below(random, 4);
    uint32_t levels = random_below(random, 1 << 24);
    mix_begin(mix, &mix24, *random, choice, levels);
    to = put_hex(PUT_WORDS(to, "device\t"), choice, 1);
    return put_hex(put_byte(to, '\t'), levels, 6);
}

static uint8_t *put_event(uint8_t *to, struct event event)
{
    switch (event.kind) {
    case PEER_START:
        return PUT_WORDS(to, "start");
    case PEER_STOP:
        return PUT_WORDS(to, "stop");
    case PEER_BYTE:
        return put_hex(PUT_WORDS(to, "byte\t"), (uint32_t)event.argument, 2);
    case PEER_FETCH:
        return put_hex(PUT_WORDS(to, "fetch\t"), (uint32_t)event.argument, 1);
    case PEER_LEVELS:
        return put_hex(PUT_WORDS(to, "pins\t"), (uint32_t)event.argument, 6);
    default:
        return PUT_WORDS(to, "reset");
    }
}

static uint8_t *put_unreadable(uint8_t *to, uint32_t which)
{
    switch (which) {
    case 0:
        return to;
    case 1:
        return PUT_WORDS(to, "byte\t4G");
    case 2:
        return PUT_WORDS(to, "# the loss contact is pin 0");
    default:
        return PUT_WORDS(to, "# a remark that is longer than a line of a log may be");
    }
}

int main(void)
{
    static struct stream stream;
    struct mix mix;
    uint64_t random = SEED;
    for (uint32_t line = 0; line < LINES; line++) {
        uint8_t *to = put_begin(&stream, MOST_BYTES);
        if (line % LINES_A_DEVICE == 0) {
            to = put_device(to, &mix, &random);
        } else if (random_below(&random, UNREADABLE_ONE_IN) == 0) {
            to = put_unreadable(to, random_below(&random, 4));
        } else {
            to = put_event(to, mix_next(&mix));
        }
        put_end(&stream, put_byte(to, '\n'));
    }
    flush(&stream);
    return 0;
}
