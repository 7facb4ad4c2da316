/* One step of the peer on a state image a line: registers, four pin sets, pointer, bus state, address choice, status, line,
 * mode, number, place, kind and argument, in lowercase hex parted by tabs. Answered as the trace program does, then the image
 * after. */
#include "image_text.h"
#include "peer_text.h"

enum { LINE_BYTES = 394, MOST_PROBE_BYTES = 400 };

struct probe {
    struct peer device;
    uint32_t kind;
    uint64_t argument;
};

static const uint8_t *pins_fields(const uint8_t *at, struct peer *device)
{
    at = field(at, 16, &device->level);
    at = field(at, 16, &device->reference);
    at = field(at, 16, &device->held);
    return field(at, 16, &device->edge);
}

static const uint8_t *bus_fields(const uint8_t *at, struct peer *device)
{
    uint64_t pointer = 0, bus = 0, choice = 0;
    at = field(field(field(at, 2, &pointer), 2, &bus), 2, &choice);
    device->pointer = (uint8_t)pointer;
    device->bus = (uint8_t)bus;
    device->choice = (uint8_t)choice;
    return at;
}

static const uint8_t *kept_fields(const uint8_t *at, struct peer *device)
{
    uint64_t line = 0, mode = 0;
    at = field(field(field(at, 16, &device->status), 2, &line), 2, &mode);
    device->line = (uint8_t)line;
    device->mode = (uint8_t)mode;
    return at;
}

static const uint8_t *id_fields(const uint8_t *at, struct peer *device)
{
    uint64_t place = 0;
    at = field(field(at, 8, &device->number), 2, &place);
    device->place = (uint8_t)place;
    return at;
}

/* The fields have fixed widths, so a line of the right length with a tab after each of fourteen fields has no room for more. */
static int read_probe(const uint8_t *line, size_t length, struct probe *probe)
{
    uint8_t text[LINE_BYTES + 1];
    uint64_t kind = 0;
    if (length != LINE_BYTES)
        return 0;
    memcpy(text, line, LINE_BYTES);
    text[LINE_BYTES] = '\n';
    const uint8_t *at = pins_fields(registers_field(text, probe->device.registers), &probe->device);
    at = kept_fields(bus_fields(at, &probe->device), &probe->device);
    at = field(id_fields(at, &probe->device), 8, &kind);
    probe->kind = (uint32_t)kind;
    return field(at, 16, &probe->argument) != NULL;
}

static uint8_t *put_set(uint8_t *to, uint64_t pins)
{
    return put_pins(put_byte(to, '\t'), pins, 16);
}

static uint8_t *put_image(uint8_t *to, const struct peer *device)
{
    to = put_byte(to, '\t');
    for (int i = 0; i < REGISTERS; i++)
        to = put_hex(to, device->registers[i], 2);
    to = put_set(put_set(to, device->level), device->reference);
    to = put_set(put_set(to, device->held), device->edge);
    to = put_hex(put_byte(to, '\t'), device->pointer, 2);
    to = put_hex(put_byte(to, '\t'), device->bus, 2);
    to = put_hex(put_byte(to, '\t'), device->choice, 2);
    to = put_hex(put_byte(put_set(to, device->status), '\t'), device->line, 2);
    to = put_hex(put_byte(to, '\t'), device->mode, 2);
    to = put_hex(put_byte(to, '\t'), (uint32_t)device->number, 8);
    return put_hex(put_byte(to, '\t'), device->place, 2);
}

static uint8_t *put_step(uint8_t *to, struct probe *probe)
{
    uint8_t answer[2] = {0};
    uint32_t refusal = peer_step(&probe->device, probe->kind, probe->argument, answer);
    if (refusal)
        return put_refusal(to, refusal);
    return put_byte(put_image(put_outputs(to, &probe->device, answer), &probe->device), '\n');
}

int main(void)
{
    static struct stream stream;
    const uint8_t *line;
    size_t length;
    while ((line = next_line(&stream, LINE_BYTES, &length))) {
        struct probe probe;
        uint8_t *to = put_begin(&stream, MOST_PROBE_BYTES);
        to = read_probe(line, length, &probe) ? put_step(to, &probe) : put_refusal(to, UNREADABLE);
        put_end(&stream, to);
    }
    flush(&stream);
    return 0;
}
