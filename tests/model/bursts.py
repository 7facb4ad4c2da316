"""Many events in one call: one burst on one state image for each line of standard input."""

import re

from device import Device
from probe import IMAGE_WIDTHS, image_fields, line_form, main, read_fields
from trace import UNREADABLE, split_lines

# An image, the number of events asked, the bytes of room for answers; then the events, whole bytes, perhaps none.
WIDTHS = IMAGE_WIDTHS + (16, 4)
LINE = line_form(WIDTHS)
EVENTS = re.compile(rb'(?:[0-9a-f]{2})*')
# What the program lends at most.
MOST_EVENT_BYTES, MOST_ROOM = 515 * 12, 515 * 2 + 1
# What is lent for results holds these before the call.
OLD_ANSWER, OLD_DONE = 0x3C, 0x77

KINDS = {'-': 0, 'ack': 1, 'nak': 2}


def read_burst(form, line):
    """An image, the numbers after it, of which the room is the last, and the events' bytes; None if unreadable."""
    front, _, events = line.rpartition(b'\t')
    read = read_fields(form, front)
    if not read or not EVENTS.fullmatch(events) or len(events) > 2 * MOST_EVENT_BYTES or read[-1] > MOST_ROOM:
        return None
    return read + (bytes.fromhex(events.decode()),)


def read_line(line):
    """(image, number asked, room, events' bytes), None if unreadable."""
    return read_burst(LINE, line)


def answer_bytes(answer):
    """The answer's kind and the byte read, else 0."""
    return bytes((KINDS[answer], 0) if isinstance(answer, str) else (3, answer))


def burst_fields(device, asked, room, data):
    """Of a burst on the device: refusal, events done, all of the room, the image after, a broken one refused."""
    number, done, answers = device.burst(data, asked, room)
    told = b''.join(map(answer_bytes, answers))
    after = 'refused\t3' if device.broken else image_fields(device.image())
    return '%d\t%016x\t%s\t%s' % (
        number, OLD_DONE if done is None else done, (told + bytes([OLD_ANSWER]) * room)[:max(room, len(told))].hex(),
        after)


def answer_to(which, read, device_class=Device):
    """The answer line to a line read."""
    if read is None:
        return UNREADABLE
    image, asked, room, data = read
    return burst_fields(device_class(which, image), asked, room, data).encode() + b'\n'


def run_lines(which, lines, device_class=Device):
    return b''.join(answer_to(which, read_line(line), device_class) for line in split_lines(lines))


if __name__ == '__main__':
    main(run_lines)
