"""The programs probe and, with the argument 34, probe34: one step on one state image for each line of standard input."""

import re
import sys

from device import Device, Image
from trace import UNREADABLE, answer_line, split_lines

# Registers, level, reference, held, edge, pointer, bus state, address choice, status, line, mode, number, place.
IMAGE_WIDTHS = (256, 16, 16, 16, 16, 2, 2, 2, 16, 2, 2, 8, 2)
# An image, kind, argument.
WIDTHS = IMAGE_WIDTHS + (8, 16)


def line_form(widths):
    return re.compile(b'\t'.join(b'([0-9a-f]{%d})' % width for width in widths))


LINE = line_form(WIDTHS)


def read_fields(form, line):
    """An image and the numbers after it, None if unreadable."""
    found = form.fullmatch(line)
    if not found:
        return None
    registers = tuple(bytes.fromhex(found.group(1).decode()))
    numbers = [int(field, 16) for field in found.groups()[1:]]
    rest = len(IMAGE_WIDTHS) - 1
    return (Image(registers, *numbers[:rest]), *numbers[rest:])


def read_line(line):
    """(image, kind, argument), None if unreadable."""
    return read_fields(LINE, line)


def image_fields(image):
    """The thirteen fields of an image as text."""
    numbers = ['%0*x' % (width, number) for width, number in zip(IMAGE_WIDTHS[1:], image[1:])]
    return '\t'.join([bytes(image.registers).hex()] + numbers)


def answer_to(which, read, device_class=Device):
    """The answer line to a line read, of the part with so many pins."""
    if read is None:
        return UNREADABLE
    image, kind, arg = read
    device = device_class(which, image)
    answer = device.step(kind, arg)
    if isinstance(answer, tuple):
        return b'refused\t%d\n' % answer[1]
    return ('%s\t%s\n' % (answer_line(answer, device), image_fields(device.image()))).encode()


def run_lines(which, lines, device_class=Device):
    return b''.join(answer_to(which, read_line(line), device_class) for line in split_lines(lines))


def main(run):
    """A program over one part: 24 pins, or as many as its argument says."""
    which = int(sys.argv[1]) if sys.argv[1:] else 24
    sys.stdout.buffer.write(run(which, sys.stdin.buffer.read()))


if __name__ == '__main__':
    main(run_lines)
