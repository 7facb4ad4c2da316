"""Sign-offs: one pin of one device with marks for each line of standard input.

A line, its fields parted by tabs, all of them lowercase hex digits:

    the image    thirteen fields, as the programs probe have them (256, 16, 16, 16, 16, 2, 2, 2, 16, 2, 2, 8, 2 digits)
    set          16 digits: the pins that are marked
    healthy      16 digits: the pins whose healthy level is 1
    pin          8 digits: the pin that is to be signed off, any number of 32 bits

The device is in the state of the image; of a broken image it is in none, so that every call on it finds a broken image. The
marks are the two sets as they stand in the line, whatever they are.

The answer, parted by tabs:

    refusal      decimal: 0, or the number of the refusal
    set          16 digits: after the call
    healthy      16 digits: after the call

A line that is not these fields is answered by `refused`, a tab and 7. The last line counts without its newline if it holds
a byte. The part is the program's: there is one program for each.
"""

from marked_bursts import set_fields
from marks import Marked
from probe import IMAGE_WIDTHS, line_form, main, read_fields
from trace import UNREADABLE, split_lines

# An image, both mark sets, pin.
WIDTHS = IMAGE_WIDTHS + (16, 16, 8)
LINE = line_form(WIDTHS)


def read_line(line):
    """(image, marks, healthy set, pin), None if unreadable."""
    return read_fields(LINE, line)


def answer_to(which, read, marked_class=Marked):
    """The answer line to a line read."""
    if read is None:
        return UNREADABLE
    image, marks, healthy, pin = read
    device = marked_class(which, image, marks, healthy)
    number = device.sign_off(pin)
    return ('%d\t%s\n' % (number, set_fields(device))).encode()


def run_lines(which, lines, marked_class=Marked):
    return b''.join(answer_to(which, read_line(line), marked_class) for line in split_lines(lines))


if __name__ == '__main__':
    main(run_lines)
