"""Many events in one call with marks beside the device: one such burst for each line of standard input.

A line, its fields parted by tabs, all of them lowercase hex digits:

    the image    thirteen fields, as the programs probe have them (256, 16, 16, 16, 16, 2, 2, 2, 16, 2, 2, 8, 2 digits)
    set          16 digits: the pins that are marked
    healthy      16 digits: the pins whose healthy level is 1
    asked        16 digits: the number of events that are asked
    room         4 digits: the bytes of room for answers, at most 0407 (515 * 2 + 1)
    events       two digits a byte, at most 515 * 12 bytes, perhaps none: the field is empty then, but its tab is there

So a line is that of the program burst with set and healthy put in between the image and the number asked. The device is
in the state of the image; of a broken image it is in none, so that every call on it finds a broken image. The marks are the
two sets as they stand in the line, whatever they are. Before the call the room holds 3c in every byte, and what is lent for
the number of events done holds 77 (hex).

The answer, parted by tabs:

    refusal      decimal: 0, or the number of the refusal
    done         16 digits: what that memory holds after the call, 0000000000000077 if it was left alone
    answers      two digits for each byte of the room, all of it, as it is after the call; empty if there is no room
    the image    thirteen fields: of the device after the call; in their place `refused`, a tab and 3 of a broken image
    set          16 digits: after the call
    healthy      16 digits: after the call

A line that is not these fields is answered by `refused`, a tab and 7. The last line counts without its newline if it holds
a byte. The part is the program's: there is one program for each.
"""

from bursts import burst_fields, read_burst
from marks import Marked
from probe import IMAGE_WIDTHS, line_form, main
from trace import UNREADABLE, split_lines

# An image, both mark sets, the number of events asked, the bytes of room for answers.
WIDTHS = IMAGE_WIDTHS + (16, 16, 16, 4)
LINE = line_form(WIDTHS)


def read_line(line):
    """(image, marks, healthy set, number asked, room, events' bytes), None if unreadable."""
    return read_burst(LINE, line)


def set_fields(device):
    """Both mark sets as text."""
    return '%016x\t%016x' % (device.marks, device.healthy)


def answer_to(which, read, marked_class=Marked):
    """The answer line to a line read."""
    if read is None:
        return UNREADABLE
    image, marks, healthy, asked, room, data = read
    device = marked_class(which, image, marks, healthy)
    # The sets are told as they are after the call, so the call comes first.
    told = burst_fields(device, asked, room, data)
    return ('%s\t%s\n' % (told, set_fields(device))).encode()


def run_lines(which, lines, marked_class=Marked):
    return b''.join(answer_to(which, read_line(line), marked_class) for line in split_lines(lines))


if __name__ == '__main__':
    main(run_lines)
