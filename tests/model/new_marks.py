"""New marks: made with one healthy set for each line of standard input.

A line is one field of lowercase hex digits:

    healthy      16 digits: the pins whose healthy level is 1

Before the call the memory of the marks holds 3c in every byte of the set and 77 (hex) in every byte of the healthy set.

The answer, parted by tabs:

    refusal      decimal: 0, or the number of the refusal
    set          16 digits: after the call, 3c3c3c3c3c3c3c3c if it was left alone
    healthy      16 digits: after the call, 7777777777777777 if it was left alone

A line that is not this field is answered by `refused`, a tab and 7. The last line counts without its newline if it holds a
byte. The part is the program's: there is one program for each.
"""

import re

from marks import Marked
from probe import main
from trace import UNREADABLE, split_lines

LINE = re.compile(rb'([0-9a-f]{16})')
# What is lent for the sets holds these before the call.
OLD_SETS = 0x3C3C3C3C3C3C3C3C, 0x7777777777777777


def read_line(line):
    """The healthy set, None if unreadable."""
    found = LINE.fullmatch(line)
    return int(found.group(1), 16) if found else None


def answer_to(which, read, marked_class=Marked):
    """The answer line to a line read."""
    if read is None:
        return UNREADABLE
    number, sets = marked_class.renewed(which, read, OLD_SETS)
    return ('%d\t%016x\t%016x\n' % (number, *sets)).encode()


def run_lines(which, lines, marked_class=Marked):
    return b''.join(answer_to(which, read_line(line), marked_class) for line in split_lines(lines))


if __name__ == '__main__':
    main(run_lines)
