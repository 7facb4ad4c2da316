"""The program watch: trace with marks beside the device, which its lines say after the drives, and pins signed off."""

import re
import sys

import trace
from device import PARTS
from marks import Marked
from trace import NEW, NUMBER, WHICH, Session, answer_line, split_lines

HEADER = b'answer\tint\tlow\thigh\tmarks\n'

# A line that signs a pin off, beside the device's own kinds of event.
SIGN = 'sign'

# The longest readable line has 30 bytes, so here too the limit of 32 needs no test of its own.
SIGN_LINE = re.compile(rb'sign\t([0-9a-f]{2})')
DEVICE_LINE = re.compile(rb'(device|device34)\t([0-9a-f])\t([0-9a-f]+)\t([0-9a-f]+)')


def read_line(line):
    """As trace reads it, but a device's lines, and with those that sign off; None if unreadable.

    (NEW, (which, choice, levels, healthy), digits of both) of a device, (SIGN, pin, digits) of a sign-off.
    """
    found = SIGN_LINE.fullmatch(line)
    if found:
        return SIGN, int(found.group(1), 16), len(found.group(1))
    found = DEVICE_LINE.fullmatch(line)
    if found:
        name, choice, levels, healthy = found.groups()
        return NEW, (WHICH[name], int(choice, 16), int(levels, 16), int(healthy, 16)), (len(levels), len(healthy))
    read = trace.read_line(line)
    return None if read is None or read[0] == NEW else read


def read_log(log):
    return [read_line(line) for line in split_lines(log)]


# The class of each part's devices with their marks.
MODEL = {which: Marked for which in PARTS}


class Watch(Session):
    """A log's device and marks from line to line, none before the first device line."""

    def __init__(self, classes=None):
        super().__init__(classes or MODEL)

    # The log as text.

    def texts(self, log):
        """The header, then the answer line to each line."""
        yield self.header()
        for line in self.lines(log):
            yield self.answer(self.read(line))

    def header(self):
        return HEADER

    def lines(self, log):
        return split_lines(log)

    def read(self, line):
        return read_line(line)

    # A line read.

    def new(self, which, choice, levels, healthy, digits):
        """A device line: device and marks anew, where levels and healthy set are both readable."""
        readable = self.levels_read(which, levels, digits[0]) and self.healthy_read(which, healthy, digits[1])
        return self.take(self.make(which, choice, levels, healthy) if readable else None)

    def healthy_read(self, which, healthy, digits):
        """As levels are."""
        return self.levels_read(which, healthy, digits)

    def make(self, which, choice, levels, healthy):
        """No line says a number."""
        return self.classes[which].make(which, choice, levels, NUMBER, healthy)

    def event(self, kind, argument, digits):
        return self.sign(argument) if kind == SIGN else super().event(kind, argument, digits)

    def sign(self, pin):
        """Before a device there is nothing to sign off: unreadable, whatever the pin."""
        if self.device is None:
            return None
        number = self.device.sign_off(pin)
        return '-' if number == 0 else ('refused', number)

    def line(self, answer):
        """The columns of trace and the marks in as many digits; a refusal has none."""
        if isinstance(answer, tuple):
            return self.refused_line(answer)
        return self.answered_line(answer)

    def refused_line(self, answer):
        return '%s\t%d' % answer

    def answered_line(self, answer):
        return '%s\t%s' % (answer_line(answer, self.device), self.marks_text())

    def marks_text(self):
        return '%0*x' % (self.device.part.digits, self.device.marks)


def run_log(log):
    return b''.join(Watch().texts(log))


if __name__ == '__main__':
    sys.stdout.buffer.write(run_log(sys.stdin.buffer.read()))
