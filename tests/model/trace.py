"""The trace program: a log of events on standard input, one answer line for each on standard output."""

import re
import sys

from device import BYTE, FETCH, LEVELS, PARTS, RESET, START, STOP, Device

HEADER = b'answer\tint\tlow\thigh\n'
UNREADABLE = b'refused\t7\n'

# A line that makes a device, beside the device's own kinds of event.
NEW = 'device'

# No readable line comes near 32 bytes, so the limit on a line's length needs no test of its own.
EVENTS = (
    (re.compile(rb'start'), START, None),
    (re.compile(rb'stop'), STOP, None),
    (re.compile(rb'byte\t([0-9a-f]{2})'), BYTE, 16),
    (re.compile(rb'fetch\t([01])'), FETCH, 16),
    (re.compile(rb'pins\t([0-9a-f]+)'), LEVELS, 16),
    (re.compile(rb'reset'), RESET, None),
)
DEVICE = re.compile(rb'(device|device34)\t([0-9a-f])\t([0-9a-f]+)')
WHICH = {b'device': 24, b'device34': 34}


def split_lines(log):
    """A last line without newline counts if it holds a byte."""
    lines = log.split(b'\n')
    if lines[-1] == b'':
        lines.pop()
    return lines


def read_line(line):
    """(kind, argument, digits) of an event, (NEW, (which, choice, levels), digits) of a device, None if unreadable.

    How many digits levels have to have depends on the part, so that they are counted here and judged by the session.
    """
    for form, kind, base in EVENTS:
        found = form.fullmatch(line)
        if found:
            return (kind, int(found.group(1), base), len(found.group(1))) if base else (kind, 0, 0)
    found = DEVICE.fullmatch(line)
    if not found:
        return None
    name, choice, levels = found.groups()
    return NEW, (WHICH[name], int(choice, 16), int(levels, 16)), len(levels)


def read_log(log):
    return [read_line(line) for line in split_lines(log)]


def show(answer):
    """A byte read is two hex digits, the other answers are words."""
    return answer if isinstance(answer, str) else '%02x' % answer


def answer_line(answer, device, digits=None):
    """The answer, INT's level, the pins driven low and high in the part's digits."""
    digits = digits or device.part.digits
    line, low, high = device.outputs()
    return '%s\t%d\t%0*x\t%0*x' % (show(answer), line, digits, low, digits, high)


# The class of each part's devices, and the number that all of them have.
MODEL = {which: Device for which in PARTS}
NUMBER = 0


class Session:
    """A log's device from line to line, none before its first device line; the part tells how many digits levels have."""

    def __init__(self, classes=None):
        self.classes, self.device = classes or MODEL, None

    def digits_fit(self, which, digits):
        """Six digits of the 24-pin part, nine of its sister."""
        return digits == PARTS[which].digits

    def levels_fit(self, which, levels):
        """Nine digits can say more than 34 pins."""
        return levels < PARTS[which].limit

    def levels_read(self, which, levels, digits):
        return self.digits_fit(which, digits) and self.levels_fit(which, levels)

    def answer(self, event):
        """The answer line to a line read."""
        if event is None:
            return UNREADABLE
        kind, argument, digits = event
        answer = self.new(*argument, digits) if kind == NEW else self.event(kind, argument, digits)
        return UNREADABLE if answer is None else self.line(answer).encode() + b'\n'

    def new(self, which, choice, levels, digits):
        """A device line."""
        return self.take(self.make(which, choice, levels) if self.levels_read(which, levels, digits) else None)

    def take(self, made):
        """Unreadable, as with a choice over 3, a device line leaves the old device."""
        if made is None or isinstance(made, tuple):
            return None
        self.device = made
        return '-'

    def make(self, which, choice, levels):
        """No line says a number."""
        return self.classes[which].make(which, choice, levels, NUMBER)

    def event(self, kind, argument, digits):
        """An event line; before a device, or with levels that its part has not, it is unreadable."""
        if self.device is None or kind == LEVELS and not self.levels_read(self.device.which, argument, digits):
            return None
        return self.device.step(kind, argument)

    def line(self, answer):
        return answer_line(answer, self.device)


def answers(events, session):
    """The answer line to each event of a log read, one by one."""
    return map(session.answer, events)


def run_log(log):
    return HEADER + b''.join(answers(read_log(log), Session()))


if __name__ == '__main__':
    sys.stdout.buffer.write(run_log(sys.stdin.buffer.read()))
