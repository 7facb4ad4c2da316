"""The program compare: answers that were recorded, held line by line against what trace answers to the same events."""

import sys
from collections import namedtuple
from functools import lru_cache
from pathlib import Path

from trace import run_log, split_lines

AGREES, DEPARTS, ENDS_EARLY, LEFT_OVER = range(4)
WORDS = (b'agrees', b'departs', b'ends early', b'left over')

# Offset and length are of a part of the answers; the number is that of its line, or of all lines where they agree.
Finding = namedtuple('Finding', 'verdict offset length number')

# A person is shown so many bytes of an event or of a line found.
SHOWN_BYTES = 32


@lru_cache(maxsize=8)
def lines_of_trace(events):
    """The header and a line for each event, without newlines."""
    return tuple(split_lines(run_log(events)))


class Comparison:
    """Answers recorded to events, and the lines that are expected of them; line 1 is the header."""

    def __init__(self, events, answers):
        self.events, self.answers = events, answers
        self.expected, self.found = self.lines_expected(), self.lines_found()

    def lines_expected(self):
        return lines_of_trace(self.events)

    def lines_found(self):
        """(offset, line without its newline) of each; a last one without newline counts if it holds a byte."""
        offset, lines = 0, []
        for line in split_lines(self.answers):
            lines.append((offset, line))
            offset += len(line) + 1
        return lines

    def differs(self, place):
        """A line is the expected one byte for byte: a beginning of it is another line, and so is one with a return."""
        return self.found[place][1] != self.expected[place]

    # What is found.

    def finding(self):
        """The first line that differs decides, before the question whether lines are missing or left over."""
        for place in range(min(len(self.expected), len(self.found))):
            if self.differs(place):
                return self.departs(place)
        if len(self.found) < len(self.expected):
            return self.ends_early()
        if len(self.found) > len(self.expected):
            return self.left_over()
        return self.agrees()

    def agrees(self):
        return self.at_end(AGREES, len(self.found))

    def departs(self, place):
        return self.at_line(DEPARTS, place)

    def ends_early(self):
        """The line that is missing comes after the last one found."""
        return self.at_end(ENDS_EARLY, len(self.found) + 1)

    def left_over(self):
        """The first line past those expected, be it empty."""
        return self.at_line(LEFT_OVER, len(self.expected))

    def at_line(self, verdict, place):
        """The line in this place without its newline."""
        offset, line = self.found[place]
        return Finding(verdict, offset, len(line), place + 1)

    def at_end(self, verdict, number):
        """The empty part at the end of the answers."""
        return Finding(verdict, len(self.answers), 0, number)

    # What the program writes.

    def output(self):
        """Standard output: the verdict in words, and the line where there is one, be it empty."""
        finding = self.finding()
        words = WORDS[finding.verdict] + b'\n'
        return words + self.part(finding) + b'\n' if finding.verdict in (DEPARTS, LEFT_OVER) else words

    def part(self, finding):
        return self.answers[finding.offset:finding.offset + finding.length]

    def remarks(self):
        """Standard error, for a person."""
        finding = self.finding()
        tell = (self.agreement, self.departure, self.absence, self.surplus)[finding.verdict]
        return b''.join(line + b'\n' for line in tell(finding))

    def agreement(self, finding):
        return [b'compare: 1 line agrees' if finding.number == 1 else b'compare: %d lines agree' % finding.number]

    def departure(self, finding):
        return [b'compare: line %d departs' % finding.number, *self.asked(finding), self.was_found(finding)]

    def absence(self, finding):
        return [b'compare: line %d is missing' % finding.number, *self.asked(finding)]

    def surplus(self, finding):
        return [b'compare: line %d is left over' % finding.number, b'expected: nothing, the events end before it',
                self.was_found(finding)]

    def asked(self, finding):
        """The event of a line and what it expects."""
        return [b'event: ' + self.event(finding), b'expected: ' + self.expected[finding.number - 1]]

    def event(self, finding):
        """The header answers no event, so that the first event is that of line 2."""
        if finding.number == 1:
            return b'none, this is the header'
        return self.shown(split_lines(self.events)[finding.number - 2])

    def was_found(self, finding):
        return b'found: ' + self.shown(self.part(finding))

    def shown(self, line):
        """Of a longer one the beginning and three dots."""
        return line if len(line) <= SHOWN_BYTES else line[:SHOWN_BYTES] + b'...'


if __name__ == '__main__':
    compared = Comparison(*(Path(name).read_bytes() for name in sys.argv[1:]))
    sys.stdout.buffer.write(compared.output())
    sys.stderr.buffer.write(compared.remarks())
