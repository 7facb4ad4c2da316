"""The model held against the worked example, the bench points and its own readings: python3 selftest.py."""

import random
import sys
import time
from pathlib import Path

import bursts
import generate
import generate_marks
import judge
import logs
import marked_bursts
import new_marks
import probe
import sign_offs
import trace
import views
import watch
from device import (ARMED, ASKING, ASSERTED, BYTE, CALL, CHOSEN, DEAF, FETCH, FILLING, IDLE, IN_GROUP, LEVELS, NAMED, OPENED,
                    OVER_MAP, PARTS, QUIET, REOPENED, RESET, SENDING, START, STOP, TELLING, Device, kept_image, pin_set)
from logs import AGREES, DEPARTS, ENDS_EARLY, LEFT_OVER
from marks import Marked

EXAMPLES = Path(__file__).resolve().parents[2] / 'examples'

EXAMPLE_IN = b'device\t2\t000000\nstart\nbyte\t44\nbyte\t54\nbyte\tfe\npins\t000001\n'
EXAMPLE_OUT = (b'answer\tint\tlow\thigh\n'
               b'-\t1\t000000\t000000\n'
               b'-\t1\t000000\t000000\n'
               b'ack\t1\t000000\t000000\n'
               b'ack\t1\t000000\t000000\n'
               b'ack\t1\t000000\t000000\n'
               b'-\t0\t000000\t000000\n')


def numbered(which, number, port=0):
    """The part's register for the 24-pin part's number, so many ports on."""
    group, part = PARTS[24].map[number], PARTS[which]
    registers_a_port = {'output port kind': 0, 'interrupt edge': 2}.get(group.name, 1)
    return part.named[group.name].first + number - group.first + registers_a_port * port


# What pins 0 and 1 of the 24-pin part do, they do of its sister, and so do the two pins of the sister's last port.
PLACES = ((24, 0), (34, 0), (34, 4))


def everywhere(test):
    """A test of a bench that is told its part and port, in every place."""
    def tested():
        for place in PLACES:
            test(*place)
    tested.__doc__ = test.__doc__
    return tested


class Bench:
    """A device and a master that talks to it, in the 24-pin part's numbers and as if its port were port 0."""

    def __init__(self, which=24, port=0, levels=0, choice=0):
        self.which, self.port = which, port
        self.device = Device.make(which, choice, levels << 8 * port)

    def address(self, read=0):
        assert self.device.step(START, 0) == '-'
        assert self.device.step(BYTE, 2 * (0x20 + self.device.choice) + read) == 'ack'

    def point(self, number, mode=IN_GROUP):
        """The pointer to a register by the part's own number."""
        self.address()
        assert self.device.step(BYTE, mode << 7 | number) == 'ack'

    def write(self, number, *values):
        self.point(numbered(self.which, number, self.port))
        for value in values:
            # A port's kind is a bit of its place.
            assert self.device.step(BYTE, value << self.port & 0xFF if number == 0x5C else value) == 'ack'

    def read(self, number, acknowledged=0):
        self.write(number)
        self.address(1)
        return self.device.step(FETCH, acknowledged)

    def pins(self, levels):
        assert self.device.step(LEVELS, levels << 8 * self.port) == '-'

    def quiet(self):
        return self.device.outputs()[0] == 1

    def outputs(self):
        line, low, high = self.device.outputs()
        return line, low >> 8 * self.port, high >> 8 * self.port

    def drive(self, pin):
        return self.device.drive(8 * self.port + pin)

    def image(self):
        image = self.device.image()
        return image._replace(**{name: getattr(image, name) >> 8 * self.port
                                 for name in ('level', 'reference', 'held', 'edge', 'status')})

    def pointer_after(self, number, mode=IN_GROUP):
        """By the part's own numbers, after a write and after a fetch."""
        self.point(number, mode)
        assert self.device.step(BYTE, 0) == 'ack'
        written = self.device.pointer
        self.point(number, mode)
        self.address(1)
        self.device.step(FETCH, 1)
        assert self.device.pointer == written and self.device.mode == mode
        return written


def test_worked_example():
    assert trace.run_log(EXAMPLE_IN) == EXAMPLE_OUT
    assert trace.run_log(EXAMPLE_IN[:-1]) == EXAMPLE_OUT


def test_shipped_logs():
    logs = sorted(EXAMPLES.glob('*.trace'))
    assert logs
    for log in logs:
        assert trace.run_log(log.read_bytes()) == log.with_suffix('.answers').read_bytes(), log.name


def test_trace_reader():
    header = trace.HEADER
    ok = b'-\t1\t000000\t000000\n'
    no = b'refused\t7\n'
    for log, lines in (
            (b'', b''),
            (b'\n', no),
            (b'start', no),
            (b'start\ndevice\t0\t000000\nstart', no + ok + ok),
            (b'device\t4\t000000\nstart\n', no + no),
            (b'device\t0\t000000\ndevice\t4\t000000\nstart\n', ok + no + ok),
            (b'device\t0\t000000\nstart\r\nstop\n', ok + no + ok),
            (b'device\t0\t000000\nbyte\tFF\nbyte\t0\nbyte\t00\t\nstart \n\n', ok + no * 5),
            (b'device\t0\t000000\n' + b'x' * 33 + b'\n' + b'stop' * 9000 + b'\nstop', ok + no * 2 + ok),
            (b'device\t0\t000000\nfetch\t2\nfetch\t0\n', ok + no + b'ff\t1\t000000\t000000\n'),
            (b'device\t0\tffffff\npins\t1000000\npins\tffffff\n', ok + no + ok)):
        assert trace.run_log(log) == header + lines, log


def test_trace_reader_of_both_parts():
    """The device that was made last says how many digits levels have, and how many low and high."""
    six, nine, no = b'-\t1\t000000\t000000\n', b'-\t1\t000000000\t000000000\n', b'refused\t7\n'
    for log, lines in (
            (b'pins\t000000000\ndevice34\t0\t000000000\npins\t000000001\npins\t000001\n', no + nine + nine + no),
            (b'device34\t3\t3ffffffff\nstart\n', nine + nine),
            (b'device34\t0\t400000000\nstart\n', no + no),
            (b'device34\t0\tfffffffff\n', no),
            (b'device34\t4\t000000000\n', no),
            (b'device34\t0\t000000\ndevice34\t0\t00000000\ndevice34\t0\t0000000000\n', no * 3),
            (b'device\t0\t000000000\ndevice\t0\t000000\npins\t000000000\npins\t000000\n', no + six + no + six),
            (b'device34\t0\t000000000\npins\t3ffffffff\npins\t400000000\npins\t3ffffffff\n',
             nine + nine + no + nine),
            (b'device34\t0\t000000000\ndevice\t0\t000000\npins\t000000000\npins\t000001\nstop\n',
             nine + six + no + six + six),
            (b'device\t0\t000000\ndevice34\t1\t000000000\npins\t000000\nreset', six + nine + no + nine),
            # A device line that is unreadable leaves the device and its digits.
            (b'device\t0\t000000\ndevice34\t0\t400000000\npins\t000000000\npins\t000000\n', six + no + no + six),
            (b'device34\t0\t000000000\ndevice\t4\t000000\npins\t000000\npins\t000000000\n', nine + no + no + nine)):
        assert trace.run_log(log) == trace.HEADER + lines, log


def test_trace_of_the_sister():
    """Pins 32 and 33, all there are of port 4: unmasked, one rings; the last is driven high, then low, and no other is."""
    log = ('device34\t1\t000000000\nstart\nbyte\t42\nbyte\t4d\nbyte\t00\npins\t100000000\n'
           'start\nbyte\t42\nbyte\t13\nbyte\t01\nstart\nbyte\t42\nbyte\t09\nbyte\t00\nstart\nbyte\t43\nfetch\t0\n')
    told = trace.run_log(log.encode()).split(b'\n')
    assert told[6] == b'-\t0\t000000000\t000000000'
    assert told[10] == b'ack\t0\t000000000\t200000000'
    assert told[14] == b'ack\t0\t200000000\t000000000'
    # The pointer has gone on from 09 to 05.
    assert told[17] == b'ff\t0\t200000000\t000000000'

@everywhere
def test_drives(which, port):
    bench = Bench(which, port)
    bench.write(0x0C, 0xFE)
    assert bench.drive(0) == 'high'
    bench.write(0x70, 0x01)
    assert bench.drive(0) == 'released'
    bench.write(0x5C, 0x01)
    assert bench.drive(0) == 'high'
    bench.write(0x70, 0x00)
    assert bench.drive(0) == 'released'
    bench.write(0x04, 0xFE)
    assert bench.outputs() == (1, 1, 0)


POINTERS = {
    24: ((0x02, 0x00), (0x45, 0x40), (0x65, 0x60), (0x75, 0x74), (0x5C, 0x5C), (0x76, 0x76), (0x74, 0x75), (0x00, 0x01),
         (0x6A, 0x68), (0x0E, 0x0C)),
    34: ((0x04, 0x00), (0x38, 0x30), (0x5C, 0x54), (0x62, 0x5E), (0x6F, 0x6D), (0x53, 0x53), (0x02, 0x03), (0x6D, 0x6E),
         (0x6E, 0x6F), (0x13, 0x0F), (0x09, 0x05), (0x6C, 0x68), (0x52, 0x4E), (0x37, 0x38)),
}


def test_pointer():
    for which, points in POINTERS.items():
        bench = Bench(which)
        for number, after in points:
            assert bench.pointer_after(number) == after, (which, number)
        latch = PARTS[which].latch
        bench.point(latch)
        bench.device.step(STOP, 0)
        bench.address(1)
        assert bench.device.step(FETCH, 0) == 0x00
        assert (bench.device.pointer, bench.device.bus) == (latch, DEAF)
        assert bench.device.step(FETCH, 1) == 0xFF
        bench.address(1)
        bench.device.step(FETCH, 1)
        assert (bench.device.pointer, bench.device.bus) == (latch + 1, SENDING)


# Over the ends of groups, from groups of one, around the top.
WALKS = {
    24: ((0x00, 0x01), (0x01, 0x02), (0x02, 0x04), (0x06, 0x08), (0x0A, 0x0C), (0x0E, 0x40), (0x45, 0x48), (0x4A, 0x4C),
         (0x4E, 0x50), (0x52, 0x54), (0x56, 0x58), (0x5A, 0x5C), (0x5C, 0x60), (0x65, 0x68), (0x6A, 0x6C), (0x6E, 0x70),
         (0x72, 0x74), (0x74, 0x75), (0x75, 0x76), (0x76, 0x00)),
    34: ((0x00, 0x01), (0x04, 0x05), (0x09, 0x0A), (0x0E, 0x0F), (0x13, 0x30), (0x38, 0x3A), (0x3E, 0x3F), (0x43, 0x44),
         (0x48, 0x49), (0x4D, 0x4E), (0x52, 0x53), (0x53, 0x54), (0x5C, 0x5E), (0x62, 0x63), (0x67, 0x68), (0x6C, 0x6D),
         (0x6E, 0x6F), (0x6F, 0x00)),
}


def test_walks():
    for which, points in WALKS.items():
        bench = Bench(which)
        for number, after in points:
            assert bench.pointer_after(number, OVER_MAP) == after, (which, number)
        # A fetch that is not acknowledged does not step.
        bench.point(0x02, OVER_MAP)
        bench.address(1)
        bench.device.step(FETCH, 0)
        assert (bench.device.pointer, bench.device.bus) == (0x02, DEAF)


def test_a_whole_round():
    """As many bytes as there are numbers, read or written, come back to where they began, by all of them once."""
    for which, count in ((24, 52), (34, 82)):
        for first in generate.KNOWN[which]:
            for event in ((BYTE, 0x00), (FETCH, 1)):
                bench, passed = Bench(which), []
                bench.point(first, OVER_MAP)
                if event[0] == FETCH:
                    bench.address(1)
                for _ in range(count):
                    passed.append(bench.device.pointer)
                    bench.device.step(*event)
                assert bench.device.pointer == first and sorted(passed) == generate.KNOWN[which], (which, first)


def test_mode_of_commands():
    """An acknowledged command's bit 7 is the mode; one that is not acknowledged changes neither pointer nor mode."""
    for which in PARTS:
        for mode in (IN_GROUP, OVER_MAP):
            for value in range(256):
                bench = Bench(which)
                bench.point(0x01, mode)
                bench.address()
                known = PARTS[which].map[value & 0x7F] is not None
                assert bench.device.step(BYTE, value) == ('ack' if known else 'nak'), (which, value)
                wanted = (value & 0x7F, value >> 7, FILLING) if known else (0x01, mode, DEAF)
                assert (bench.device.pointer, bench.device.mode, bench.device.bus) == wanted, (which, value)
    bench = Bench()
    bench.point(0x02, OVER_MAP)
    bench.address()
    assert bench.device.step(BYTE, 0x83) == 'nak'
    bench.address(1)
    bench.device.step(FETCH, 1)
    assert (bench.device.pointer, bench.device.mode) == (0x04, OVER_MAP)


def test_mode_outlives_the_bus():
    """START, STOP, other addresses, data, fetches and levels leave it; the next command has its own."""
    for which in PARTS:
        bench = Bench(which)
        bench.point(0x02, OVER_MAP)
        for event in ((STOP, 0), (START, 0), (BYTE, 0x50), (BYTE, 0x00), (START, 0), (STOP, 0), (LEVELS, 5), (FETCH, 1),
                      (START, 0), (BYTE, 0x00), (BYTE, 0x00), (STOP, 0), (START, 0), (BYTE, 0x41)):
            bench.device.step(*event)
            assert (bench.device.pointer, bench.device.mode) == (0x02, OVER_MAP), event
        assert bench.device.step(FETCH, 1) == 0x00 and bench.device.pointer == bench.device.next_over_map(0x02)
        # Bit 7 clear again: steps as ever.
        bench.point(PARTS[which].port_kind)
        bench.device.step(BYTE, 0x00)
        assert (bench.device.pointer, bench.device.mode) == (PARTS[which].port_kind, IN_GROUP)


def test_resets_clear_the_mode():
    resets = (((RESET, 0),), ((START, 0), (RESET, 7)), ((START, 0), (BYTE, 0x00), (BYTE, 0x06), (STOP, 0)))
    for which in PARTS:
        assert Device.make(which, 0, 0).image().mode == IN_GROUP
        for events in resets:
            bench = Bench(which)
            bench.point(0x04, OVER_MAP)
            for event in events:
                bench.device.step(*event)
            assert (bench.device.pointer, bench.device.mode, bench.device.bus) == (0x00, IN_GROUP, IDLE)
            bench.address(1)
            for _ in range(PARTS[which].ports):
                bench.device.step(FETCH, 1)
            assert bench.device.pointer == 0x00
        # A call that is spoiled resets nothing.
        bench = Bench(which)
        bench.point(0x04, OVER_MAP)
        for event in ((START, 0), (BYTE, 0x00), (BYTE, 0x06), (BYTE, 0x06), (STOP, 0)):
            bench.device.step(*event)
        assert (bench.device.pointer, bench.device.mode) == (0x04, OVER_MAP)


# The Device ID.

GO, HALT, ON, LAST = (START, 0), (STOP, 0), (FETCH, 1), (FETCH, 0)
ASKED, TOLD, OWN = (BYTE, 0xF8), (BYTE, 0xF9), (BYTE, 0x40)


def answered(device, *events):
    return [device.step(*event) for event in events]


def telling(which):
    """A device whose number is 123456h, about to tell it."""
    device = Device.make(which, 0, 0, 0x123456)
    assert answered(device, GO, ASKED, OWN, GO, TOLD) == ['-', 'ack', 'ack', '-', 'ack']
    return device


def test_device_id():
    """The highest byte first, round again after the lowest, until a fetch that is not acknowledged; by either lowest bit."""
    for which, choice, lowest in ((which, choice, lowest) for which in PARTS for choice in range(4) for lowest in (0, 1)):
        device, own = Device.make(which, choice, 0, 0x123456), (BYTE, 0x40 + 2 * choice + lowest)
        for _ in range(2):
            states = []
            for event in (GO, ASKED, own, GO, TOLD):
                assert device.step(*event) == ('-' if event is GO else 'ack')
                states.append(device.bus)
            assert states == [OPENED, ASKING, NAMED, REOPENED, TELLING] and device.place == 0
            assert answered(device, ON, ON, ON, ON) == [0x12, 0x34, 0x56, 0x12] and device.bus == TELLING
            # The last one does not step, and what is fetched after it is nobody's.
            assert answered(device, LAST, ON, LAST) == [0x34, 0xFF, 0xFF] and (device.bus, device.place) == (DEAF, 1)
    for number, told in ((0x000000, [0x00, 0x00, 0x00]), (0xFFFFFF, [0xFF, 0xFF, 0xFF]), (0x0000A5, [0x00, 0x00, 0xA5]),
                         (0xA50000, [0xA5, 0x00, 0x00])):
        assert answered(Device.make(34, 0, 0, number), GO, ASKED, OWN, GO, TOLD, ON, ON, LAST)[5:] == told


def test_device_id_spoiled():
    """One step is wrong: the answers from that step on, and where the bus is then."""
    other, read = (BYTE, 0x42), (BYTE, 0x41)
    for events, answers, bus in (
            # STOP, whether START follows or not.
            ((GO, ASKED, OWN, HALT, GO, TOLD, ON), ['-', '-', 'nak', 0xFF], DEAF),
            ((GO, ASKED, OWN, HALT, TOLD), ['-', 'nak'], IDLE),
            ((GO, ASKED, HALT, OWN, GO, TOLD), ['-', 'nak', '-', 'nak'], DEAF),
            ((GO, ASKED, OWN, GO, HALT, TOLD, ON), ['-', 'nak', 0xFF], IDLE),
            # No repeated START, or one too early.
            ((GO, ASKED, OWN, TOLD, ON, GO, TOLD), ['nak', 0xFF, '-', 'nak'], DEAF),
            ((GO, ASKED, GO, TOLD), ['-', 'nak'], DEAF),
            ((GO, ASKED, GO, OWN), ['-', 'ack'], CHOSEN),
            # Another device, all of them, or none is named.
            ((GO, ASKED, other, GO, TOLD), ['nak', '-', 'nak'], DEAF),
            ((GO, ASKED, (BYTE, 0x00), (BYTE, 0x06), HALT), ['nak', 'nak', '-'], IDLE),
            ((GO, ASKED, TOLD, OWN, GO, TOLD), ['nak', 'nak', '-', 'nak'], DEAF),
            ((GO, ASKED, ASKED, OWN, GO, TOLD), ['nak', 'nak', '-', 'nak'], DEAF),
            # F9h first, or nothing before it.
            ((GO, TOLD, OWN, GO, TOLD), ['nak', 'nak', '-', 'nak'], DEAF),
            ((GO, OWN, GO, TOLD), ['ack', '-', 'nak'], DEAF),
            # Named, and then a byte more.
            ((GO, ASKED, OWN, OWN, GO, TOLD), ['nak', '-', 'nak'], DEAF),
            ((GO, ASKED, OWN, ASKED, OWN, GO, TOLD), ['nak', 'nak', '-', 'nak'], DEAF),
            # Another address after the repeated START.
            ((GO, ASKED, OWN, GO, other, TOLD, GO, TOLD), ['nak', 'nak', '-', 'nak'], DEAF),
            ((GO, ASKED, OWN, GO, read, GO, TOLD), ['ack', '-', 'nak'], DEAF),
            # A byte, START or STOP while the number is told.
            ((GO, ASKED, OWN, GO, TOLD, ON, TOLD, ON), [0x12, 'nak', 0xFF], DEAF),
            ((GO, ASKED, OWN, GO, TOLD, ON, GO, ON, TOLD), [0x12, '-', 0xFF, 'nak'], DEAF),
            ((GO, ASKED, OWN, GO, TOLD, ON, HALT, ON), [0x12, '-', 0xFF], IDLE),
            # A reset at each place.
            *(((GO, ASKED, OWN, GO)[:n] + ((RESET, 0), TOLD, ON), ['-', 'nak', 0xFF], IDLE) for n in range(5)),
            ((GO, ASKED, OWN, GO, TOLD, ON, (RESET, 0), ON), [0x12, '-', 0xFF], IDLE)):
        for which in PARTS:
            device = Device.make(which, 0, 0, 0x123456)
            assert answered(device, *events)[-len(answers):] == answers, events
            assert device.bus == bus, events
            # The next one, done right, is told all of it.
            assert answered(device, GO, ASKED, OWN, GO, TOLD, ON, LAST)[4:] == ['ack', 0x12, 0x34], events


def test_device_id_goes_on():
    """What spoils nothing: a second START, F8h and the name again, levels, and fetches that nobody answers."""
    for which in PARTS:
        for events in ((GO, ASKED, OWN, GO, GO, GO), (GO, GO, ASKED, OWN, GO), (GO, ASKED, OWN, GO, ASKED, OWN, GO),
                       (GO, (LEVELS, 1), ASKED, (LEVELS, 0), OWN, (LEVELS, 3), GO, (LEVELS, 0)),
                       (GO, ON, ASKED, ON, OWN, LAST, GO, LAST)):
            device = Device.make(which, 0, 0, 0x123456)
            answers = answered(device, *events)
            assert 'nak' not in answers and set(answers) <= {'-', 'ack', 0xFF}, events
            assert answered(device, TOLD, ON, (LEVELS, 2), ON, LAST) == ['ack', 0x12, '-', 0x34, 0x56], events
        # F8h after the repeated START asks anew: only the name and one more START lead on.
        device = Device.make(which, 0, 0, 0x123456)
        assert answered(device, GO, ASKED, OWN, GO, ASKED)[4] == 'ack' and device.bus == ASKING
        assert answered(device, GO, TOLD) == ['-', 'nak']


def test_after_the_repeated_start():
    """Addresses and the general call are as ever."""
    for which, part in PARTS.items():
        bench = Bench(which)
        answered(bench.device, GO, ASKED, OWN, GO)
        assert answered(bench.device, OWN, (BYTE, part.output), (BYTE, 0x12)) == ['ack'] * 3
        answered(bench.device, (STOP, 0), GO, ASKED, OWN)
        bench.point(part.output)
        answered(bench.device, GO, ASKED, OWN)
        bench.address(1)
        assert answered(bench.device, LAST) == [0x12]
        answered(bench.device, GO, ASKED, OWN, GO, (BYTE, 0x00), (BYTE, 0x06), HALT)
        assert bench.device.registers[part.output] == 0xFF


# What a byte gets and where it leads; every other byte gets no acknowledge and deafens.
BYTES_HEARD = {
    OPENED: {0x40: CHOSEN, 0x41: SENDING, 0x00: CALL, 0xF8: ASKING},
    ASKING: {0x40: NAMED, 0x41: NAMED},
    NAMED: {},
    REOPENED: {0x40: CHOSEN, 0x41: SENDING, 0x00: CALL, 0xF8: ASKING, 0xF9: TELLING},
    TELLING: {},
}


def test_every_byte_of_the_device_id():
    """All bytes in all of its states at all addresses; of the rest of the state only F9h that is heard sets the place."""
    for which, choice in ((which, choice) for which in PARTS for choice in range(4)):
        device = Device.make(which, choice, 0, 0x123456)
        device.pointer, device.mode = PARTS[which].latch, OVER_MAP
        before = device.image()
        for bus, heard in BYTES_HEARD.items():
            for value in range(256):
                device.bus, device.place = bus, 2
                answer, after = device.step(BYTE, value), heard.get(value - 2 * choice if 0x40 <= value < 0x48 else value)
                assert answer == ('nak' if after is None else 'ack'), (bus, value)
                assert (device.bus, device.place) == (DEAF if after is None else after, 0 if after == TELLING else 2)
        assert device.image()._replace(bus=IDLE, place=0) == before


def test_every_other_event_of_the_device_id():
    """In each of the twelve states."""
    for which in PARTS:
        sound = Device.make(which, 0, 5, 0x123456).image()._replace(pointer=PARTS[which].latch, mode=OVER_MAP, place=1)
        for bus in range(12):
            image = sound._replace(bus=bus)
            for event, wanted in (((START, 0), image._replace(bus=REOPENED if bus in (NAMED, REOPENED) else OPENED)),
                                  ((LEVELS, 5), image),
                                  ((RESET, 0), image._replace(bus=IDLE, pointer=0x00, mode=IN_GROUP, place=0)),
                                  ((STOP, 0), image._replace(bus=IDLE))):
                device = Device(which, image)
                # Armed, STOP resets as ever.
                if (event, bus) == ((STOP, 0), ARMED):
                    wanted = sound._replace(bus=IDLE, pointer=0x00, mode=IN_GROUP, place=0)
                assert device.step(*event) == '-' and device.image() == wanted, (event, bus)
            for acknowledged in (0, 1):
                device = Device(which, image)
                told = device.step(FETCH, acknowledged)
                if bus == TELLING:
                    after = image._replace(place=2) if acknowledged else image._replace(bus=DEAF)
                    assert (told, device.image()) == (0x34, after)
                elif bus != SENDING:
                    assert (told, device.image()) == (0xFF, image), bus


def test_f9_elsewhere():
    """Reserved as a command, taken as data, unheard where nobody listens, and what ends a call or a read."""
    for which, part in PARTS.items():
        sound = Device.make(which, 0, 0, 0x123456).image()._replace(pointer=part.output, place=2)
        for bus, answer, after in ((IDLE, 'nak', IDLE), (DEAF, 'nak', DEAF), (CHOSEN, 'nak', DEAF), (CALL, 'nak', DEAF),
                                   (ARMED, 'nak', DEAF), (SENDING, 'nak', DEAF)):
            device = Device(which, sound._replace(bus=bus))
            assert device.step(*TOLD) == answer and device.image() == sound._replace(bus=after), bus
        device = Device(which, sound._replace(bus=FILLING))
        assert device.step(*TOLD) == 'ack' and device.registers[part.output] == 0xF9 and device.place == 2


def test_the_device_id_leaves_the_rest():
    """Pointer, mode, registers, marks and INT are as before, and the next transaction goes on from there."""
    for which, part in PARTS.items():
        for mode, second in ((IN_GROUP, 0xFF), (OVER_MAP, 0x00)):
            bench = rung(which)
            # The last of the outputs: after it comes the first of them, or that of the polarities.
            bench.point(part.named['output'].last, mode)
            bench.device.step(BYTE, 0x01)
            bench.point(part.named['output'].last, mode)
            before = bench.device.image()
            assert answered(bench.device, GO, ASKED, OWN, GO, TOLD, ON, ON, ON, ON, LAST)[5:] == [0x00] * 5
            assert bench.device.image() == before._replace(bus=DEAF, place=1) and not bench.quiet()
            bench.address(1)
            assert answered(bench.device, ON, ON) == [0x01, second]
            # At an input port, pins that ring are not settled by it.
            bench.point(0x00)
            answered(bench.device, HALT, GO, ASKED, OWN, GO, TOLD, ON, LAST)
            assert bench.device.image().status == part.limit - 1
            bench.write(0x04, 0x5A)
            assert bench.read(0x04) == 0x5A


def test_resets_keep_the_number():
    """And take the place back to 0, in the middle of the number and elsewhere."""
    software = (GO, (BYTE, 0x00), (BYTE, 0x06), HALT)
    for which in PARTS:
        assert Device.make(which, 0, 0, 0x123456).image()[-2:] == (0x123456, 0)
        for events in (((RESET, 0),), (HALT, (RESET, 7)), software, (LAST,) + software):
            device = telling(which)
            assert answered(device, ON, ON) == [0x12, 0x34] and device.place == 2
            answered(device, *events)
            assert (device.number, device.place, device.bus) == (0x123456, 0, IDLE), events
            assert answered(device, GO, ASKED, OWN, GO, TOLD, ON, ON, LAST)[5:] == [0x12, 0x34, 0x56]
        # Without a reset the place is left where it is, until F9h is heard again.
        device = telling(which)
        answered(device, ON, ON, HALT, GO, OWN, (BYTE, 0x00), (LEVELS, 1), GO, (BYTE, 0x41), ON, HALT, GO, ASKED, OWN, GO)
        assert device.place == 2
        assert answered(device, TOLD, LAST) == ['ack', 0x12]


def test_devices_of_a_log_have_number_0():
    log = '%s\nstart\nbyte\tf8\nbyte\t45\nstart\nbyte\tf9\nfetch\t1\nfetch\t1\nfetch\t1\nfetch\t0\nfetch\t1\n'
    for line in ('device\t2\t000000', 'device34\t2\t000000000'):
        told = [answer.split(b'\t')[0] for answer in trace.run_log((log % line).encode()).split(b'\n')[1:-1]]
        assert told == [b'-', b'-', b'ack', b'ack', b'-', b'ack', b'00', b'00', b'00', b'00', b'ff']


def rung(which):
    """Every pin unmasked and away from its reference."""
    bench = Bench(which)
    bench.point(PARTS[which].mask)
    for _ in range(PARTS[which].ports):
        bench.device.step(BYTE, 0x00)
    bench.device.step(LEVELS, PARTS[which].limit - 1)
    return bench


def test_a_walk_of_reads_settles_its_ports():
    """Each input port that is fetched is settled and no other; input status, on the way, settles none."""
    for which, part in PARTS.items():
        bench, every = rung(which), part.limit - 1
        bench.point(part.named['input status'].first, OVER_MAP)
        bench.address(1)
        while bench.device.pointer != 0x00:
            bench.device.step(FETCH, 1)
            assert bench.device.image().status == every
        for port in range(part.ports):
            bench.device.step(FETCH, 1)
            assert bench.device.image().status == every & ~((1 << 8 * (port + 1)) - 1)
        assert bench.quiet()


def test_a_walk_of_writes_passes_every_register():
    """Read-only ones take nothing, clear ones settle by their bits, the others are stored."""
    for which, part in PARTS.items():
        bench = rung(which)
        registers, clear = bench.device.image().registers, part.named['interrupt clear']
        bench.point(part.named['interrupt status'].first, OVER_MAP)
        written = {}
        while bench.device.pointer != 0x00:
            number = bench.device.pointer
            value = 0x01 if part.map[number] is clear else 0x00 if part.map[number].name == 'interrupt edge' else 0xA5
            assert bench.device.step(BYTE, value) == 'ack'
            written[number] = value
        image = bench.device.image()
        for number in range(128):
            wanted = written.get(number, registers[number]) & part.stored[number]
            assert image.registers[number] == wanted, (which, number)
        lowest = sum(1 << 8 * port for port in range(part.ports))
        assert image.status == part.limit - 1 & ~lowest and image.reference == lowest


def test_the_map_of_the_sister():
    """Sixteen groups; the numbers that no group has are 14-2F, 39, 5D and 70-7F."""
    part = PARTS[34]
    assert len(part.groups) == 16
    assert generate.RESERVED[34] == [*range(0x14, 0x30), 0x39, 0x5D, *range(0x70, 0x80)]
    assert part.settings == (*range(0x05, 0x0A), *range(0x0F, 0x14), 0x53, *range(0x68, 0x6D))
    assert (part.ports, part.pins, part.digits, part.most_writes) == (5, 34, 9, 26)
    assert PARTS[24].settings == (0x04, 0x05, 0x06, 0x0C, 0x0D, 0x0E, 0x5C, 0x70, 0x71, 0x72)
    # What is not eight bits wide.
    assert {n: part.bits[n] for n in range(128) if part.map[n] and part.bits[n] != 0xFF} == {
        **dict.fromkeys((0x04, 0x09, 0x0E, 0x13, 0x3E, 0x43, 0x48, 0x4D, 0x52, 0x62, 0x67, 0x6C), 0x03),
        0x38: 0x0F, 0x5C: 0x0F, 0x53: 0x1F}


def test_defaults_of_the_sister():
    defaults = {**dict.fromkeys((*range(0x05, 0x09), *range(0x0F, 0x13), *range(0x30, 0x38), *range(0x44, 0x48),
                                 *range(0x49, 0x4D)), 0xFF),
                **dict.fromkeys((0x09, 0x13, 0x48, 0x4D), 0x03), 0x38: 0x0F}
    spoiled = Bench(34)
    for number in generate.KNOWN[34]:
        spoiled.point(number)
        spoiled.device.step(BYTE, 0x5A)
    armed = Device(34, spoiled.device.image())
    for event in ((START, 0), (BYTE, 0x00), (BYTE, 0x06), (STOP, 0)):
        armed.step(*event)
    spoiled.device.step(RESET, 0)
    for device in (Device.make(34, 0, 0), spoiled.device, armed):
        assert device.image().registers == tuple(defaults.get(number, 0) for number in range(128))
        assert device.outputs() == (1, 0, 0)


def test_unused_bits():
    """Ignored on write, 0 as they are read, whatever is at the pins; and no pin comes of them."""
    for which, part in PARTS.items():
        bench = Bench(which, levels=part.limit - 1)
        for number in generate.KNOWN[which]:
            for value in (0xFF, 0x00, 0xFF & ~part.bits[number], 0xA5):
                bench.point(number)
                bench.device.step(BYTE, value)
                bench.point(number)
                bench.address(1)
                told = bench.device.step(FETCH, 0)
                assert told & ~part.bits[number] == 0, (which, number, value)
                if part.map[number].stored:
                    assert told == bench.device.registers[number] == value & part.bits[number]
            line, low, high = bench.device.outputs()
            assert low | high < part.limit and bench.device.image().status < part.limit
    bench = Bench(34, levels=(1 << 34) - 1)
    for number, told in ((0x13, 0x03), (0x53, 0x1F), (0x38, 0x0F), (0x5C, 0x0F), (0x6F, 0xFF), (0x04, 0x03), (0x67, 0x03)):
        bench.point(number)
        bench.device.step(BYTE, 0xFF)
        bench.point(number)
        bench.address(1)
        assert bench.device.step(FETCH, 0) == told, number
    # All of them outputs, unmasked, latched, with every field: the six that are none stay out.
    for name, value in (('interrupt mask', 0x00), ('interrupt edge', 0xFF), ('input latch', 0xFF), ('polarity', 0xFF)):
        group = PARTS[34].named[name]
        bench.point(group.first)
        for _ in range(group.first, group.last + 1):
            bench.device.step(BYTE, value)
    bench.device.step(LEVELS, 0)
    assert bench.device.image().status == (1 << 34) - 1
    bench.write(0x5C, 0x00)
    bench.point(0x0F)
    for _ in range(5):
        bench.device.step(BYTE, 0x00)
    assert bench.device.outputs() == (1, 0, (1 << 34) - 1)
    # A clear bit of a pin that is none settles nothing.
    before = bench.device.image()
    bench.point(0x62)
    bench.device.step(BYTE, 0xFC)
    assert bench.device.image()._replace(pointer=0, bus=0) == before._replace(pointer=0, bus=0)


@everywhere
def test_latched_pulse(which, port):
    bench = Bench(which, port)
    bench.write(0x48, 0x01)
    bench.write(0x54, 0xFE)
    bench.pins(1)
    bench.pins(0)
    assert not bench.quiet()
    assert bench.read(0x6C) == 0x01 and not bench.quiet()
    assert bench.read(0x58) == 0x01 and not bench.quiet()
    assert bench.read(0x00) == 0x01 and bench.quiet()
    assert bench.read(0x00) == 0x00


@everywhere
def test_unlatched_pulse(which, port):
    bench = Bench(which, port)
    bench.write(0x54, 0xFE)
    bench.pins(1)
    assert not bench.quiet()
    bench.pins(0)
    assert bench.quiet()


@everywhere
def test_rising_field(which, port):
    bench = Bench(which, port)
    bench.write(0x60, 0x01)
    bench.write(0x54, 0xFE)
    bench.pins(1)
    bench.pins(0)
    assert not bench.quiet()
    bench.write(0x68, 0xFE)
    assert not bench.quiet()
    bench.write(0x68, 0x01)
    assert bench.quiet()
    bench.write(0x54, 0xFF)
    bench.pins(1)
    bench.pins(0)
    bench.write(0x54, 0xFE)
    assert bench.quiet()


def test_general_call():
    for which, events, reset in ((which, *case) for which in PARTS for case in (
            (((STOP, 0),), True), (((START, 0), (STOP, 0)), False), (((BYTE, 6), (STOP, 0)), False),
            (((LEVELS, 5), (FETCH, 0), (STOP, 0)), True))):
        bench = Bench(which)
        bench.write(0x04, 0x12)
        device = bench.device
        device.step(START, 0)
        assert device.step(BYTE, 0x00) == 'ack' and device.bus == CALL
        assert device.step(BYTE, 0x06) == 'ack' and device.bus == ARMED
        for event in events:
            device.step(*event)
        assert device.bus == IDLE
        assert device.registers[PARTS[which].output] == (0xFF if reset else 0x12)
        assert (device.pointer == 0x00) == reset


def test_addresses_and_commands():
    for which, choice in ((which, choice) for which in PARTS for choice in range(4)):
        device = Device.make(which, choice, 0)
        for value in range(256):
            device.step(START, 0)
            assert device.bus == OPENED
            mine = value in (0x40 + 2 * choice, 0x41 + 2 * choice, 0x00, 0xF8)
            assert device.step(BYTE, value) == ('ack' if mine else 'nak')
    for which, count, last in ((24, 52, 0x76), (34, 82, 0x6F)):
        bench = Bench(which)
        known = {n for group in PARTS[which].groups for n in range(group.first, group.last + 1)}
        assert len(known) == count and 0x77 not in known and (0x03 in known) == (which == 34)
        for value in range(256):
            bench.address()
            assert bench.device.step(BYTE, value) == ('ack' if value & 0x7F in known else 'nak')
        assert bench.device.pointer == last


def test_reset():
    for which, before, after in ((24, 0xF0F0F0, 0x0F0F0F), (34, 0x1F0F0F0F0, 0x20F0F0F0F)):
        bench = Bench(which, levels=before, choice=3)
        bench.write(0x54, 0, 0, 0)
        bench.write(0x48, 0xFF)
        bench.pins(after)
        assert not bench.quiet()
        bench.device.step(RESET, 0)
        image = bench.device.image()
        assert image == Device.make(which, 3, after).image() and image.bus == IDLE and image.pointer == 0
        assert (image.held, image.edge, image.reference) == (0, 0, after)
        assert (image.status, image.line) == (0, QUIET)


@everywhere
def test_polarity_is_not_an_event(which, port):
    bench = Bench(which, port)
    bench.write(0x54, 0x00)
    bench.write(0x08, 0xFF)
    shown = 0x03 if port == 4 else 0xFF
    assert bench.quiet() and bench.read(0x6C) == shown and bench.read(0x00) == shown and bench.quiet()


@everywhere
def test_configuration(which, port):
    """Pins 0 and 1 ring, are quiet as outputs, and ring again as inputs: 0 while it differs, 1 is latched."""
    bench = Bench(which, port)
    bench.write(0x54, 0xFC)
    bench.write(0x48, 0x02)
    bench.pins(3)
    assert bench.read(0x58) == 0x03
    bench.write(0x0C, 0xFC)
    assert bench.quiet() and bench.image().held == 0
    bench.pins(0)
    bench.pins(3)
    bench.write(0x0C, 0xFF)
    image = bench.image()
    assert (image.status, image.reference, image.held, image.edge) == (3, 0, 2, 0)
    bench.pins(0)
    assert bench.read(0x58) == 0x02 and bench.read(0x00) == 0x02 and bench.quiet()
    assert bench.read(0x00) == 0x00


def turned(place, *acts, latch=0, field=0):
    """A bench whose pin 0, at level 0 and unmasked, was an output, whose level went to 1, and is an input again.

    While it was an output, the acts happened after that: a write is a pair, levels a number, a fetch of port 0 None.
    """
    bench = Bench(*place)
    bench.write(0x54, 0xFE)
    bench.write(0x48, latch)
    bench.write(0x60, field)
    bench.write(0x0C, 0xFE)
    bench.pins(1)
    for act in acts:
        if act is None:
            bench.read(0x00)
        elif isinstance(act, int):
            bench.pins(act)
        else:
            bench.write(*act)
    assert bench.quiet()
    bench.write(0x0C, 0xFF)
    return bench


@everywhere
def test_output_turned_to_input(*place):
    for bench, latched in ((turned(place), False), (turned(place, latch=1), True), (turned(place, (0x48, 0x01)), True),
                           (turned(place, (0x48, 0x00), latch=1), False), (turned(place, (0x68, 0xFE)), False),
                           (turned(place, 0, 1, latch=1), True)):
        assert not bench.quiet() and bench.image().reference == 0
        assert bench.read(0x6C) == 0x01 and bench.read(0x58) == 0x01
        bench.pins(0)
        assert bench.quiet() == (not latched)
        assert bench.read(0x6C) == (0x01 if latched else 0x00)
        bench.read(0x00)
        assert bench.quiet()
    for latch in (0, 1):
        # Back before the turn, fetched or cleared as an output, or with an edge field: nothing rings.
        for acts, field in (((0,), 0), ((None,), 0), (((0x68, 0x01),), 0), ((), 1), ((), 2), ((), 3)):
            bench = turned(place, *acts, latch=latch, field=field)
            assert bench.quiet() and bench.read(0x58) == 0x00
        # Fetched as an output, its reference is the level of then, until a reset.
        bench = turned(place, None, 0, latch=latch)
        assert not bench.quiet() and bench.image().reference == 1
        bench.device.step(RESET, 0)
        assert bench.quiet() and bench.image().reference == 0
        # With a field the difference is held all the same, and rings once the field is 00.
        bench = turned(place, latch=latch, field=1)
        bench.write(0x60, 0x00)
        assert not bench.quiet()
        # Masked, turned, cleared, unmasked: the host's way to stay quiet.
        bench = turned(place, (0x54, 0xFF), latch=latch)
        assert bench.quiet()
        bench.write(0x68, 0x01)
        bench.write(0x54, 0xFE)
        assert bench.quiet()
        bench = turned(place, (0x54, 0xFF), latch=latch)
        bench.write(0x54, 0xFE)
        assert not bench.quiet()


@everywhere
def test_input_stays_input(which, port):
    """Configuration 1 to 1 keeps every mark: pin 0 is held, pin 1 has its edge."""
    bench = Bench(which, port)
    bench.write(0x54, 0xFC)
    bench.write(0x48, 0x01)
    bench.write(0x60, 0x04)
    bench.pins(3)
    bench.pins(0)
    before = bench.image()
    assert (before.status, before.held, before.edge) == (3, 1, 2)
    bench.write(0x0C, 0xFF)
    after = bench.image()
    assert (after.status, after.held, after.edge, after.reference) == (3, 1, 2, 0)


def test_limits():
    for which, largest in ((24, 0xFFFFFF), (34, 0x3FFFFFFFF)):
        assert Device.make(which, 0, largest).image().level == largest
        assert Device.make(which, 0, largest + 1) == ('refused', 2)
        assert Device.make(which, 4, 0) == ('refused', 2)
        assert Device.make(which, 3, largest, 0xFFFFFF).image().number == 0xFFFFFF
        for arguments in ((0, 0, 0x1000000), (0, 0, 1 << 31), (4, 0, 0x1000000), (0, largest + 1, 0xFFFFFFFF)):
            assert Device.make(which, *arguments) == ('refused', 2)
        device = Device.make(which, 0, 0)
        before = device.image()
        for kind, arg, number in ((6, 0, 1), (1 << 31, 1 << 40, 1), (BYTE, 256, 2), (FETCH, 2, 2),
                                  (LEVELS, largest + 1, 2), (LEVELS, 1 << 63, 2), (BYTE, 1 << 32, 2), (FETCH, 1 << 32, 2)):
            assert device.step(kind, arg) == ('refused', number) and device.image() == before
        for kind, arg in ((BYTE, 255), (FETCH, 1), (LEVELS, largest), (START, 1 << 63), (STOP, 1 << 63),
                          (RESET, 1 << 63)):
            assert not isinstance(device.step(kind, arg), tuple)


def with_entry(image, number, value):
    registers = list(image.registers)
    registers[number] = value
    return image._replace(registers=tuple(registers))


# An entry where nothing is stored, or with an unused bit.
WRONG_ENTRIES = {
    24: ((0x5C, 8), (0x00, 1), (0x03, 1), (0x58, 1), (0x69, 128), (0x6E, 1), (0x7F, 1)),
    34: ((0x53, 0x20), (0x53, 0x80), (0x09, 0x04), (0x0E, 0x80), (0x13, 0x07), (0x38, 0x1F), (0x3E, 0x04), (0x43, 0x04),
         (0x48, 0x83), (0x4D, 0x07), (0x5C, 0x10), (0x6C, 0x04), (0x00, 1), (0x04, 1), (0x14, 1), (0x39, 1), (0x52, 1),
         (0x5D, 1), (0x5E, 1), (0x62, 1), (0x67, 2), (0x70, 1), (0x7F, 1)),
}
# What is at its limit, and the numbers of the other part that this one has not.
RIGHT_ENTRIES = {24: ((0x5C, 7), (0x76, 0xFF), (0x0E, 0xFF)), 34: ((0x53, 0x1F), (0x6F, 0xFF), (0x38, 0x0F), (0x6C, 0x03))}
WRONG_POINTERS = {24: (0x03, 0x3A, 0x7F, 0x80), 34: (0x14, 0x39, 0x5D, 0x70, 0x76, 0x7F, 0x80, 0x84)}


def broken_images(which, sound):
    """An image broken in every way, and in no other at the same time."""
    limit = PARTS[which].limit
    return (*(sound._replace(pointer=pointer) for pointer in WRONG_POINTERS[which]),
            *(sound._replace(bus=bus) for bus in (12, 13, 0x80, 0xFF)), sound._replace(choice=4),
            *(kept_image(which, sound._replace(**{name: limit})) for name in ('level', 'reference', 'held', 'edge')),
            *(kept_image(which, with_entry(sound, *entry)) for entry in WRONG_ENTRIES[which]),
            *(sound._replace(status=sound.status ^ 1 << i) for i in range(64)),
            sound._replace(line=1 - sound.line), *(sound._replace(line=line) for line in (2, 3, 0x80, 0xFF)),
            *(sound._replace(mode=mode) for mode in (2, 3, 0x80, 0x81, 0xFF)),
            *(sound._replace(number=number) for number in (0x1000000, 0x1000001, 0x80000000, 0xFFFFFFFF)),
            *(sound._replace(place=place) for place in (3, 4, 0x80, 0xFF)))


def test_broken_images():
    for which, part in PARTS.items():
        sound = Device.make(which, 1, 5).image()
        for image in broken_images(which, sound):
            for kind, arg in ((START, 0), (6, 0), (BYTE, 256)):
                assert Device(which, image).step(kind, arg) == ('refused', 3), (which, image)
        for image in (sound, sound._replace(bus=11), sound._replace(choice=3), sound._replace(edge=part.limit - 1),
                      sound._replace(mode=OVER_MAP), sound._replace(number=0xFFFFFF), sound._replace(place=2),
                      sound._replace(pointer=max(generate.KNOWN[which])),
                      *(with_entry(sound, *entry) for entry in RIGHT_ENTRIES[which])):
            assert Device(which, image).step(START, 0) == '-', (which, image)


def test_status_and_line_are_judged():
    """Pins 0 to 2 have left their reference: 0 is unmasked, 1 is masked, 2 an output."""
    for which, part in PARTS.items():
        sound = with_entry(Device.make(which, 1, 0).image()._replace(level=7), part.mask, 0xFA)
        sound = with_entry(sound, part.configuration, 0xFB)
        for status in range(16):
            for line in (ASSERTED, QUIET):
                answer = Device(which, sound._replace(status=status, line=line)).step(START, 0)
                assert answer == ('-' if (status, line) == (1, ASSERTED) else ('refused', 3)), (status, line)
        assert kept_image(which, sound) == sound._replace(status=1, line=ASSERTED)


def want_kept(device, where):
    """What is kept is what the rules work out of pins and registers."""
    image = device.image()
    assert (image.status, image.line) == (pin_set(device.status_bits()), device.line_by(device.status_bits())), where


def test_status_and_line_are_kept():
    """At power-on, after every step from any image that is not broken, and all along a log."""
    rng = random.Random(9)
    for which in PARTS:
        for _ in range(2000):
            read = probe.read_line(generate.image_line(rng, which)[:-1])
            if read:
                device = Device(which, read[0])
                if not isinstance(device.step(*read[1:]), tuple):
                    want_kept(device, read)
        for _ in range(10):
            session = trace.Session()
            for event in trace.read_log(generate.trace_log(rng, which)):
                session.answer(event)
                want_kept(session.device, event)


@everywhere
def test_what_writes_status_and_line(which, port):
    """Each operation that can change them, on one pin that rings or stops to."""
    def after(kept, *acts):
        """Writes are pairs, levels plain numbers."""
        bench = Bench(which, port)
        for act in acts:
            if isinstance(act, int):
                bench.pins(act)
            else:
                bench.write(*act)
        image = bench.image()
        assert (image.status, image.line) == kept, acts
        return bench

    rings, quiet = (0x01, ASSERTED), (0, QUIET)
    latched, unmasked, up, down = (0x48, 0x01), (0x54, 0xFE), 0x01, 0
    after(rings, unmasked, up)
    after(quiet, unmasked, up, down)
    after(rings, up, unmasked)
    after(quiet, unmasked, up, (0x54, 0xFF))
    after(quiet, unmasked, up, (0x0C, 0xFE))
    after(quiet, unmasked, up, (0x68, 0x01))
    after(rings, unmasked, up, (0x68, 0xFE))
    after(quiet, unmasked, up, (0x60, 0x01))
    after(rings, unmasked, (0x60, 0x01), up, down)
    after(quiet, unmasked, (0x60, 0x01), up, down, (0x60, 0x00))
    after(rings, unmasked, latched, up, down)
    after(quiet, unmasked, latched, up, down, (0x48, 0x00))
    for event in ((RESET, 0), (FETCH, 0)):
        bench = after(rings, unmasked, latched, up, down)
        if event[0] == FETCH:
            bench.write(0x00)
            bench.address(1)
        bench.device.step(*event)
        assert (bench.image().status, bench.image().line) == quiet
    bench = after(rings, unmasked, up)
    assert bench.read(0x58) == 1 and not bench.quiet()
    bench.point(PARTS[which].named['interrupt status'].first)
    bench.address(1)
    told = [bench.device.step(FETCH, 1) for _ in range(PARTS[which].ports)]
    assert told == [int(k == port) for k in range(PARTS[which].ports)]


NOT_SHOWN = {24: (0x03, 0x77, 0x7F, 0x80, 0xD4, 0x100, 0x154, 0xFFFFFF54),
             34: (0x14, 0x39, 0x5D, 0x70, 0x76, 0x7F, 0x80, 0xC9, 0x100, 0x149, 0xFFFFFF49)}


def test_views():
    """Pin 0 is unmasked and has left its reference, pin 8 is driven high, pin 9 low."""
    for which in PARTS:
        bench = Bench(which)
        bench.write(0x54, 0xFE)
        bench.write(0x05, 0xFD)
        bench.write(0x0D, 0xFC)
        bench.pins(1)
        sound = bench.device.image()
        shown = [(numbered(which, number), told) for number, told in (
            (0x00, 0x01), (0x58, 0x01), (0x0D, 0xFC), (0x68, 0x00), (0x4C, 0x00))]
        for number, told in shown + [(number, ('refused', 2)) for number in NOT_SHOWN[which]]:
            device = Device(which, sound)
            views_told = (device.told_byte(number), device.told_int(), device.told_drives())
            assert views_told == (told, 0, (0x200, 0x100)), (which, number)
            assert device.image() == sound
        for image in broken_images(which, sound):
            device = Device(which, image)
            for number in (0x00, 0x39, 0x80, 0x100):
                assert device.told_byte(number) == ('refused', 3), (image, number)
            assert device.told_int() == device.told_drives() == ('refused', 3), image


def test_views_reader():
    rng = random.Random(8)
    for which, drives in ((24, b'\t000000\t000000\n'), (34, b'\t000000000\t000000000\n')):
        sound = Device.make(which, 2, 5).image()
        for image, number, answer in (
                (sound, 0x00, b'05\t1' + drives), (sound, 0x39, b'refused\t2\t1' + drives),
                (sound._replace(bus=12), 0x00, b'refused\t3\trefused\t3\trefused\t3\n')):
            line = ('%s\t%08x' % (probe.image_fields(image), number)).encode()
            assert views.run_lines(which, line) == views.run_lines(which, line + b'\n') == answer
        for _ in range(100):
            assert views.run_lines(which, generate.spoiled_line(rng, line) + b'\n') == b'refused\t7\n'


def events_of(*events):
    return b''.join(generate.event_bytes(*(event + (0, 0))[:3]) for event in events)


# Events that end a burst, and the number of each. The 24-pin part refuses every third word but 0; of its sister it is the
# argument's upper half, which START, STOP and reset ignore as they do the rest.
REFUSED = {
    24: (((6, 0, 0), 1), ((6, 0, 1), 1), ((BYTE, 256, 0), 2), ((START, 0, 1), 2), ((STOP, 0, 1 << 31), 2),
         ((RESET, 0, 256), 2), ((LEVELS, 0, 1), 2), ((BYTE, 0, 1), 2), ((FETCH, 0, 1), 2), ((1 << 31, 256, 1), 1)),
    34: (((6, 0, 0), 1), ((6, 0, 1), 1), ((BYTE, 256, 0), 2), ((BYTE, 0, 1), 2), ((FETCH, 1, 1), 2), ((FETCH, 2, 0), 2),
         ((LEVELS, 0, 4), 2), ((LEVELS, 0, 1 << 31), 2), ((1 << 31, 256, 1), 1)),
}
IGNORED = ((START, 7, 1), (START, 0, 0xFFFFFFFF), (STOP, 3, 1 << 31), (RESET, 0, 4))


def test_bursts():
    """The loss of the README: pin 0 unmasked over the bus at choice 2, then its fibre opens."""
    for which, part in PARTS.items():
        events = ((START, 7), (BYTE, 0x44), (BYTE, part.mask), (BYTE, 0xFE), (LEVELS, 1), (FETCH, 1))
        answers = ['-', 'ack', 'ack', 'ack', '-', 0xFF]
        data = events_of(*events)
        for asked in range(len(events) + 1):
            one, single = Device.make(which, 2, 0), Device.make(which, 2, 0)
            assert one.burst(data, asked, 2 * asked) == (0, asked, answers[:asked])
            assert [single.step(*event) for event in events[:asked]] == answers[:asked]
            assert one.image() == single.image()
        for bad, number in REFUSED[which]:
            for place in range(len(events)):
                one, single = Device.make(which, 2, 0), Device.make(which, 2, 0)
                spoiled = data[:12 * place] + events_of(bad) + data[12 * place:]
                assert one.burst(spoiled, 7, 14) == (number, place, answers[:place]), (which, bad)
                for event in events[:place]:
                    single.step(*event)
                assert one.image() == single.image()


def test_device_id_in_a_burst():
    """Cut anywhere, it is what single events make of it."""
    events = (GO, ASKED, OWN, GO, TOLD, ON, ON, ON, ON, ON, LAST, ON)
    answers = ['-', 'ack', 'ack', '-', 'ack', 0x12, 0x34, 0x56, 0x12, 0x34, 0x56, 0xFF]
    for which, asked in ((which, asked) for which in PARTS for asked in range(len(events) + 1)):
        one, single = (Device.make(which, 0, 0, 0x123456) for _ in range(2))
        assert one.burst(events_of(*events), asked, 24) == (0, asked, answers[:asked])
        assert answered(single, *events[:asked]) == answers[:asked] and one.image() == single.image()


def test_upper_half():
    for event in IGNORED:
        assert Device.make(34, 2, 0).burst(events_of(event), 1, 2) == (0, 1, ['-']), event
        assert Device.make(24, 2, 0).burst(events_of(event), 1, 2) == (2, 0, []), event
    for low, high in ((0, 0), (0, 1), (0, 2), (0xFFFFFFFF, 3), (0x1000000, 0)):
        device = Device.make(34, 2, 0)
        assert device.burst(events_of((LEVELS, low, high)), 1, 2) == (0, 1, ['-'])
        assert device.image().level == low | high << 32


def test_bursts_of_eight():
    starts = events_of((START,)) * 514
    for which in PARTS:
        sound = Device.make(which, 2, 0).image()
        for image, passed in ((sound, 0), (sound._replace(bus=12), 3)):
            for given, asked, room in ((12, 2, 99), (0, 1, 99), (11, 0, 99), (13, 1, 99), (13, 0, 99), (12, 1, 1),
                                       (12, 1, 0), (514 * 12, 513, 9999), (514 * 12, 512, 1023), (514 * 12, 1 << 63, 0)):
                device = Device(which, image)
                assert device.burst(starts[:given], asked, room) == (8, None, []), (given, asked, room)
                assert device.image() == image
            for given, asked, room in ((12, 1, 2), (12, 1, 3), (514 * 12, 512, 1024), (512 * 12, 512, 1024)):
                done = 0 if passed else asked
                told = Device(which, image).burst(starts[:given], asked, room)
                assert told == (passed, done, ['-'] * done), (given, asked, room)
            for given, room in ((0, 0), (12, 0), (514 * 12, 9999)):
                assert Device(which, image).burst(starts[:given], 0, room) == (0, 0, [])


def test_bursts_reader():
    for which in PARTS:
        sound = Device.make(which, 2, 5)
        line = ('%s\t%016x\t%04x\t%s' % (
            probe.image_fields(sound.image()), 1, 5, events_of((START,), (6,)).hex())).encode()
        sound.step(START, 0)
        answer = ('0\t0000000000000001\t00003c3c3c\t%s\n' % probe.image_fields(sound.image())).encode()
        assert bursts.run_lines(which, line) == bursts.run_lines(which, line + b'\n') == answer
        none = line[:-48].replace(b'0000000000000001\t0005', b'0000000000000000\t0000')
        assert bursts.run_lines(which, none).startswith(b'0\t0000000000000000\t\t')
        assert bursts.run_lines(which, line[:-2]).startswith(b'8\t0000000000000077\t3c3c3c3c3c\t')
        for spoiled in (b'', line[:-1], line + b'0', line + b'\t', line + b'\r', line[:-49], line[1:], line[:-1] + b'G',
                        line + b'00' * 6180, line.replace(b'\t0005\t', b'\t0408\t')):
            assert bursts.run_lines(which, spoiled + b'\n') == b'refused\t7\n', spoiled


def test_probe_reader():
    rng = random.Random(1)
    for which, drives in ((24, '000000\t000000'), (34, '000000000\t000000000')):
        line = (probe.image_fields(Device.make(which, 2, 5, 0x123456).image()) + '\t00000000\t0000000000000000').encode()
        after = Device.make(which, 2, 5, 0x123456)
        after.step(START, 0)
        answer = ('-\t1\t%s\t%s' % (drives, probe.image_fields(after.image()))).encode() + b'\n'
        assert probe.run_lines(which, line) == probe.run_lines(which, line + b'\n') == answer
        assert probe.run_lines(which, b'') == b''
        fields = line.split(b'\t')
        assert len(line) == 394 and len(fields) == 15
        assert fields[8:13] == [b'0' * 16, b'01', b'00', b'00123456', b'00'] and answer.endswith(b'\t00\t00123456\t00\n')
        # There is one form: an image without number and place is none, nor one without the mode too, nor status and line.
        for older in (8, 10, 11):
            assert probe.run_lines(which, b'\t'.join(fields[:older] + fields[13:])) == b'refused\t7\n'
        # Each of the last three, taken and told, then at and past its limit.
        for at, largest, refused in ((10, b'01', (b'02', b'ff')), (11, b'00ffffff', (b'01000000', b'80000000')),
                                     (12, b'02', (b'03', b'ff'))):
            told = answer.split(b'\t')
            told[at + 4] = largest + b'\n' * (at == 12)
            assert probe.run_lines(which, b'\t'.join(fields[:at] + [largest] + fields[at + 1:])) == b'\t'.join(told)
            for value in refused:
                assert probe.run_lines(which, b'\t'.join(fields[:at] + [value] + fields[at + 1:])) == b'refused\t3\n'
        for _ in range(200):
            assert probe.run_lines(which, generate.spoiled_line(rng, line) + b'\n') == b'refused\t7\n'
        # One part's image at power-on is broken for the other.
        assert probe.run_lines(58 - which, line) == b'refused\t3\n'


def test_images_come_back():
    """An image is what its fields say, so that a step that changes nothing gives it back."""
    rng = random.Random(2)
    for which in PARTS:
        for _ in range(200):
            read = probe.read_line(generate.image_line(rng, which)[:-1])
            if read and not Device(which, read[0]).broken:
                assert Device(which, read[0]).image() == read[0]


def may_end(before, kind, arg, i):
    """The only causes that may end a status bit, by the device before the event."""
    pin, part = before.pins[i], before.part
    if kind == RESET or (kind == STOP and before.bus == ARMED):
        return True
    if kind == LEVELS:
        return before.field(i) == 0 and not before.latched(i) and bool(arg >> i & 1) == pin.reference
    if kind == FETCH and before.bus == SENDING:
        return before.pointer == i // 8
    if kind == BYTE and before.bus == FILLING:
        bit = arg >> i % 8 & 1
        return (before.pointer == part.edge + i // 4 or (before.pointer - i // 8, bit) in (
            (part.clear, 1), (part.mask, 1), (part.latch, 0), (part.configuration, 0)))
    return False


def test_causes_that_end_a_status_bit():
    rng = random.Random(7)
    for which, part in PARTS.items():
        ended = 0
        for _ in range(4000):
            read = probe.read_line(generate.image_line(rng, which)[:-1])
            if not read:
                continue
            image, kind, arg = read
            before, after = Device(which, image), Device(which, image)
            if isinstance(after.step(kind, arg), tuple):
                continue
            for i in range(part.pins):
                if before.status[i] and not after.status[i]:
                    assert may_end(before, kind, arg, i), (image, kind, arg, i)
                    ended += 1
        assert ended > 100


# The planner.

def setting(which=24, port=0, **bits):
    """All pins inputs with output 1, but for the bytes given by the 24-pin part's register, so many ports on."""
    part = PARTS[which]
    values = {number: 0 if part.map[number].name in ('output port kind', 'pin output kind') else part.bits[number]
              for number in part.settings}
    for name, value in bits.items():
        number = numbered(which, int(name[1:], 16), port)
        values[number] = (value << port if number == part.port_kind else value) & part.bits[number]
    return bytes(values[number] for number in part.settings)


def plan_line(which, port, *pairs):
    """The answer that lists these pairs, the 24-pin part's registers so many ports on."""
    return 'plan' + ''.join('\t%02x%02x' % (numbered(which, number, port), value << port if number == 0x5C else value)
                            for number, value in pairs)


@everywhere
def test_plan_bench_points(*place):
    judged = judge.Planner(place[0]).judge
    high = setting(*place, r0c=0xFE), setting(*place, r0c=0xFE, r5c=1, r70=1)
    flips = plan_line(*place, (0x5C, 1), (0x70, 1))
    assert judged(*high, 'refused\t4') is None
    assert judged(*high, flips) is not None
    low = setting(*place, r04=0xFE, r0c=0xFE), setting(*place, r04=0xFE, r0c=0xFE, r5c=1, r70=1)
    assert judged(*low, flips) is None
    assert judged(*low, 'refused\t4') is not None
    swap = setting(*place, r04=0xFD, r0c=0xFE), setting(*place, r04=0xFE, r0c=0xFD)
    assert judged(*swap, plan_line(*place, (0x04, 0xFF), (0x0C, 0xFD), (0x04, 0xFE))) is None
    for answer in (plan_line(*place, (0x04, 0xFE), (0x0C, 0xFD)), plan_line(*place, (0x0C, 0xFD), (0x04, 0xFE)),
                   'refused\t4'):
        assert judged(*swap, answer) is not None


def test_judge_finds_faults():
    for which in PARTS:
        judged, plan = judge.Planner(which).judge, lambda *pairs: plan_line(which, 0, *pairs)
        start, goal = setting(which, r0c=0xFC), setting(which, r04=0xFE, r0c=0xFC)
        right, pad = plan((0x04, 0xFE)), plan((0x71, 0x01), (0x71, 0x00))[len('plan'):]
        assert judged(start, goal, right) is None
        for answer in ('', 'plan', 'plan ', plan((0x04, 0xFD)), plan((0x04, 0xFE), (0x04, 0xFE)),
                       plan((0x04, 0xFE), (0x04, 0xFF), (0x04, 0xFE)), plan((0x04, 0xFC), (0x04, 0xFE)),
                       plan((0x08, 0xFF), (0x04, 0xFE)), plan((0x0C, 0xFD), (0x04, 0xFE), (0x0C, 0xFC)),
                       plan((0x0C, 0xF8), (0x04, 0xFE), (0x0C, 0xFC)), plan((0x4C, 0x01), (0x04, 0xFE)),
                       'plan\t39ff' + right[len('plan'):], 'plan\t4fe', right.upper(), right[:-2] + 'FE',
                       'refused\t4', 'refused\t5', 'refused\t6', 'refused\t7'):
            assert judged(start, goal, answer) is not None, answer
        # One write more than a plan may have, and as many.
        pairs = PARTS[which].most_writes // 2
        assert judged(start, goal, 'plan' + pad * pairs + right[len('plan'):]) is not None
        assert judged(start, goal, 'plan' + pad * (pairs - 1) + right[len('plan'):]) is None
        assert judged(start, start, 'plan') is None
        assert judged(start, start, 'plan' + pad) is not None
        for ends in ((start[:-1], goal), (start, goal + b'\0'), (b'', goal), (start, setting(58 - which))):
            assert judged(*ends, 'refused\t5') is None
            assert judged(*ends, 'plan') is not None
            assert judged(*ends, 'refused\t4') is not None


def test_longest_plan():
    """Each of the sister's ports from input to low, kinds too: 26 writes that are quiet, and one more is one too many."""
    start, goal = setting(34), bytes([0x00] * 4 + [0x00] + [0x00] * 5 + [0x1F] + [0xFF] * 4 + [0x03])
    planner = judge.Planner(34)
    pairs = [(0x05 + k, 0x00) for k in range(5)] + [(0x53, 0x1F)] + [(0x68 + k, goal[11 + k]) for k in range(5)]
    pairs += [(0x0F + k, 0x00) for k in range(5)]
    plan = 'plan' + ''.join('\t%02x%02x' % pair for pair in pairs)
    assert len(pairs) == 16 and planner.judge(start, goal, plan) is None
    padded = 'plan' + '\t6801\t6800' * 5 + plan[len('plan'):]
    assert padded.count('\t') == 26 and planner.judge(start, goal, padded) is None
    assert planner.judge(start, goal, 'plan\t6801\t6803' + padded[len('plan') + 5:]) is not None
    for room, number in ((0, 6), (32, 6), (51, 6), (52, None), (53, None)):
        assert planner.refusal(start, goal, room) == number
        assert planner.judge(start, goal, 'refused\t6' if number else padded, room) is None
        assert planner.judge(start, goal, padded if number else 'refused\t6', room) is not None


def test_plan_refusals():
    """5 before 6 before 4: lengths, unused bits, room, then a way."""
    for which, room in ((24, 32), (34, 52)):
        planner = judge.Planner(which)
        whole, stuck = setting(which, r0c=0xFE), setting(which, r0c=0xFE, r5c=1, r70=1)
        assert planner.refusal(whole, whole, room) is None and planner.refusal(whole, whole, room - 1) == 6
        assert planner.refusal(whole, stuck, room) == 4 and planner.refusal(whole, stuck, room - 1) == 6
        part = PARTS[which]
        for place, number in enumerate(part.settings):
            for bit in range(8):
                spoiled = bytearray(whole)
                spoiled[place] |= 1 << bit
                wanted = None if part.bits[number] >> bit & 1 else 5
                assert planner.refusal(bytes(spoiled), bytes(spoiled), room) == wanted, (which, number, bit)
                if wanted:
                    for ends in ((whole, bytes(spoiled)), (bytes(spoiled), whole), (bytes(spoiled), stuck)):
                        assert planner.refusal(*ends, room) == planner.refusal(*ends, 0) == 5
        for length in (*range(len(whole)), len(whole) + 1, 32):
            other = (whole * 4)[:length]
            assert planner.refusal(other, whole, room) == planner.refusal(whole, other, 0) == 5


class WholeSearch:
    """Searches over whole registers, any value at each write, for `ports` ports of `width` pins.

    A setting is one (outputs, configurations, kinds) a port, then the port bits, all as numbers. A set of settings is a
    number whose bit n is the setting in place n of `settings`.
    """

    def __init__(self, width, ports):
        self.settings = all_settings(width, ports)
        self.places = {setting: n for n, setting in enumerate(self.settings)}
        pins = [(k, j) for k in range(ports) for j in range(width)]
        # For each setting its pins' four bits, and the set of the settings that one write makes of it.
        self.bits = [[self.pin_bits(setting, k, j) for k, j in pins] for setting in self.settings]
        self.written = [self.set_of(self.one_write(setting, width, ports)) for setting in self.settings]
        # For each pin and each four bits of it the set of the settings in which it has them.
        self.having = [{} for _ in pins]
        for n, bits in enumerate(self.bits):
            for having, own in zip(self.having, bits):
                having[own] = having.get(own, 0) | 1 << n
        self.quiet_sets = {}

    @staticmethod
    def pin_bits(setting, port, j):
        own = setting[3 * port:3 * port + 3]
        return tuple(value >> j & 1 for value in own) + (setting[-1] >> port & 1,)

    @staticmethod
    def one_write(setting, width, ports):
        for place, size in enumerate([1 << width] * (3 * ports) + [1 << ports]):
            for value in range(size):
                yield setting[:place] + (value,) + setting[place + 1:]

    def set_of(self, settings):
        return sum(1 << n for n in {self.places[setting] for setting in settings})

    def quiet(self, pin, start, goal):
        """For each four bits of a pin the set of the settings to which it moves quietly, by its bits at the ends."""
        if (pin, start, goal) not in self.quiet_sets:
            having = self.having[pin]
            self.quiet_sets[pin, start, goal] = {
                before: sum(having[after] for after in having if judge.move_allowed(start, goal, before, after))
                for before in having}
        return self.quiet_sets[pin, start, goal]

    def exists(self, start, goal):
        """Whether some list of writes, of any length, goes quietly from start to goal."""
        first, last = self.places[start], self.places[goal]
        quiet = [self.quiet(pin, *ends) for pin, ends in enumerate(zip(self.bits[first], self.bits[last]))]
        reached, fresh = 1 << first, [first]
        while fresh and not reached >> last & 1:
            before = fresh.pop()
            following = self.written[before] & ~reached
            for own, bits in zip(quiet, self.bits[before]):
                following &= own[bits]
            reached |= following
            while following:
                fresh.append(following.bit_length() - 1)
                following ^= 1 << fresh[-1]
        return bool(reached >> last & 1)


def by_pins(width, ports, start, goal):
    """The judge's search on the same small device."""
    def pins(setting, port):
        own = setting[3 * port:3 * port + 3]
        return [tuple(value >> j & 1 for value in own) + (setting[-1] >> port & 1,) for j in range(width)]
    return all(judge.port_exists(pins(start, k), pins(goal, k)) for k in range(ports))


def all_settings(width, ports):
    found = [()]
    for size in [1 << width] * (3 * ports) + [1 << ports]:
        found = [setting + (value,) for setting in found for value in range(size)]
    return found


def test_search_by_pins_is_right():
    """All ports of one and two pins; samples of ports of three pins and of two ports of one pin."""
    rng = random.Random(3)
    for width, ports, count in ((1, 1, None), (2, 1, None), (1, 2, 3000), (3, 1, 1000)):
        search = WholeSearch(width, ports)
        pairs = ([(start, goal) for start in search.settings for goal in search.settings] if count is None else
                 [(rng.choice(search.settings), rng.choice(search.settings)) for _ in range(count)])
        found = set()
        for start, goal in pairs:
            possible = search.exists(start, goal)
            assert possible == by_pins(width, ports, start, goal), (start, goal)
            found.add(possible)
        assert found == {False, True}


def test_exists_in_one_sentence():
    """What the search finds: hopeless exactly if a pin is high at both ends and its port's bit changes."""
    rng = random.Random(4)
    for which, part in PARTS.items():
        for _ in range(2000):
            start, goal = generate.setting_pair(rng, which)
            hopeless = any(
                judge.drive(*a) == judge.drive(*b) == 'high' and a[3] != b[3]
                for a, b in ((judge.pin_bits(which, start, i), judge.pin_bits(which, goal, i)) for i in range(part.pins)))
            assert judge.exists(which, start, goal) == (not hopeless)


def faults_of(which, image):
    """The names of refusal 3's faults that an image has."""
    device = Device(which, image)
    return frozenset(name for name, broken in (
        ('pointer', device.pointer_broken(image.pointer)), ('bus', device.bus_broken(image.bus)),
        ('choice', device.choice_broken(image.choice)), ('pin sets', device.pin_sets_broken(image)),
        ('unused', any(device.unused_broken(n, image.registers[n]) for n in range(128))),
        ('entry', any(device.entry_broken(n, image.registers[n]) for n in range(128))),
        ('status', device.status_broken(image.status)), ('line', device.line_broken(image.line)),
        ('mode', device.mode_broken(image.mode)), ('number', device.number_broken(image.number)),
        ('place', device.place_broken(image.place))) if broken)


def test_broken_images_have_one_fault():
    """Else a fault that is not looked for hides behind another; status and line are also wrong together."""
    rng = random.Random(10)
    for which in PARTS:
        found, unused = set(), set()
        for _ in range(600):
            sound = generate.sound_image(rng, which, PARTS[which].mask, FILLING)
            assert not faults_of(which, sound)
            broken = generate.broken_image(rng, which, sound)
            device = Device(which, broken)
            found.add(faults_of(which, broken))
            unused |= {n for n in generate.PARTLY_STORED[which] if device.unused_broken(n, broken.registers[n])}
        assert found == {frozenset(names) for names in (
            ['pointer'], ['bus'], ['choice'], ['pin sets'], ['unused'], ['entry'], ['status'], ['line'],
            ['status', 'line'], ['mode'], ['number'], ['place'])}
        assert len(unused) > len(generate.PARTLY_STORED[which]) // 2


def test_generators():
    rng = random.Random(5)
    begins = {24: b'device\t', 34: b'device34\t'}
    for which in PARTS:
        for _ in range(30):
            log = generate.trace_log(rng, which)
            assert log.startswith(begins[which]) and log.endswith(b'\n') and 60 <= log.count(b'\n') <= 500
        assert generate.trace_log(random.Random(6), which) == generate.trace_log(random.Random(6), which)
        planner = judge.Planner(which)
        for _ in range(300):
            assert all(planner.well_formed(end) for end in generate.setting_pair(rng, which))
            assert not all(planner.well_formed(end) for end in generate.malformed_pair(rng, which))
        assert len(list(generate.one_pin_pairs(which))) == which * 256


def test_logs_of_one_part_alone():
    """A log without others makes devices of its own part alone, for a program that knows no other."""
    rng = random.Random(11)
    for which in PARTS:
        for _ in range(60):
            events = trace.read_log(generate.trace_log(rng, which, others=False))
            session = trace.Session()
            for event in events:
                session.answer(event)
                assert session.device.which == which


# The program compare.

# Lines of 20, 18, 20 and 10 bytes.
TOP, NONE = b'answer\tint\tlow\thigh\n', b'-\t1\t000000\t000000\n'
ACK, SEVEN = b'ack\t1\t000000\t000000\n', b'refused\t7\n'
# The answers have their lines at 0, 20, 38 and 56, and 76 bytes.
EVENTS = b'device\t2\t000000\nstart\nbyte\t44\n'
ANSWERS = TOP + NONE + NONE + ACK


def assert_found(*cases):
    """(events, answers, verdict, offset, length, number of the line or of all lines)."""
    for events, answers, *wanted in cases:
        assert list(logs.Comparison(events, answers).finding()) == wanted, (events, answers)


def test_answers_that_agree():
    assert_found(
        (EVENTS, ANSWERS, AGREES, 76, 0, 4),
        # A last line without its newline, of the answers, of the events, of both.
        (EVENTS, ANSWERS[:-1], AGREES, 75, 0, 4),
        (EVENTS[:-1], ANSWERS, AGREES, 76, 0, 4),
        (EVENTS[:-1], ANSWERS[:-1], AGREES, 75, 0, 4),
        # Empty events expect the header alone, an unreadable one its refusal.
        (b'', TOP, AGREES, 20, 0, 1),
        (b'', TOP[:-1], AGREES, 19, 0, 1),
        (b'start\n', TOP + SEVEN, AGREES, 30, 0, 2),
        (b's', TOP + SEVEN, AGREES, 30, 0, 2),
        (b'\n', TOP + SEVEN, AGREES, 30, 0, 2),
        (b'\n\n', TOP + SEVEN * 2, AGREES, 40, 0, 3),
        (EVENTS + b'stop\r\n' + b'x' * 200000, ANSWERS + SEVEN * 2, AGREES, 96, 0, 6),
        # Both parts in one log.
        (b'device34\t0\t000000000\ndevice\t0\t000000\n', TOP + b'-\t1\t000000000\t000000000\n' + NONE, AGREES, 62, 0, 3))


def test_answers_that_depart():
    """The first line that differs, without its newline."""
    assert_found(
        (EVENTS, b'Answer' + ANSWERS[6:], DEPARTS, 0, 19, 1),
        (EVENTS, TOP + b'-\t0\t000000\t000000\n' + NONE + ACK, DEPARTS, 20, 17, 2),
        (EVENTS, TOP + NONE + NONE + b'nak\t1\t000000\t000000\n', DEPARTS, 56, 19, 4),
        (EVENTS, TOP + NONE + NONE + b'nak\t1\t000000\t000000', DEPARTS, 56, 19, 4),
        (EVENTS, TOP + NONE + NONE + b'44\t1\t000000\t000000\n', DEPARTS, 56, 18, 4),
        # A line dropped, doubled, exchanged, emptied, put in; the header is a line as any other.
        (EVENTS, NONE + NONE + ACK, DEPARTS, 0, 17, 1),
        (EVENTS, TOP + NONE + ACK, DEPARTS, 38, 19, 3),
        (EVENTS, TOP + ANSWERS, DEPARTS, 20, 19, 2),
        (EVENTS, TOP + NONE * 3 + ACK, DEPARTS, 56, 17, 4),
        (EVENTS, TOP + NONE + ACK + NONE, DEPARTS, 38, 19, 3),
        (EVENTS, TOP + NONE + b'\n' + ACK, DEPARTS, 38, 0, 3),
        (EVENTS, TOP + b'\n' + NONE + NONE + ACK, DEPARTS, 20, 0, 2),
        (EVENTS, b'\n', DEPARTS, 0, 0, 1),
        (EVENTS, b'\n\n' + ANSWERS, DEPARTS, 0, 0, 1),
        (b'', b'\n', DEPARTS, 0, 0, 1),
        # A newline that is another byte, and a byte that is a newline.
        (EVENTS, TOP[:-1] + b' ' + NONE + NONE + ACK, DEPARTS, 0, 37, 1),
        (EVENTS, TOP + b'-\t1\t000000\n000000\n' + NONE + ACK, DEPARTS, 20, 10, 2),
        # A proper beginning of a line, the last one or not, with or without its newline.
        (EVENTS, ANSWERS[:-2], DEPARTS, 56, 18, 4),
        (EVENTS, ANSWERS[:-2] + b'\n', DEPARTS, 56, 18, 4),
        (EVENTS, ANSWERS[:57], DEPARTS, 56, 1, 4),
        (EVENTS, ANSWERS[:18], DEPARTS, 0, 18, 1),
        (EVENTS, b'a', DEPARTS, 0, 1, 1),
        (b'', TOP[:-2], DEPARTS, 0, 18, 1),
        (EVENTS, TOP + b'-\n' + NONE + ACK, DEPARTS, 20, 1, 2),
        # A return, NUL, space or capital is a byte as any other.
        (EVENTS, ANSWERS.replace(b'\n', b'\r\n'), DEPARTS, 0, 20, 1),
        (EVENTS, TOP + NONE + NONE[:-1] + b'\r\n' + ACK, DEPARTS, 38, 18, 3),
        (EVENTS, ANSWERS[:-1] + b'\r\n', DEPARTS, 56, 20, 4),
        (EVENTS, ANSWERS[:-1] + b'\r', DEPARTS, 56, 20, 4),
        (EVENTS, TOP + NONE[:-1] + b'\0\n' + NONE + ACK, DEPARTS, 20, 18, 2),
        (EVENTS, ANSWERS[:-1] + b' \n', DEPARTS, 56, 20, 4),
        (EVENTS + b'fetch\t0\n', ANSWERS + b'FF\t1\t000000\t000000\n', DEPARTS, 76, 18, 5),
        # An unreadable event, and the sister in six digits.
        (b'start\n', TOP + NONE, DEPARTS, 20, 17, 2),
        (b'start\n', TOP + b'refused\t3\n', DEPARTS, 20, 9, 2),
        (b'device34\t0\t000000000\n', TOP + NONE, DEPARTS, 20, 17, 2),
        # However long, and however many lines are missing or left over.
        (EVENTS, TOP + b'x' * 200000 + b'\n' + NONE + ACK, DEPARTS, 20, 200000, 2),
        (EVENTS, TOP + ACK, DEPARTS, 20, 19, 2),
        (EVENTS, TOP + ACK + NONE + ACK + NONE, DEPARTS, 20, 19, 2),
        (b'', NONE + NONE, DEPARTS, 0, 17, 1))


def test_answers_that_end_early():
    """At the end of a line, with its newline or without; the part is empty and at the end."""
    assert_found(
        (EVENTS, b'', ENDS_EARLY, 0, 0, 1),
        (b'', b'', ENDS_EARLY, 0, 0, 1),
        (EVENTS, TOP, ENDS_EARLY, 20, 0, 2),
        (EVENTS, TOP[:-1], ENDS_EARLY, 19, 0, 2),
        (EVENTS, TOP + NONE, ENDS_EARLY, 38, 0, 3),
        (EVENTS, TOP + NONE[:-1], ENDS_EARLY, 37, 0, 3),
        (EVENTS, TOP + NONE + NONE, ENDS_EARLY, 56, 0, 4),
        (EVENTS, TOP + NONE + NONE[:-1], ENDS_EARLY, 55, 0, 4),
        (EVENTS + b's', ANSWERS, ENDS_EARLY, 76, 0, 5),
        (EVENTS + b'\n', ANSWERS, ENDS_EARLY, 76, 0, 5),
        (b'start', TOP, ENDS_EARLY, 20, 0, 2))


def test_answers_left_over():
    """The first line past those expected; an empty one lies before its newline."""
    assert_found(
        (EVENTS, ANSWERS + NONE, LEFT_OVER, 76, 17, 5),
        (EVENTS, ANSWERS + NONE[:-1], LEFT_OVER, 76, 17, 5),
        (EVENTS, ANSWERS + NONE + ACK, LEFT_OVER, 76, 17, 5),
        (EVENTS, ANSWERS + b'x', LEFT_OVER, 76, 1, 5),
        (EVENTS, ANSWERS + b'\0', LEFT_OVER, 76, 1, 5),
        (EVENTS, ANSWERS + b'\r\n', LEFT_OVER, 76, 1, 5),
        (EVENTS, ANSWERS + b'\n', LEFT_OVER, 76, 0, 5),
        (EVENTS, ANSWERS + b'\n\n\n', LEFT_OVER, 76, 0, 5),
        (EVENTS, ANSWERS + b'\n' + NONE, LEFT_OVER, 76, 0, 5),
        (EVENTS, ANSWERS + b'x' * 200000, LEFT_OVER, 76, 200000, 5),
        (b'', TOP + b'\n', LEFT_OVER, 20, 0, 2),
        (b'', ANSWERS, LEFT_OVER, 20, 17, 2))


def assert_written(*cases):
    """(events, answers, standard output, standard error)."""
    for events, answers, output, remarks in cases:
        model = logs.Comparison(events, answers)
        assert (model.output(), model.remarks()) == (output, remarks), (events, answers)


def test_what_compare_writes():
    before = b'device\t0\t000000\nstop\nstop\nstop\nstart\n'
    assert_written(
        (before + b'byte\t40\n', TOP + NONE * 5 + b'nak\t1\t000000\t000000\n', b'departs\nnak\t1\t000000\t000000\n',
         b'compare: line 7 departs\nevent: byte\t40\nexpected: ack\t1\t000000\t000000\nfound: nak\t1\t000000\t000000\n'),
        (before + b'byte\t40\n', TOP + NONE * 5, b'ends early\n',
         b'compare: line 7 is missing\nevent: byte\t40\nexpected: ack\t1\t000000\t000000\n'),
        (before, TOP + NONE * 5 + ACK, b'left over\nack\t1\t000000\t000000\n',
         b'compare: line 7 is left over\nexpected: nothing, the events end before it\nfound: ack\t1\t000000\t000000\n'),
        (before, TOP + NONE * 5, b'agrees\n', b'compare: 6 lines agree\n'),
        (b'', TOP[:-1], b'agrees\n', b'compare: 1 line agrees\n'),
        # The header has no event, whatever the events.
        (before, NONE, b'departs\n' + NONE,
         b'compare: line 1 departs\nevent: none, this is the header\n'
         b'expected: answer\tint\tlow\thigh\nfound: -\t1\t000000\t000000\n'),
        (b'', b'', b'ends early\n',
         b'compare: line 1 is missing\nevent: none, this is the header\nexpected: answer\tint\tlow\thigh\n'),
        # A part that is empty is a line too.
        (b'', b'\n', b'departs\n\n',
         b'compare: line 1 departs\nevent: none, this is the header\nexpected: answer\tint\tlow\thigh\nfound: \n'),
        (b'', TOP + b'\n', b'left over\n\n',
         b'compare: line 2 is left over\nexpected: nothing, the events end before it\nfound: \n'),
        # An empty event, and one without its newline.
        (b'\n', TOP, b'ends early\n', b'compare: line 2 is missing\nevent: \nexpected: refused\t7\n'),
        (b's', TOP, b'ends early\n', b'compare: line 2 is missing\nevent: s\nexpected: refused\t7\n'))


def test_what_compare_shows_of_long_lines():
    """32 bytes; standard output has the whole line."""
    dots = b'x' * 32 + b'...'
    for length, shown in ((31, b'x' * 31), (32, b'x' * 32), (33, dots), (34, dots), (200000, dots)):
        line = b'x' * length
        assert_written(
            (line, TOP, b'ends early\n', b'compare: line 2 is missing\nevent: %s\nexpected: refused\t7\n' % shown),
            (line + b'\n', TOP + line + b'\n', b'departs\n%s\n' % line,
             b'compare: line 2 departs\nevent: %s\nexpected: refused\t7\nfound: %s\n' % (shown, shown)),
            (b'', TOP + line, b'left over\n%s\n' % line,
             b'compare: line 2 is left over\nexpected: nothing, the events end before it\nfound: %s\n' % shown))


def found_by_bytes(events, answers):
    """Verdict and part by another road: whole texts, and where they first differ."""
    whole = trace.run_log(events)
    if answers in (whole, whole[:-1]):
        return AGREES, len(answers), 0
    if answers.startswith(whole):
        return LEFT_OVER, len(whole), len(answers[len(whole):].split(b'\n')[0])
    if answers == b'' or whole.startswith(answers) and b'\n' in (answers[-1:], whole[len(answers):len(answers) + 1]):
        return ENDS_EARLY, len(answers), 0
    same = next((place for place, (one, other) in enumerate(zip(answers, whole)) if one != other), len(answers))
    begin = answers.rfind(b'\n', 0, same) + 1
    return DEPARTS, begin, len(answers[begin:].split(b'\n')[0])


def test_findings_by_bytes():
    rng = random.Random(12)
    pairs = [generate.log_pair(rng, number) for number in range(2000)] + list(generate.border_pairs(512))
    verdicts = [0] * 4
    for pair in pairs:
        finding = logs.Comparison(*pair).finding()
        assert finding[:3] == found_by_bytes(*pair), pair
        verdicts[finding.verdict] += 1
    assert min(verdicts) > 100


# What becomes of answers that are spoiled in some ways, at least once in many.
SPOILED = {
    'none': {AGREES}, 'no last newline': {AGREES}, 'nothing left': {ENDS_EARLY}, 'only a newline': {DEPARTS},
    'a beginning': {DEPARTS, ENDS_EARLY, AGREES}, 'cut in a line': {DEPARTS},
    'cut before a newline': {ENDS_EARLY, AGREES}, 'cut after a newline': {ENDS_EARLY, AGREES},
    'another byte in the header': {DEPARTS}, 'another byte near the end': {DEPARTS}, 'a newline for a byte': {DEPARTS},
    'first line dropped': {DEPARTS, ENDS_EARLY}, 'a line dropped': {DEPARTS, ENDS_EARLY},
    'last line dropped': {ENDS_EARLY}, 'a line doubled': {DEPARTS, LEFT_OVER}, 'two lines exchanged': {DEPARTS},
    'an empty line left over': {LEFT_OVER}, 'a line left over': {LEFT_OVER}, 'lines left over': {LEFT_OVER},
    'a return before a newline': {DEPARTS}, 'returns before all newlines': {DEPARTS},
    'NUL before a newline': {DEPARTS}, 'a space before a newline': {DEPARTS}, 'capitals': {DEPARTS},
    'capitals in a line': {DEPARTS},
}


def test_spoiled_answers():
    rng = random.Random(13)
    for name, wanted in SPOILED.items():
        pairs = [(log, generate.spoiled(rng, trace.run_log(log), name)) for log in map(generate.short_log, [rng] * 100)]
        found = {logs.Comparison(*pair).finding().verdict for pair in pairs}
        assert wanted <= found, (name, found)


def test_pairs_cross_buffers():
    rng = random.Random(14)
    for bytes_over in (20000, 70000):
        found = {logs.Comparison(*pair).finding().verdict for pair in generate.large_pairs(rng)
                 if min(map(len, pair)) > bytes_over}
        assert found == {AGREES, DEPARTS, ENDS_EARLY, LEFT_OVER}
    longest = [[max(map(len, trace.split_lines(text)), default=0) for text in pair]
               for pair in generate.long_line_pairs(rng)]
    assert all(sum(length >= 200000 for length in side) > 5 for side in zip(*longest))
    for border in generate.BORDERS:
        for end in range(border - 2, border + 6):
            assert len(generate.bordered(end)) == len(trace.run_log(generate.bordered(end))) == end
    assert generate.log_pair(random.Random(15), 0) == generate.log_pair(random.Random(15), 0)


# Marks.

# The loss of the README, and how it is signed off: line, answer, INT, marks. An empty answer is `-`, a number is a refusal;
# nothing is driven.
UNMASKED = (('start', ''), ('byte\t44', 'ack'), ('byte\t54', 'ack'), ('byte\tfe', 'ack'), ('stop', ''))
LOSS = (
    ('device\t2\t000000\t000000', '', 1, 'ffffff'),
    ('sign\t00', '', 1, 'fffffe'),
    *((line, told, 1, 'fffffe') for line, told in UNMASKED),
    ('pins\t000001', '', 0, 'ffffff'),
    ('sign\t00', 13, 0, ''),
    ('start', '', 0, 'ffffff'), ('byte\t00', 'ack', 0, 'ffffff'), ('byte\t06', 'ack', 0, 'ffffff'),
    # The reset: INT quiet, the fibre open, the mark set.
    ('stop', '', 1, 'ffffff'),
    ('sign\t00', 13, 1, ''),
    *((line, told, 1, 'ffffff') for line, told in UNMASKED),
    ('sign\t00', 13, 1, ''),
    # The open level is the reference now, so that closing rings.
    ('pins\t000000', '', 0, 'ffffff'),
    ('sign\t00', 13, 0, ''),
    ('start', '', 0, 'ffffff'), ('byte\t44', 'ack', 0, 'ffffff'), ('byte\t00', 'ack', 0, 'ffffff'),
    ('start', '', 0, 'ffffff'), ('byte\t45', 'ack', 0, 'ffffff'), ('fetch\t0', '00', 1, 'ffffff'),
    ('stop', '', 1, 'ffffff'),
    ('sign\t00', '', 1, 'fffffe'),
    ('sign\t00', '', 1, 'fffffe'),
    ('sign\t18', 2, 1, ''),
)


def told_line(told, line, marks):
    return 'refused\t%d' % told if isinstance(told, int) else '%s\t%d\t000000\t000000\t%s' % (told or '-', line, marks)


def test_worked_loss():
    log = '\n'.join(line for line, *_ in LOSS)
    wanted = '\n'.join(['answer\tint\tlow\thigh\tmarks'] + [told_line(*told) for _, *told in LOSS]) + '\n'
    assert watch.run_log(log.encode()) == watch.run_log(log.encode() + b'\n') == wanted.encode()


def test_shipped_watches():
    logs = sorted(EXAMPLES.glob('*.watch'))
    assert logs
    for log in logs:
        assert watch.run_log(log.read_bytes()) == log.with_suffix('.answers').read_bytes(), log.name


def test_watch_reader():
    ok, signed, no = b'-\t1\t000000\t000000\tffffff\n', b'-\t1\t000000\t000000\tfffffe\n', b'refused\t7\n'
    device = b'device\t0\t000000\t000000\n'
    for log, lines in (
            (b'', b''),
            (b'\n', no),
            (b'sign\t00', no),
            (b'sign\tff\nstart\n', no + no),
            (b'device\t0\t000000\nstart\nsign\t00\n', no * 3),
            (b'device\t4\t000000\t000000\nstart\n', no + no),
            (device + b'sign\t00\ndevice\t0\t000000\nstart', ok + signed + no + signed),
            (device + b'sign\t00\n' + device, ok + signed + ok),
            # A healthy set of its own, and it lasts as long as its device.
            (device + b'device\t1\t000001\t000001\nsign\t00\nsign\t01', ok + ok + signed + signed.replace(b'e', b'c')),
            (device + b'device\t4\t000000\t000001\nsign\t00', ok + no + signed),
            (b'device\t0\t000000\t000001\nsign\t00\nsign\t17\n', ok + b'refused\t13\n' + ok.replace(b'\tf', b'\t7')),
            (device + b'sign\t17\nsign\t18\nsign\t21\nsign\tff', ok + ok.replace(b'\tf', b'\t7') + b'refused\t2\n' * 3),
            (device + b'x' * 33 + b'\n' + b'sign\t00' * 9000 + b'\nstop', ok + no * 2 + ok),
            (device + b'fetch\t0\nsign\t00\r\nreset\n', ok + b'ff' + ok[1:] + no + ok)):
        assert watch.run_log(log) == watch.HEADER + lines, log
    for line in generate_marks.NO_SIGNS + generate_marks.NO_WATCHES:
        for before in (b'', device, b'device34\t0\t000000000\t000000000\n'):
            log = before + line.encode('latin-1') + b'\n'
            assert watch.run_log(log).endswith(b'\n' + no) and watch.run_log(log).count(b'\n') == log.count(b'\n') + 1, line


def test_watch_reader_of_both_parts():
    six, nine, no = b'-\t1\t000000\t000000\tffffff\n', b'-\t1\t000000000\t000000000\t3ffffffff\n', b'refused\t7\n'
    device, sister = b'device\t0\t000000\t000000\n', b'device34\t0\t000000000\t000000000\n'
    for log, lines in (
            (sister + b'pins\t000000000\npins\t000000\n', nine + nine + no),
            (b'device34\t3\t3ffffffff\t3ffffffff\nreset\n', nine + nine),
            (b'device34\t0\t000000000\t400000000\nstart\n', no + no),
            (b'device34\t0\t400000000\t000000000\nstart\n', no + no),
            (b'device34\t0\t000000\t000000\ndevice34\t0\t000000000\t000000\ndevice34\t0\t000000\t000000000\n', no * 3),
            (b'device\t0\t000000000\t000000000\ndevice\t0\t000000\t000000000\ndevice\t0\t000000000\t000000\n', no * 3),
            (sister + b'sign\t21\nsign\t22\n', nine + nine.replace(b'3f', b'1f') + b'refused\t2\n'),
            (b'device34\t0\t000000000\t200000000\nsign\t21\nsign\t20\n',
             nine + b'refused\t13\n' + nine.replace(b'3f', b'2f')),
            (sister + device + b'sign\t21\nsign\t18\n', nine + six + b'refused\t2\n' * 2),
            (device + sister + b'sign\t18\npins\t000000\n', six + nine + nine.replace(b'3ff', b'3fe') + no),
            # A device line that is unreadable leaves the device, its marks and its digits.
            (sister + b'sign\t21\ndevice\t4\t000000\t000000\nstop\n',
             nine + nine.replace(b'3f', b'1f') + no + nine.replace(b'3f', b'1f'))):
        assert watch.run_log(log) == watch.HEADER + lines, log


class MarkedBench(Bench):
    """A bench with marks, of which a port is looked at."""

    def __init__(self, which=24, port=0, levels=0, healthy=0, choice=0):
        super().__init__(which, port, levels, choice)
        self.device = Marked.make(which, choice, levels << 8 * port, 0, healthy << 8 * port)

    def sign(self, pin):
        return self.device.sign_off(8 * self.port + pin)

    def marks(self):
        """Of pins 0 and 1, which every port has."""
        return self.device.marks >> 8 * self.port & 3

    def signed(self, *acts):
        """Pins 0 and 1 signed off, and the acts; the marks then."""
        assert self.sign(0) == self.sign(1) == 0 and self.marks() == 0
        for act in acts:
            act(self)
        return self.marks()

    def general_call(self):
        for kind, arg in ((START, 0), (BYTE, 0x00), (BYTE, 0x06), (STOP, 0)):
            self.device.step(kind, arg)


def written(number, *values):
    return lambda bench: bench.write(number, *values)


def moved(levels):
    return lambda bench: bench.pins(levels)


def stepped(kind, arg=0):
    return lambda bench: bench.device.step(kind, arg)


def fetched(number):
    return lambda bench: bench.read(number)


UNMASK, UNMASK_BOTH = written(0x54, 0xFE), written(0x54, 0xFC)


def test_new_marks():
    for which, most in ((24, 0xFFFFFF), (34, 0x3FFFFFFFF)):
        for healthy in (0, 1, 0x123456, most):
            assert Marked.new_marks(which, healthy) == (most, healthy)
            device = Marked.make(which, 3, 0x80, 0x123456, healthy)
            assert device.image() == Device.make(which, 3, 0x80, 0x123456).image()
            assert (device.marks, device.healthy) == (most, healthy)
        for healthy in (most + 1, most + 2, 1 << 40, 1 << 63, (1 << 64) - 1):
            assert Marked.new_marks(which, healthy) == Marked.make(which, 0, 0, 0, healthy) == ('refused', 2)
        assert Marked.make(which, 4, 0, 0, 0) == Marked.make(which, 0, most + 1, 0, 0) == ('refused', 2)
        for line, answer in ((b'%016x' % most, b'0\t%016x\t%016x\n' % (most, most)),
                             (b'%016x' % 5, b'0\t%016x\t0000000000000005\n' % most),
                             (b'%016x' % (most + 1), b'2\t3c3c3c3c3c3c3c3c\t7777777777777777\n'),
                             (b'ffffffffffffffff', b'2\t3c3c3c3c3c3c3c3c\t7777777777777777\n'),
                             (b'', b'')):
            assert new_marks.run_lines(which, line) == answer, line
        for line in (b'\n', b'0' * 15, b'0' * 17, b'000000000000000A', b'0' * 16 + b'\t', b'0' * 16 + b'\r'):
            assert new_marks.run_lines(which, line) == b'refused\t7\n', line


@everywhere
def test_what_sets_a_mark(which, port):
    """A status bit that rises, in whatever way; two at once are two marks, one more while INT is asserted is one more."""
    for wanted, *acts in (
            (1, UNMASK, moved(1)), (3, UNMASK_BOTH, moved(3)), (3, UNMASK_BOTH, moved(1), moved(3)),
            (2, UNMASK_BOTH, moved(2)), (1, moved(1), UNMASK), (0, moved(3)), (1, UNMASK, moved(3)),
            # Latched, and by its edge field; the other edge is none.
            (1, UNMASK, written(0x48, 0x01), moved(1)), (1, UNMASK, written(0x60, 0x01), moved(1)),
            (0, UNMASK, written(0x60, 0x02), moved(1)), (1, UNMASK, written(0x60, 0x02), moved(1), moved(0)),
            # A field taken away shows the difference, and a pin that turns to input.
            (1, UNMASK, written(0x60, 0x02), moved(1), written(0x60, 0x00)),
            (0, UNMASK, written(0x0C, 0xFE), moved(1)),
            (1, UNMASK, written(0x0C, 0xFE), moved(1), written(0x0C, 0xFF)),
            # At its healthy level again it rings as well, once the reset has taken the other for the reference.
            (1, moved(1), stepped(RESET), UNMASK, moved(0)),
            # Neither levels that stay, nor polarity, nor a reset that finds nothing, nor a STOP.
            (0, UNMASK, moved(0)), (0, UNMASK_BOTH, written(0x08, 0x03)), (0, moved(3), stepped(RESET)),
            (0, moved(3), MarkedBench.general_call), (0, UNMASK, stepped(STOP), stepped(RESET)),
            (0, UNMASK, written(0x0C, 0xFE), moved(1), stepped(RESET))):
        assert MarkedBench(which, port).signed(*acts) == wanted, (which, port, wanted)


@everywhere
def test_nothing_but_a_sign_off_clears_a_mark(which, port):
    """Each cause that ends a status bit, both resets, and what is no cause."""
    for latch, act in ((0, fetched(0x00)), (0, written(0x68, 0x01)), (0, written(0x54, 0xFF)), (0, written(0x60, 0x00)),
                       (0, written(0x60, 0x03)), (1, written(0x48, 0x00)), (0, written(0x0C, 0xFE)), (0, stepped(RESET)),
                       (0, MarkedBench.general_call), (0, moved(0)), (1, moved(0)), (0, stepped(START)), (0, stepped(STOP)),
                       (0, fetched(0x58)), (0, fetched(0x6C)), (0, written(0x04, 0x00)), (1, written(0x48, 0x01))):
        bench = MarkedBench(which, port)
        assert bench.signed(UNMASK, written(0x48, latch), moved(1), act) == 1, (which, port)
        # Signed off or not: only a pin at rest is.
        at_rest = bench.image().status == 0 and bench.image().level == 0
        assert bench.sign(0) == (0 if at_rest else 13) and bench.marks() == (0 if at_rest else 1)
        # Another one's sign-off is its own affair.
        assert bench.sign(1) == 0 and bench.marks() == (0 if at_rest else 1)


def lost(which, pin, marks, bus, healthy=0):
    """A device with one status bit, of a pin that is an unmasked input away from its reference."""
    part, image = PARTS[which], Device.make(which, 2, 1 << pin).image()
    registers = list(image.registers)
    registers[part.mask + pin // 8] &= ~(1 << pin % 8)
    return Marked(which, kept_image(which, image._replace(registers=tuple(registers), reference=0, bus=bus)), marks, healthy)


def test_resets_note_what_they_find():
    """A status bit without its mark is in images alone; of all events only a reset sets that mark."""
    for which in PARTS:
        for pin in (0, 7, 8, 23, which - 1):
            for other in (0, 1 << (pin + 3) % which):
                for bus in range(TELLING + 1):
                    for kind, arg in ((START, 0), (STOP, 0), (BYTE, 0x06), (BYTE, 0x00), (FETCH, 1), (FETCH, 0),
                                      (LEVELS, 0), (LEVELS, 1 << pin), (RESET, 0)):
                        device = lost(which, pin, other, bus)
                        assert device.image().status == 1 << pin
                        device.step(kind, arg)
                        found = kind == RESET or (kind, bus) == (STOP, ARMED)
                        assert device.marks == (other | 1 << pin if found else other), (which, pin, bus, kind)


SIGNED_OFF, UNHEALTHY = 0, 13


@everywhere
def test_sign_offs(which, port):
    """Pin 0, healthy at 0 or at 1; pin 1 as it comes."""
    for healthy in (0, 1):
        moved_away, moved_back = moved(1 - healthy), moved(healthy)
        for wanted, *acts in (
                (SIGNED_OFF,), (UNHEALTHY, moved_away), (SIGNED_OFF, moved_away, moved_back),
                (UNHEALTHY, UNMASK, moved_away), (SIGNED_OFF, UNMASK, moved_away, moved_back),
                (SIGNED_OFF, moved(healthy | 2)), (UNHEALTHY, moved(1 - healthy | 2)),
                # A held or marked pin asks for attention at its healthy level too, as long as nothing settles it.
                (UNHEALTHY, UNMASK, written(0x48, 0x01), moved_away, moved_back),
                (SIGNED_OFF, UNMASK, written(0x48, 0x01), moved_away, moved_back, fetched(0x00)),
                (SIGNED_OFF, UNMASK, written(0x48, 0x01), moved_away, moved_back, written(0x68, 0x01)),
                (UNHEALTHY, UNMASK, written(0x60, 0x03), moved_away, moved_back),
                (SIGNED_OFF, written(0x48, 0x01), moved_away, moved_back),
                # Settled away from it, it is not healthy; back again it rings, and masked it does not.
                (UNHEALTHY, UNMASK, moved_away, fetched(0x00)),
                (UNHEALTHY, UNMASK, moved_away, fetched(0x00), moved_back),
                (SIGNED_OFF, UNMASK, moved_away, fetched(0x00), moved_back, fetched(0x00)),
                (SIGNED_OFF, UNMASK, moved_away, fetched(0x00), moved_back, written(0x54, 0xFF)),
                (UNHEALTHY, UNMASK, moved_away, stepped(RESET)),
                (SIGNED_OFF, UNMASK, moved_away, stepped(RESET), moved_back),
                (UNHEALTHY, UNMASK, moved_away, MarkedBench.general_call),
                # Polarity is not asked, nor the direction, nor what an output drives or shows.
                (SIGNED_OFF, written(0x08, 0x01)), (UNHEALTHY, written(0x08, 0x01), moved_away),
                (SIGNED_OFF, UNMASK, written(0x08, 0x03)), (SIGNED_OFF, written(0x0C, 0xFE)),
                (UNHEALTHY, written(0x0C, 0xFE), moved_away),
                (SIGNED_OFF, UNMASK, moved_away, written(0x0C, 0xFE), moved_back),
                (SIGNED_OFF, written(0x04, 0xFE), written(0x0C, 0xFE)),
                (SIGNED_OFF, written(0x70, 0x01), written(0x0C, 0xFE)),
                (UNHEALTHY, UNMASK, written(0x0C, 0xFE), moved_away, written(0x0C, 0xFF))):
            for signed_before in (False, True):
                bench = MarkedBench(which, port, healthy, healthy | 2)
                if signed_before:
                    # A pin that nothing has happened to since is signed off, and judged all the same.
                    assert bench.sign(0) == 0
                for act in acts:
                    act(bench)
                before, marks = bench.image(), bench.device.marks
                assert bench.sign(0) == wanted, (which, port, healthy, wanted)
                assert bench.device.marks == (marks & ~(1 << 8 * port) if wanted == SIGNED_OFF else marks)
                assert bench.image() == before and bench.device.healthy == (healthy | 2) << 8 * port


def test_sign_off_refusals():
    """3, then 2, then 13; a refused one changes nothing."""
    for which, part in PARTS.items():
        beyond = (which, which + 1, which + 32, 40, 63, 64, 255, 256, 1 << 31, 0xFFFFFFFF)
        for marks, healthy, broken in ((0, 0, False), (part.limit - 1, part.limit - 1, False), (part.limit, 0, True),
                                       (0, part.limit, True), (1 << 63, 0, True), (5, 1 << 40 | 1, True),
                                       (part.limit, part.limit, True)):
            for bus in (IDLE, TELLING, TELLING + 1):
                for pin in (0, 1, 8, which - 1) + beyond:
                    # Pin 1 alone has a status bit, and its level is 1.
                    device = lost(which, 1, marks, bus, healthy)
                    wanted = (3 if broken or bus > TELLING else 2 if pin >= which else
                              13 if pin == 1 or healthy != 0 else 0)
                    assert device.sign_off(pin) == wanted, (which, marks, healthy, bus, pin)
                    assert device.marks == (marks & ~(1 << pin) if wanted == 0 else marks) and device.healthy == healthy


def test_broken_marks():
    """Either set with a pin past the last; before kind and argument, and the device stays."""
    for which, part in PARTS.items():
        sound = Device.make(which, 2, 0).image()
        events = (START, 0), (RESET, 0), (6, 0), (BYTE, 256), (LEVELS, part.limit), (99, 1 << 40)
        for marks, healthy in ((part.limit, 0), (0, part.limit), (part.limit, part.limit), (1 << 63, 5),
                               (5, 1 << 32 | part.limit), ((1 << 64) - 1, 0)):
            for image, event in ((image, event) for image in (sound, sound._replace(bus=12)) for event in events):
                device = Marked(which, image, marks, healthy)
                assert device.step(*event) == ('refused', 3)
                assert (device.image(), device.marks, device.healthy) == (image, marks, healthy)
        for event, number in (((6, 0), 1), ((BYTE, 256), 2), ((FETCH, 2), 2), ((LEVELS, part.limit), 2), ((6, 1 << 40), 1)):
            device = lost(which, 1, 0, FILLING)
            before = device.image()
            assert device.step(*event) == ('refused', number) and (device.image(), device.marks) == (before, 0)
        for sets in ((0, 0), (part.limit - 1, part.limit - 1)):
            assert Marked(which, sound, *sets).step(START, 0) == '-'


def test_marked_bursts():
    """The loss in one call, cut anywhere and spoiled anywhere: device and marks are as after that many events."""
    for which, part in PARTS.items():
        unmask = (START,), (BYTE, 0x44), (BYTE, part.mask), (BYTE, 0xFE)
        call = (START,), (BYTE, 0x00), (BYTE, 0x06), (STOP,)
        events = (*unmask, (LEVELS, 1), *call, *unmask, (LEVELS, 0), (RESET,), (FETCH, 1))
        data = events_of(*events)
        for bad, number in ((None, 0),) + REFUSED[which] + (() if part.wide else (((RESET, 0, 1), 2), ((LEVELS, 3, 1), 2))):
            for place in range(len(events) + 1):
                for marks in (0, 2, part.limit - 1):
                    one, single = (Marked(which, Device.make(which, 2, 0).image(), marks, 5) for _ in range(2))
                    wanted = [single.step(*(event + (0,))[:2]) for event in events[:place]]
                    given, asked = ((data, place) if bad is None else
                                    (data[:12 * place] + events_of(bad) + data[12 * place:], len(events) + 1))
                    assert one.burst(given, asked, 2 * asked) == (number, place, wanted)
                    assert (one.image(), one.marks, one.healthy) == (single.image(), single.marks, 5)
                    # The loss is the fifth event.
                    assert one.marks == (marks | 1 if place > 4 else marks)


def test_marked_bursts_refused_whole():
    starts = events_of((START,)) * 514
    for which, part in PARTS.items():
        sound = Device.make(which, 2, 0).image()
        for image, sets, broken in (
                (sound, (5, 3), False), (sound._replace(bus=12), (5, 3), True), (sound, (part.limit, 3), True),
                (sound, (5, part.limit), True), (sound._replace(place=3), (1 << 63, part.limit), True)):
            def told(given, asked, room):
                device = Marked(which, image, *sets)
                answer = device.burst(starts[:given], asked, room)
                assert (device.marks, device.healthy) == sets and (answer[1] or device.image() == image)
                return answer
            for given, asked, room in ((12, 2, 99), (0, 1, 99), (11, 0, 99), (13, 1, 99), (12, 1, 1), (514 * 12, 513, 9999),
                                       (514 * 12, 1 << 63, 0)):
                assert told(given, asked, room) == (8, None, []), (given, asked, room)
            for given, room in ((0, 0), (12, 0), (514 * 12, 9999)):
                assert told(given, 0, room) == (0, 0, [])
            for given, asked, room in ((12, 1, 2), (514 * 12, 512, 1024)):
                assert told(given, asked, room) == ((3, 0, []) if broken else (0, asked, ['-'] * asked))
            bad = Marked(which, image, *sets).burst(events_of((6, 0, 1)), 1, 2)
            assert bad == (3 if broken else 1, 0, [])


def test_marked_lines():
    """Marked bursts and sign-offs as text: the sets come after the image, in a line and in its answer."""
    rng = random.Random(20)
    for which, part in PARTS.items():
        device = lost(which, 1, 4, IDLE)
        fields = probe.image_fields(device.image())
        broken = probe.image_fields(device.image()._replace(bus=12))
        device.step(RESET, 0)
        after = probe.image_fields(device.image())
        sets, over = '%016x\t%016x' % (4, 3), '%016x\t%016x' % (part.limit | 4, 3)
        data = events_of((RESET,), (6,)).hex()
        for line, answer in (
                ('%s\t%s\t%016x\t%04x\t%s' % (fields, sets, 1, 5, data),
                 '0\t0000000000000001\t00003c3c3c\t%s\t%016x\t%016x' % (after, 6, 3)),
                ('%s\t%s\t%016x\t%04x\t%s' % (fields, sets, 2, 4, data),
                 '1\t0000000000000001\t00003c3c\t%s\t%016x\t%016x' % (after, 6, 3)),
                ('%s\t%s\t%016x\t%04x\t%s' % (fields, over, 2, 4, data),
                 '3\t0000000000000000\t3c3c3c3c\t%s\t%s' % (fields, over)),
                ('%s\t%s\t%016x\t%04x\t%s' % (broken, sets, 2, 4, data),
                 '3\t0000000000000000\t3c3c3c3c\trefused\t3\t%s' % sets),
                ('%s\t%s\t%016x\t%04x\t%s' % (broken, over, 3, 4, data),
                 '8\t0000000000000077\t3c3c3c3c\trefused\t3\t%s' % over),
                ('%s\t%s\t%016x\t%04x\t' % (broken, over, 0, 0), '0\t0000000000000000\t\trefused\t3\t%s' % over)):
            line, answer = line.encode(), answer.encode() + b'\n'
            assert marked_bursts.run_lines(which, line) == marked_bursts.run_lines(which, line + b'\n') == answer, line
        line = ('%s\t%s\t%016x\t%04x\t%s' % (fields, sets, 1, 5, data)).encode()
        parts = line.split(b'\t')
        for spoiled in (b'', line[1:], line + b'0', line + b'\t', line + b'\r', line[:-1], line.replace(b'\t', b' ', 1),
                        line + b'00' * 6180, b'\t'.join(parts[:13] + parts[15:]), b'\t'.join(parts[:13] + parts[14:]),
                        b'\t'.join(parts[:-1]), line.replace(b'\t0005\t', b'\t0408\t')):
            assert marked_bursts.run_lines(which, spoiled + b'\n') == b'refused\t7\n', spoiled[:500]
        for image, both, pin, answer in (
                (fields, sets, 0, '13\t' + sets), (fields, sets, 1, '13\t' + sets), (after, sets, 1, '0\t' + sets),
                (fields, sets, 2, '0\t%016x\t%016x' % (0, 3)), (fields, sets, 3, '0\t' + sets),
                (fields, sets, which, '2\t' + sets), (fields, sets, 0xFFFFFFFF, '2\t' + sets),
                (fields, over, which, '3\t' + over), (broken, sets, which, '3\t' + sets), (broken, over, 0, '3\t' + over)):
            line, told = ('%s\t%s\t%08x' % (image, both, pin)).encode(), answer.encode() + b'\n'
            assert sign_offs.run_lines(which, line) == sign_offs.run_lines(which, line + b'\n') == told, pin
            for _ in range(20):
                assert sign_offs.run_lines(which, generate_marks.spoiled_marks(rng, line) + b'\n') == b'refused\t7\n'


def test_marks_leave_the_device_alone():
    """Answers, refusals and states with sound marks are those without, of any event and of any burst."""
    rng = random.Random(21)
    for which in PARTS:
        for _ in range(600):
            read = probe.read_line(generate.image_line(rng, which)[:-1])
            if read:
                image, *event = read
                with_marks = Marked(which, image, *generate_marks.mark_sets(rng, which, image))
                without = Device(which, image)
                assert with_marks.step(*event) == without.step(*event)
                assert with_marks.image() == without.image() and with_marks.outputs() == without.outputs()
        for _ in range(100):
            image, asked, room, data = generate.burst_given(rng, which)
            with_marks = Marked(which, image, *generate_marks.mark_sets(rng, which, image))
            without = Device(which, image)
            assert with_marks.burst(data, asked, room) == without.burst(data, asked, room)
            assert with_marks.image() == without.image()


def test_watch_is_trace_with_marks():
    """Without its healthy sets, its sign-offs and its last column a log of watch is one of trace."""
    rng = random.Random(22)
    for which in PARTS:
        for _ in range(25):
            log = generate_marks.watch_log(rng, which, alone=rng.random() < 0.3)
            events, wanted = [], []
            for line, answer in zip(trace.split_lines(log), trace.split_lines(watch.run_log(log))[1:]):
                read = watch.read_line(line)
                if read and read[0] == watch.SIGN:
                    assert answer in (b'refused\t2', b'refused\t13', b'refused\t7') or answer.startswith(b'-\t')
                    continue
                # What is unreadable here may be a device line of trace, so it is another unreadable line there.
                unreadable = answer == b'refused\t7'
                device = b'no device' if unreadable else line.rpartition(b'\t')[0]
                events.append(device if line.startswith(b'device') else line)
                wanted.append(answer if unreadable else answer.rpartition(b'\t')[0])
            assert trace.split_lines(trace.run_log(b'\n'.join(events) + b'\n' * bool(events)))[1:] == wanted


def test_marks_in_one_sentence():
    """All pins at once, of any image: what an event sets, and which sign-off is taken."""
    rng, reset, signed = random.Random(23), 0, 0
    for which, part in PARTS.items():
        for _ in range(600):
            before = generate_marks.marked_image(rng, which)
            marks, healthy = generate_marks.mark_sets(rng, which, before)
            kind, arg = generate_marks.marked_event(rng, which, before.bus, before.choice)
            device = Marked(which, before, marks, healthy)
            device.step(kind, arg)
            found = before.status if kind == RESET or (kind, before.bus) == (STOP, ARMED) else 0
            assert device.marks == marks | device.image().status & ~before.status | found
            reset += found & ~marks != 0
            device, pin = Marked(which, before, marks, healthy), rng.randrange(part.pins)
            taken = (before.status | before.level ^ healthy) >> pin & 1 == 0
            assert device.sign_off(pin) == (0 if taken else 13)
            assert device.marks == (marks & ~(1 << pin) if taken else marks) and device.image() == before
            signed += taken
    assert min(reset, signed) > 50, (reset, signed)


def test_marks_from_power_on():
    """In a log a status bit always has its mark; only a sign-off clears one, of a pin at rest; only a rise sets it again."""
    rng, seen = random.Random(25), {'rises': 0, 'signed off': 0, 'refused': 0}
    for which in PARTS:
        for _ in range(25):
            session, marks = watch.Watch(), None
            for event in watch.read_log(generate_marks.watch_log(rng, which)):
                before = session.device and session.device.image()
                answer = session.answer(event)
                if answer == trace.UNREADABLE:
                    continue
                kind, arg, _ = event
                device, after, taken = session.device, session.device.image(), answer.startswith(b'-')
                if kind == trace.NEW:
                    marks = device.part.limit - 1
                elif kind == watch.SIGN:
                    seen['signed off' if taken else 'refused'] += 1
                    if taken:
                        assert (before.status | before.level ^ device.healthy) >> arg & 1 == 0
                        marks &= ~(1 << arg)
                    assert after == before
                else:
                    seen['rises'] += after.status & ~marks != 0
                    marks |= after.status & ~before.status
                assert device.marks == marks and after.status & ~marks == 0
    assert min(seen.values()) > 100, seen


def test_mark_generators():
    rng = random.Random(24)
    begins = {24: b'device\t', 34: b'device34\t'}
    for which in PARTS:
        for _ in range(30):
            log = generate_marks.watch_log(rng, which)
            assert log.startswith(begins[which]) and log.endswith(b'\n') and 40 <= log.count(b'\n') <= 500
            session = watch.Watch()
            for event in watch.read_log(generate_marks.watch_log(rng, which, others=False)):
                session.answer(event)
                assert session.device.which == which
        assert generate_marks.watch_log(random.Random(6), which) == generate_marks.watch_log(random.Random(6), which)
        # Every refusal, and none, of each kind of line; broken sets of either kind alone and of both.
        for line, module, numbers in ((generate_marks.marked_burst_line, marked_bursts, {0, 1, 2, 3, 8}),
                                      (generate_marks.sign_off_line, sign_offs, {0, 2, 3, 13}),
                                      (generate_marks.new_marks_line, new_marks, {0, 2})):
            lines = [line(rng, which)[:-1] for _ in range(250)]
            told = [module.answer_to(which, module.read_line(one)).partition(b'\t')[0] for one in lines]
            assert all(told.count(b'%d' % number) > 6 for number in numbers), (line.__name__, which)
            assert set(told) == {b'%d' % number for number in numbers} | {b'refused'}
        sets = [generate_marks.broken_sets(rng, which, (1, 2)) for _ in range(60)]
        assert {(marks >= PARTS[which].limit, healthy >= PARTS[which].limit) for marks, healthy in sets} == {
            (True, False), (False, True), (True, True)}
        poised = [Device(which, generate_marks.poised_image(rng, which)) for _ in range(100)]
        assert not any(device.broken for device in poised)


def main():
    began = time.monotonic()
    tests = [(name, test) for name, test in globals().items() if name.startswith('test_')]
    for name, test in tests:
        test()
    print('selftest: %d tests passed in %.1f s' % (len(tests), time.monotonic() - began))


if __name__ == '__main__':
    sys.exit(main())
