"""Seeded generators for either part: logs, answers to them, probe, view and burst lines, the planner's starts and goals."""

import re

from device import (ASK, ASKING, ASSERTED, BYTE, CALL, CHOSEN, EVENT_BYTES, FETCH, FILLING, IN_GROUP, LEVELS, MOST_EVENTS,
                    NAMED, NUMBER_BYTES, NUMBER_LIMIT, OPENED, OVER_MAP, PARTS, QUIET, REOPENED, SENDING, START, TELL,
                    TELLING, Device, Image, kept_image)
from probe import WIDTHS, image_fields
from trace import run_log


def known(which):
    return [number for number, group in enumerate(PARTS[which].map) if group]


def reserved(which):
    return [number for number, group in enumerate(PARTS[which].map) if not group]


def unstored(which):
    """The numbers whose entry is 0 in every image that is not broken."""
    return [number for number in range(128) if PARTS[which].stored[number] == 0]


def partly_stored(which):
    """The numbers that have unused bits: of the 24-pin part the output port kind alone."""
    return [number for number in range(128) if 0 < PARTS[which].stored[number] < 0xFF]


KNOWN, RESERVED, UNSTORED, PARTLY_STORED = (
    {which: numbers(which) for which in PARTS} for numbers in (known, reserved, unstored, partly_stored))

PLAIN = ('drive strength', 'pull enable', 'pull select', 'output port kind', 'debounce enable', 'debounce count',
         'debounce')

# The groups whose rules meet on one pin come up most; every group comes up.
NAMES = sorted({group.name for part in PARTS.values() for group in part.groups})
MIXED_WRITES = {name: 1 for name in NAMES}
MIXED_WRITES.update({
    'interrupt mask': 5, 'interrupt edge': 5, 'input latch': 5, 'configuration': 5, 'interrupt clear': 4,
    'polarity': 2, 'output': 2, 'output port kind': 2, 'pin output kind': 2,
})
MIXED_READS = {name: 1 for name in NAMES}
MIXED_READS.update({'input port': 6, 'interrupt status': 4, 'input status': 5, 'interrupt clear': 2})

# Marks live longest where little settles them.
MARK_WRITES = {'interrupt mask': 8, 'interrupt edge': 8, 'input latch': 8, 'configuration': 2, 'interrupt clear': 1}
MARK_READS = {'input port': 1, 'interrupt status': 4, 'input status': 4}

# What an output drives and what it shows.
OUTPUT_WRITES = {'output': 4, 'configuration': 4, 'output port kind': 3, 'pin output kind': 3, 'polarity': 2,
                 'input latch': 1, 'interrupt mask': 1}
OUTPUT_READS = {'input port': 4, 'input status': 4, 'interrupt status': 1, 'output': 1, 'output port kind': 1}

# Writes, reads, and the weights of a log's acts in the order of `Log.acts`.
TEMPERS = (
    (MIXED_WRITES, MIXED_READS, (30, 5, 0.3, 16, 20, 10, 4, 1, 6, 3, 5, 3, 1, 0.3)),
    (MIXED_WRITES, MIXED_READS, (30, 5, 0.3, 16, 20, 10, 4, 1, 6, 3, 5, 3, 1, 0.3)),
    (MARK_WRITES, MARK_READS, (20, 20, 0.3, 5, 20, 0.5, 0.3, 0.3, 0.3, 0.3, 0.3, 1, 2.5, 0.1)),
    (MARK_WRITES, MARK_READS, (20, 20, 0.3, 5, 20, 0.5, 0.3, 0.3, 0.3, 0.3, 0.3, 1, 2.5, 0.1)),
    (OUTPUT_WRITES, OUTPUT_READS, (30, 0, 0.3, 30, 15, 0.5, 1, 0.3, 0.3, 0.3, 0.3, 1, 0.3, 0.1)),
    # Mostly pins that turn from input to output and back.
    (MARK_WRITES, MARK_READS, (2, 2, 20, 1, 2, 0.1, 0.1, 0.1, 0.1, 0.1, 0.1, 0.3, 0.3, 0.1)),
    # Mostly hosts that ask for the number.
    (MIXED_WRITES, MIXED_READS, (1, 0.1, 0.1, 0.5, 0.5, 0.3, 0.5, 20, 0.3, 0.3, 0.3, 0.1, 0.1, 0.1)),
)
# How often a log's commands step over the whole map.
OVER_MAP_SHARES = (0, 0, 0.2, 0.7)


def weighted_group(rng, part, weights):
    """One of the part's groups; it has not all of the names."""
    names = [name for name in weights if name in part.named]
    return part.named[rng.choices(names, [weights[name] for name in names])[0]]


def device_line(which, choice, levels):
    return '%s\t%x\t%0*x' % ('device' if which == 24 else 'device34', choice, PARTS[which].digits, levels)


class Log:
    """A log under way: its lines, its part, its address, its levels and the few pins it dwells on.

    Its later devices are of its own part or, where others may come, of any.
    """

    tempers = TEMPERS

    def __init__(self, rng, which, others):
        self.rng, self.others = rng, others
        self.lines = []
        self.choice, self.levels_now = 0, 0
        self.writes, self.reads, self.weights = rng.choice(self.tempers)
        self.over_map = rng.choice(OVER_MAP_SHARES)
        self.be(which)

    def be(self, which):
        """From now on the device is of this part."""
        rng, self.which, self.part = self.rng, which, PARTS[which]
        # One pin alone shows its every mark on INT; two or three show that they keep apart.
        port = rng.choice((rng.randrange(self.part.ports), rng.randrange(self.part.ports), self.part.ports - 1))
        there = min(8, self.part.pins - 8 * port)
        self.focus = [8 * port + rng.randrange(there) for _ in range(rng.choice((1, 1, 2)))]
        if rng.random() < 0.2:
            self.focus.append(rng.randrange(self.part.pins))

    def number(self, name, pin=0):
        """The register of the group that holds the pin."""
        return self.part.named[name].first + pin // (4 if name == 'interrupt edge' else 8)

    def put_levels(self):
        self.lines.append('pins\t%0*x' % (self.part.digits, self.levels_now))

    def event(self, line):
        """One bus event, now and then with something else after it."""
        self.lines.append(line)
        chance = self.rng.random()
        if chance < 0.06:
            self.levels()
        elif chance < 0.07:
            self.lines.append('fetch\t%d' % self.rng.randrange(2))
        elif chance < 0.08:
            self.garbage()
        elif chance < 0.082:
            self.lines.append('reset')

    def device(self):
        self.choice = self.rng.randrange(4)
        self.levels_now = self.rng.choice((0, self.part.limit - 1, self.rng.randrange(self.part.limit)))
        self.lines.append(self.device_line())
        # Before any command: where the pointer is, and how it steps.
        if self.rng.random() < 0.1:
            self.start(1)
            self.lines += ['fetch\t1'] * (self.part.ports + 1)

    def device_line(self):
        return device_line(self.which, self.choice, self.levels_now)

    def later_device(self):
        """A new device, perhaps of the other part: levels in the digits of the one before are unreadable from then on."""
        before = self.part
        if self.others:
            self.be(self.rng.choice(list(PARTS)))
        self.device()
        if self.rng.random() < 0.5:
            self.lines.append('pins\t%0*x' % (before.digits, self.rng.randrange(before.limit)))
        self.levels()

    def start(self, read):
        self.event('start')
        self.event('byte\t%02x' % (0x40 + 2 * self.choice + read))

    def command(self, number, mode=None):
        """A command byte with the mode, or with one by chance; the mode."""
        if mode is None:
            mode = OVER_MAP if self.rng.random() < self.over_map else IN_GROUP
        self.event('byte\t%02x' % (mode << 7 | number))
        return mode

    def following(self, number, mode):
        """The number to which the pointer steps from it."""
        numbers, group = KNOWN[self.which], self.part.map[number]
        if mode == OVER_MAP:
            return numbers[(numbers.index(number) + 1) % len(numbers)]
        return group.first if number == group.last else number + 1

    def levels(self):
        """Mostly the pins dwelt on move, so that their marks come and go."""
        chance = self.rng.random()
        if chance < 0.03:
            self.levels_now = self.rng.randrange(self.part.limit)
        elif chance < 0.95:
            self.levels_now ^= 1 << self.rng.choice(self.focus)
        self.put_levels()

    def move(self, pin):
        self.levels_now ^= 1 << pin
        self.put_levels()

    def register(self, group):
        """Mostly the register of the group that holds a pin dwelt on."""
        if self.rng.random() < 0.15:
            return self.rng.randint(group.first, group.last)
        pin = self.rng.choice(self.focus)
        step = pin // 4 if group.name == 'interrupt edge' else pin // 8
        return min(group.first + step, group.last)

    def value(self, number):
        """Random bits for the pins dwelt on, mostly the default for the others; any byte for a plain register."""
        group = self.part.map[number]
        if group.name in PLAIN:
            return self.rng.randrange(256)
        base = self.rng.choices((group.default, self.rng.randrange(256), 0x00, 0xFF), (17, 1, 1, 1))[0]
        for pin in self.focus:
            if group.name == 'interrupt edge':
                if pin // 4 == number - group.first:
                    place = 2 * (pin % 4)
                    base = base & ~(3 << place) | self.rng.choice((0, 0, 1, 2, 3)) << place
            elif pin // 8 == number - group.first:
                bit = self.rng.random() < (0.25 if group.name == 'interrupt mask' else 0.5)
                base = base & ~(1 << pin % 8) | bit << pin % 8
        # Bits that are no pin's are ignored, so that they may be anything.
        return base ^ self.rng.randrange(256) & ~self.part.bits[number]

    def write(self):
        """A write of one or more registers, sometimes cut short or with a command not known."""
        rng = self.rng
        self.start(0)
        number = self.register(weighted_group(rng, self.part, self.writes))
        if rng.random() < 0.06:
            self.refused_command()
            return
        mode = self.command(number)
        for _ in range(rng.choices((0, 1, 2, 3, 4, 7), (1, 12, 2, 2, 1, 1))[0]):
            self.event('byte\t%02x' % self.value(number))
            number = self.following(number, mode)
        if rng.random() < 0.2:
            self.event('stop')

    def refused_command(self):
        """A reserved number with either mode; what is fetched after it shows the pointer of before, and how it steps."""
        rng = self.rng
        self.command(rng.choice(RESERVED[self.which]), rng.randrange(2))
        for _ in range(rng.randrange(3)):
            self.event('byte\t%02x' % rng.randrange(256))
        if rng.random() < 0.5:
            self.read_on()

    def walk(self):
        """Over the end of a group, around the top or over the whole map, written, read, or read after a STOP or a reset."""
        rng, all_numbers = self.rng, KNOWN[self.which]
        number = rng.choice((rng.choice(self.part.groups).last, rng.choice(all_numbers[-4:]), rng.choice(all_numbers)))
        count = rng.choices((2, 4, 9, len(all_numbers) + 1), (8, 8, 3, 1))[0]
        self.start(0)
        self.command(number, OVER_MAP)
        if rng.random() < 0.4:
            for _ in range(count):
                self.event('byte\t%02x' % self.value(number))
                number = self.following(number, OVER_MAP)
            count = 3
        between = rng.choice(('', '', 'stop', 'start', 'refused', 'reset', 'start byte\t00 byte\t06 stop'))
        if between == 'refused':
            self.start(0)
            self.refused_command()
        else:
            self.lines += between.split(' ') if between else ()
        # After a reset only a read past the input ports shows whether the pointer stays among them.
        if 'reset' in between or 'byte' in between:
            count = self.part.ports + 1
        self.start(1)
        for _ in range(count):
            self.event('fetch\t1')
        if rng.random() < 0.4:
            self.event('fetch\t0')
            self.read_on()

    def inventory(self):
        """A host that asks for the number, perhaps with one step wrong; what it reads next shows that the pointer stayed."""
        rng = self.rng
        if rng.random() < 0.4:
            self.start(0)
            self.command(rng.choice((rng.choice(self.part.groups).last, self.register(self.part.named['input port']))),
                         rng.choice((None, OVER_MAP)))
        steps = ['start', 'byte\tf8', self.own_byte(), 'start', 'byte\tf9']
        if rng.random() < 0.7:
            self.go_wrong(steps)
        steps += ['fetch\t1'] * rng.choice((0, 1, 1, 2, 3, 3, 4, 7))
        # What ends it, and a fetch that shows whether it has ended.
        byte = rng.choice((self.own_byte(), 'byte\t%02x' % rng.choice((ASK, TELL, 0x00, rng.randrange(256)))))
        steps += rng.choice(([], ['fetch\t0', 'fetch\t1'], ['stop', 'fetch\t1'], ['start', 'byte\tf9'], [byte, 'fetch\t1']))
        for step in steps:
            self.event(step)
        rng.choice((self.read_on, self.read_on, self.read_on, self.read, self.write))()

    def go_wrong(self, steps):
        """One step of an inventory is forgotten, or something else is said before it or in its stead."""
        rng, own = self.rng, self.own_byte()
        other = 'byte\t%02x' % rng.choice((rng.randrange(0x40, 0x48), rng.randrange(0x40, 0x48), rng.randrange(256)))
        said = rng.choice(([], ['start'], ['stop'], ['byte\tf8'], ['byte\tf9'], ['byte\t00'], [own], [other], [other],
                           ['fetch\t%d' % rng.randrange(2)], ['reset'],
                           # All over again, or only F8h.
                           ['byte\tf8', own, 'start'], ['byte\tf8', 'start']))
        place = rng.choices(range(len(steps)), (1, 1, 3, 3, 3))[0]
        steps[place:place + (not said or rng.random() < 0.3)] = said

    def own_byte(self):
        """The own address with either lowest bit."""
        return 'byte\t%02x' % (0x40 + 2 * self.choice + self.rng.randrange(2))

    def read_on(self):
        """A read of a few registers from where the pointer stands."""
        self.start(1)
        for _ in range(self.rng.randint(1, 4)):
            self.event('fetch\t1')

    def read(self):
        """A read from a register just named, or from where the pointer stands."""
        rng = self.rng
        if rng.random() < 0.85:
            self.start(0)
            self.command(self.register(weighted_group(rng, self.part, self.reads)))
            if rng.random() < 0.1:
                self.event('stop')
        self.start(1)
        for _ in range(rng.choices((0, 1, 2, 3, 4, 7), (1, 10, 5, 3, 2, 1))[0]):
            self.event('fetch\t%d' % (rng.random() < 0.65))
        if rng.random() < 0.1:
            self.event('byte\t%02x' % rng.randrange(256))
            self.event('fetch\t1')
        if rng.random() < 0.2:
            self.event('stop')

    def look(self, group):
        """A fetch from the register of the group that holds a pin dwelt on."""
        self.start(0)
        self.command(self.register(group))
        self.start(1)
        self.event('fetch\t%d' % self.rng.randrange(2))

    def hide_and_show(self):
        """A pin moves and one of its registers is written twice, or two are: what was hidden must not come back."""
        rng = self.rng
        numbers = [self.register(weighted_group(rng, self.part, MARK_WRITES)) for _ in range(2)]
        if rng.random() < 0.6:
            numbers[1] = numbers[0]
        for _ in range(rng.randrange(3)):
            self.levels()
        for number in numbers:
            self.start(0)
            self.command(number)
            self.event('byte\t%02x' % self.value(number))
            if rng.random() < 0.6:
                self.look(self.part.named['interrupt status'])
            if rng.random() < 0.3:
                self.levels()
        if rng.random() < 0.3:
            self.look(weighted_group(rng, self.part, MARK_READS))

    def write_pin(self, name, pin, bits):
        """A write to the register of the group that holds the pin, with these bits for it."""
        place, all_bits = (2 * (pin % 4), 3) if name == 'interrupt edge' else (pin % 8, 1)
        number = self.number(name, pin)
        self.start(0)
        self.command(number)
        self.event('byte\t%02x' % (self.value(number) & ~(all_bits << place) | bits << place))

    def turn_around(self):
        """A pin is an output for a while: what happens to it then shows when it is an input again."""
        rng = self.rng
        pin = rng.choice(self.focus)
        self.write_pin('configuration', pin, 0)
        meanwhile = (
            lambda: self.move(pin), lambda: self.look(self.part.named['input port']),
            lambda: self.write_pin('interrupt clear', pin, 1),
            lambda: self.write_pin('input latch', pin, rng.choice((0, 1, 1))),
            lambda: self.write_pin('interrupt mask', pin, rng.randrange(2)),
            lambda: self.write_pin('interrupt edge', pin, rng.randrange(4)))
        happens = rng.choices(meanwhile, (1, 1, 1, 4, 3, 3), k=rng.randint(0, 3))
        happens.insert(rng.randint(0, len(happens)), lambda: self.move(pin))
        for act in happens:
            act()
        self.write_pin('configuration', pin, 1)
        # Unmasked, without a field, back where it was: each shows something else of what is held.
        after = (lambda: self.write_pin('interrupt mask', pin, 0), lambda: self.write_pin('interrupt edge', pin, 0),
                 lambda: self.move(pin))
        for act in rng.sample(after, rng.randint(0, 3)):
            act()

    def read_back(self):
        """Any register written and read again, perhaps with a reset between."""
        rng = self.rng
        number = rng.choice(PARTLY_STORED[self.which] if rng.random() < 0.2 else KNOWN[self.which])
        self.start(0)
        self.command(number)
        for _ in range(rng.randint(1, 3)):
            self.event('byte\t%02x' % rng.randrange(256))
        if rng.random() < 0.2:
            rng.choice((lambda: self.lines.append('reset'), self.general_call))()
        # Without the number again, the read shows where the writes have left the pointer.
        if rng.random() < 0.6:
            self.start(0)
            self.command(number)
        self.start(1)
        for _ in range(rng.randint(1, 3)):
            self.event('fetch\t1')

    def hard_reset(self):
        """A reset, perhaps with a master that goes on as if nothing had been."""
        self.lines.append('reset')
        if self.rng.random() < 0.5:
            self.event('byte\t%02x' % self.rng.randrange(256))
            self.event('fetch\t1')
        if self.rng.random() < 0.5:
            self.setting_up()

    def general_call(self):
        rng = self.rng
        self.event('start')
        self.event('byte\t00')
        if rng.random() < 0.15:
            self.event('stop')
            return
        self.event('byte\t%02x' % rng.choices((0x06, 0x00, rng.randrange(256)), (6, 2, 2))[0])
        for _ in range(rng.choices((0, 1, 2), (5, 3, 1))[0]):
            rng.choice((lambda: self.event('start'), lambda: self.event('byte\t06'),
                        lambda: self.event('byte\t%02x' % rng.choice((0x06, 0x00))),
                        lambda: self.event('fetch\t1'), self.levels))()
        if rng.random() < 0.8:
            self.event('stop')

    def stray(self):
        """Events that fit nowhere."""
        rng = self.rng
        heard = [0x00, 0x06, 0xF8, 0xF9] + list(range(0x3E, 0x4A))
        for _ in range(rng.randint(1, 4)):
            self.event(rng.choice((
                'start', 'stop', 'fetch\t0', 'fetch\t1',
                'byte\t%02x' % rng.randrange(256), 'byte\t%02x' % rng.choice(heard))))

    def other_address(self):
        self.event('start')
        self.event('byte\t%02x' % self.rng.choice((0xF9, 0x01, 0x06, self.rng.randrange(0x3E, 0x4A))))
        self.event('byte\t%02x' % self.rng.choice(KNOWN[self.which]))
        self.event('fetch\t1')

    def garbage(self):
        rng = self.rng
        self.lines.append(rng.choice(rng.choice((GARBAGE, NO_DEVICES, DIGITS[self.which])) + (
            'pins\t' + '0' * rng.randint(29, 400), 'start' * rng.randint(7, 100),
            'y' * rng.choice((64, 1023, 1024, 4095, 4096, 5000)))))

    def before_device(self):
        """What has no device that it could be about."""
        self.stray()
        self.garbage()
        self.levels()
        self.write()
        self.lines.append('reset')

    def setting_up(self):
        """Most logs begin with the pins dwelt on unmasked, else INT stays quiet for long."""
        for pin in self.focus:
            self.start(0)
            self.command(self.number('interrupt mask', pin))
            self.event('byte\t%02x' % (0xFF & ~(1 << pin % 8)))
            if self.rng.random() < 0.5:
                edge = self.number('interrupt edge', pin)
                self.start(0)
                self.command(edge)
                self.event('byte\t%02x' % self.value(edge))

    def acts(self):
        return (self.write, self.hide_and_show, self.turn_around, self.read, self.levels, self.read_back, self.walk,
                self.inventory, self.general_call, self.stray, self.other_address, self.garbage, self.hard_reset,
                self.later_device)

    def go_on(self, length, weights):
        """Acts by chance until the log has so many lines; what an act left in the status is looked at now and then."""
        acts = self.acts()
        while len(self.lines) < length:
            self.rng.choices(acts, weights)[0]()
            if self.rng.random() < 0.3:
                self.look(self.part.named['interrupt status'])


# Lines that no session can read.
GARBAGE = (
    '', ' ', '\t', 'start ', ' start', 'START', 'Start', 'start\r', 'stop\r', 'reset\r', 'start\t', '\tstart',
    'stop\t0', 'reset\t', 'byte', 'byte\t', 'byte\t4', 'byte\t044', 'byte\t4G', 'byte\tFF', 'byte\t0x', 'byte\t4 ',
    'byte 44', 'byte\t\t44', 'byte\t44\t', 'byte\t44\t44', 'byte\t44\r', 'byte\t-1', 'byte\t+1', 'byte\t1_', 'fetch',
    'fetch\t', 'fetch\t2', 'fetch\t00', 'fetch\t01', 'fetch\tf', 'fetch\t1\r', 'fetch\t1\t', 'pins', 'pins\t',
    'pins\t00000', 'pins\t0000000', 'pins\t1000000', 'pins\tABCDEF', 'pins\t00000g', 'pins\t000001\r',
    'pins\t000001\t', 'pins\t0000 1', 'starts', 'stopp', 'rese', 'answer\tint\tlow\thigh', '\0', 'start\0', '\xff\xfe',
    'byte\t\xb2\xb2', 'refused\t7', 'x' * 31, 'x' * 32, 'x' * 33, 'start' + ' ' * 27, 'start' + ' ' * 28,
    'pins\t' + '0' * 27, 'pins\t' + '0' * 28, 'byte\t44' * 5, 'z' * 70 + '\tpins\t000001', 'q' * 33 + 'stop',
    'q' * 32 + 'stop', 'pins\t00000001', 'pins\t0000000001', 'pins\t0000000g1', 'pins\t00000000A', 'pins\t000000001\r',
    'pins\t000000001\t',
)
# Those that make no device.
NO_DEVICES = (
    'device', 'device\t0', 'device\t4\t000000', 'device\tf\t000000', 'device\t00\t000000', 'device\t2\t1000000',
    'device\t2\t00000', 'device\tA\t000000', 'device\t2\t00000F', 'device\t2\t000000\t', 'device\t2\t000000\r',
    'device\t\t000000', 'device\t2\t', 'devices\t2\t000000', 'device34', 'device34\t0', 'device34\t4\t000000000',
    'device34\t2\t000000', 'device34\t2\t00000000', 'device34\t2\t0000000000', 'device34\t2\t400000000',
    'device34\t0\tfffffffff', 'device34\t1\t800000000', 'device34\t00\t000000000', 'device34\t2\t00000000F',
    'device34\t2\t000000000\t', 'device34\t2\t000000000\r', 'device34\t\t000000000', 'device34 2 000000000',
    'device\t2\t000000000', 'device\t0\t000000001', 'device\t3\t000ffffff', 'device24\t2\t000000',
    'device340\t2\t000000000', 'device3\t2\t000000000', 'Device34\t2\t000000000', 'device34\tA\t000000000',
    'device\t34\t000000000', 'device\t2\tfffffffff', 'device\t5\t000001', 'device\t8\tffffff',
    'device34\t5\t000000001', 'device34\t8\t3ffffffff',
)
# And those that the other part could, or that have more pins than digits tell.
DIGITS = {
    24: ('pins\t000000001', 'pins\t000ffffff', 'pins\t3ffffffff', 'pins\t000000000'),
    34: ('pins\t000001', 'pins\tffffff', 'pins\t000000', 'pins\t400000000', 'pins\tfffffffff', 'pins\t400000001',
         'pins\t800000000'),
}


def trace_log(rng, which, alone=False, others=True, kind=Log):
    """A log of some 60 to 350 lines; alone, it may begin before a device, be empty, or lack its last newline."""
    log = kind(rng, which, others)
    if alone:
        if rng.random() < 0.1:
            return b''
        if rng.random() < 0.5:
            log.before_device()
    log.device()
    if rng.random() < 0.8:
        log.setting_up()
    length = rng.choice((60, 200, 260, 340))
    log.go_on(length, log.weights)
    end = '' if alone and rng.random() < 0.6 else '\n'
    return ('\n'.join(log.lines) + end).encode('latin-1')


def long_log(rng, which, length, kind=Log):
    """A log of so many lines or a few more, all of one device from its power-on."""
    log = kind(rng, which, False)
    log.device()
    log.go_on(length, log.weights[:-1] + (0,))
    return ('\n'.join(log.lines) + '\n').encode('latin-1')


# Probe lines.

def random_marks(rng, which, focus):
    """Few, all, none or random pins, and the pins dwelt on by chance."""
    limit = PARTS[which].limit
    marks = rng.choice((0, limit - 1, rng.randrange(limit), rng.randrange(limit)))
    for pin in focus:
        marks ^= rng.randrange(2) << pin
    return marks


def random_registers(rng, which):
    """Defaults, or random bytes in the stored registers."""
    part = PARTS[which]
    registers = part.power_on()
    share = rng.choice((0.1, 0.5, 1, 1))
    for n in KNOWN[which]:
        if part.map[n].stored and rng.random() < share:
            registers[n] = rng.choice((rng.randrange(256), rng.randrange(256), 0x00, 0xFF)) & part.bits[n]
    return registers


def meant_event(rng, which, bus, choice):
    """An event that means something in this bus state."""
    kind = rng.choices(range(6), (1, 1, 6, 4, 4, 1))[0]
    if bus in (FILLING, CHOSEN, OPENED, CALL, ASKING, REOPENED) and rng.random() < 0.6:
        kind = BYTE
    if bus in (SENDING, TELLING) and rng.random() < 0.7:
        kind = FETCH
    if bus == NAMED and rng.random() < 0.4:
        kind = START
    if kind == BYTE:
        arg = rng.choice((rng.randrange(256), 0x00, 0xFF, 1 << rng.randrange(8)))
        if bus in (OPENED, ASKING, NAMED, REOPENED, TELLING):
            arg = rng.choice((arg, 0x40 + 2 * choice, 0x41 + 2 * choice, 0x00, rng.randrange(0x3E, 0x4A), ASK, TELL))
        elif bus == CHOSEN:
            known_number, refused = rng.choice(KNOWN[which]), rng.choice(RESERVED[which]) | rng.choice((0, 0x80))
            arg = rng.choice((arg, known_number, refused, 0x80 | known_number))
        elif bus == CALL:
            arg = rng.choice((arg, 0x06))
    elif kind == FETCH:
        arg = rng.randrange(2)
    elif kind == LEVELS:
        arg = rng.choice((rng.randrange(PARTS[which].limit), 0, PARTS[which].limit - 1))
    else:
        arg = rng.choice((0, 1, rng.randrange(1 << 64)))
    return kind, arg


def over(rng, limit, top):
    """A number just at a limit, often, or past it, or past it only beyond the lower bytes."""
    shifts = [1 << s for s in (8, 16, 24, 32, 40, 63) if limit < 1 << s < top]
    return rng.choice([limit] * 3 + [limit + 1, top - 1, rng.randrange(limit, top)] + shifts)


def broken_image(rng, which, image):
    """The image with one of refusal 3's faults, and no other: status and line fit the rest, or only they do not."""
    part, registers = PARTS[which], list(image.registers)
    way = rng.randrange(16)
    if way == 0:
        return image._replace(pointer=rng.choice(RESERVED[which]))
    if way == 1:
        return image._replace(pointer=rng.choice((0x7F, over(rng, 0x80, 256), 0x80 | rng.choice(KNOWN[which]))))
    if way == 2:
        return image._replace(bus=over(rng, TELLING + 1, 256))
    if way == 3:
        return image._replace(choice=over(rng, 4, 256))
    if way == 4:
        name = rng.choice(('level', 'reference', 'held', 'edge'))
        return kept_image(which, image._replace(**{name: rng.choice((part.limit, over(rng, part.limit, 1 << 64)))}))
    if way == 5:
        number = rng.choice((rng.choice(PARTLY_STORED[which]), part.port_kind))
        unused = 0xFF & ~part.bits[number]
        registers[number] |= rng.choice((unused & -unused, unused, rng.randrange(1, 256) & unused or unused))
        if rng.random() < 0.5:
            registers[number] &= unused
    elif way == 6:
        registers[rng.choice(UNSTORED[which])] = rng.choice((1, 0x80, rng.randrange(1, 256)))
    elif way == 7:
        group = rng.choice([group for group in part.groups if not group.stored])
        registers[rng.choice((group.first, group.last, part.clear, 0x77, 0x7F))] = rng.randrange(1, 256)
    elif way == 8:
        return image._replace(mode=rng.choice((over(rng, 2, 256), 0x80 | rng.randrange(2))))
    elif way == 9:
        return image._replace(number=rng.choice((over(rng, NUMBER_LIMIT, 1 << 32), 1 << 31, image.number | NUMBER_LIMIT)))
    elif way == 10:
        return image._replace(place=over(rng, NUMBER_BYTES, 256))
    else:
        return wrongly_kept(rng, which, image, way - 11)
    # Bits that are cleared may move status and line.
    return kept_image(which, image._replace(registers=tuple(registers)))


def wrongly_kept(rng, which, image, way):
    """The image with a status bit too many or too few, one past the pins, another line, or both as of another moment."""
    pins = PARTS[which].pins
    asking = [pin for pin in range(pins) if image.status >> pin & 1]
    flipped = image.status ^ 1 << rng.choice((rng.randrange(pins), rng.choice(asking or [0])))
    if way == 0:
        return image._replace(status=flipped)
    if way == 1:
        return image._replace(status=image.status | 1 << rng.choice((pins, 63, rng.randrange(pins, 64))))
    if way == 2:
        return image._replace(line=QUIET if image.line == ASSERTED else ASSERTED)
    if way == 3:
        return image._replace(line=over(rng, 2, 256))
    status = 0 if image.status else flipped
    return image._replace(status=status, line=ASSERTED if status else QUIET)


def spoiled_line(rng, line):
    """The line made unreadable."""
    fields = line.split(b'\t')
    place = rng.randrange(len(fields))
    way = rng.randrange(11)
    if way == 0:
        del fields[place]
    elif way == 1:
        fields[place] += b'0'
    elif way == 2:
        fields[place] = fields[place][1:]
    elif way == 3:
        fields[place] = fields[place][:-1] + rng.choice((b'g', b'A', b' ', b'-', b'\xff', b'\0', b'_'))
    elif way == 4:
        fields.insert(place, b'')
    elif way == 5:
        fields.append(rng.choice((b'', b'00')))
    elif way == 6:
        fields[-1] += b'\r'
    elif way == 7:
        return rng.choice((b'', b'\t', b'start', b'0' * len(line), b'0' * 5000))
    elif way in (8, 9):
        # There is one form: an image without number and place is none, nor one without the mode too, nor status and line.
        del fields[rng.choice((8, 10, 11)):13]
    else:
        fields[place] = b''
    return b'\t'.join(fields)


def unmask_few(which, registers, pins):
    """All other pins masked, so that what these do shows on INT."""
    part = PARTS[which]
    for port in range(part.ports):
        registers[part.mask + port] = part.bits[part.mask + port]
    for pin in pins:
        registers[part.mask + pin // 8] &= ~(1 << pin % 8)


def random_number(rng):
    """Mostly three bytes that differ; small ones, the smallest and the largest too."""
    return rng.choice((rng.randrange(NUMBER_LIMIT), rng.randrange(NUMBER_LIMIT), rng.randrange(256), 0, NUMBER_LIMIT - 1))


def sound_image(rng, which, pointer, bus):
    """A well-formed image; a few pins and, of the sister, the last port's differ most from one to the next."""
    pins = PARTS[which].pins
    focus = [rng.randrange(pins), rng.randrange(pins), pins - 1 - rng.randrange(2)]
    registers = random_registers(rng, which)
    if rng.random() < 0.3:
        unmask_few(which, registers, focus[:rng.randint(1, 3)])
    return kept_image(which, Image(tuple(registers),
                                   *(random_marks(rng, which, focus) for _ in range(4)),
                                   pointer, bus, rng.randrange(4), 0, QUIET, rng.randrange(2),
                                   random_number(rng), rng.randrange(NUMBER_BYTES)))


def argument_limits(which):
    """The first argument that is refused, of the kinds that look at theirs."""
    return {BYTE: 256, FETCH: 2, LEVELS: PARTS[which].limit}


def busy_image(rng, which):
    """A well-formed image that is mostly about to write or to be read, mostly where marks come and go."""
    named = PARTS[which].named
    bus = rng.choices(range(TELLING + 1), (1, 2, 2, 8, 5, 1, 2, 1, 1, 1, 2, 2))[0]
    number = rng.choice(KNOWN[which])
    if bus == FILLING and rng.random() < 0.7:
        group = named[rng.choice(list(MARK_WRITES))]
        number = rng.randint(group.first, group.last)
    if bus == SENDING and rng.random() < 0.6:
        group = named[rng.choice(('input port', 'input status', 'interrupt status'))]
        number = rng.randint(group.first, group.last)
    if rng.random() < 0.15:
        number = rng.choice((rng.choice(PARTS[which].groups).last, KNOWN[which][-1]))
    return sound_image(rng, which, number, bus)


def image_line(rng, which):
    """A probe line with its newline: mostly a well-formed image and a fitting event."""
    image = busy_image(rng, which)
    kind, arg = meant_event(rng, which, image.bus, image.choice)
    if rng.random() < 0.16:
        image = broken_image(rng, which, image)
    if rng.random() < 0.06:
        kind, arg = over(rng, 6, 1 << 32), rng.choice((0, arg, rng.randrange(1 << 64)))
    elif rng.random() < 0.1:
        kind, limit = rng.choice(list(argument_limits(which).items()))
        arg = rng.choice((limit - 1, over(rng, limit, 1 << 64)))
    line = ('%s\t%0*x\t%0*x' % (image_fields(image), WIDTHS[-2], kind, WIDTHS[-1], arg)).encode()
    if rng.random() < 0.04:
        line = spoiled_line(rng, line)
    return line + b'\n'


# View lines.

def register_number(rng, which):
    """Mostly a known number; else reserved, 80h to FFh, or larger and known in its low byte."""
    known_number = rng.choice(KNOWN[which])
    larger = over(rng, 0x100, 1 << 32) & ~0xFF | known_number
    return rng.choices((known_number, rng.choice(RESERVED[which]), rng.randrange(0x80, 0x100), larger), (5, 1, 1, 1))[0]


def view_line(rng, which):
    """An image and a register number with their newline: two images in three are well formed."""
    image = sound_image(rng, which, rng.choice(KNOWN[which]), rng.randrange(TELLING + 1))
    if rng.random() < 0.33:
        image = broken_image(rng, which, image)
    line = ('%s\t%08x' % (image_fields(image), register_number(rng, which))).encode()
    if rng.random() < 0.04:
        line = spoiled_line(rng, line)
    return line + b'\n'


# Burst lines.

# Lines of so many events are long, so few of them are.
BURST_SIZES, BURST_WEIGHTS = (0, 1, 6, 25, 100), (1, 3, 8, 6, 1)
LONGEST_BURSTS = (MOST_EVENTS - 1, MOST_EVENTS, MOST_EVENTS + 1, MOST_EVENTS + 2)


def event_bytes(kind, arg, rest):
    return b''.join(word.to_bytes(4, 'little') for word in (kind, arg, rest))


WORD = 0xFFFFFFFF


def meant_events(rng, which, image, count, meant):
    """Events that mean something, each in the bus state that those before it lead to."""
    device = Device(which, image)
    events = []
    for _ in range(count):
        kind, arg = meant(rng, which, device.bus, device.choice)
        events.append((kind, arg & WORD, arg >> 32 if device.part.wide else 0))
        device.step(kind, arg)
    return events


def refused_event(rng, which, event):
    """The event with a kind, an argument or a third word that is refused, perhaps with two of them."""
    kind, low, rest = event
    way = rng.randrange(5)
    if way == 0:
        return over(rng, 6, 1 << 32), rng.choice((0, low, WORD)), rng.choice((0, rest))
    if way == 1:
        return over(rng, 6, 1 << 32), low, over(rng, 1, 1 << 32)
    if way == 2 or PARTS[which].wide:
        kind, limit = rng.choice(list(argument_limits(which).items()))
        arg = over(rng, limit, 1 << 64 if PARTS[which].wide else 1 << 32)
        # Of the sister also numbers that would pass without their upper half.
        if PARTS[which].wide and rng.random() < 0.5:
            arg = over(rng, max(1, limit >> 32), 1 << 32) << 32 | rng.choice((0, 1))
        return kind, arg & WORD, arg >> 32 if PARTS[which].wide else rng.choice((0, 0, 1))
    return rng.choice((kind, rng.randrange(6))), rng.choice((0, low & 1)), over(rng, 1, 1 << 32)


def burst_of_eight(rng, data, asked, room):
    """One of refusal 8's faults: bytes past whole events, too much asked, or too little room."""
    given = len(data) // EVENT_BYTES
    way = rng.randrange(4)
    if way == 0:
        cut = rng.choice((1, 11, rng.randint(1, 11)))
        return (data[:-cut] if data and rng.random() < 0.5 else data + bytes(cut)), min(asked, max(given - 1, 0)), room
    if way == 1:
        return data, given + rng.choice((1, 1, 2, rng.randint(1, 600))), 2 * MOST_EVENTS + 4
    if way == 2:
        asked = rng.choice((MOST_EVENTS + 1, over(rng, MOST_EVENTS + 1, 1 << 64)))
        return data, asked, rng.choice((0, room, 2 * MOST_EVENTS + 4))
    asked = max(asked, 1) if given else 1
    return data or bytes(EVENT_BYTES), asked, rng.choice((2 * asked - 1, asked, 0, rng.randrange(2 * asked)))


def any_image(rng, which):
    """A well-formed image with any pointer in any bus state."""
    return sound_image(rng, which, rng.choice(KNOWN[which]), rng.randrange(TELLING + 1))


def burst_given(rng, which, image_of=any_image, meant=meant_event):
    """(image, number asked, room, events' bytes): half are done whole, the others refused at some event or with 8."""
    image = image_of(rng, which)
    count = rng.choices(BURST_SIZES, BURST_WEIGHTS)[0]
    count = rng.choice(LONGEST_BURSTS) if rng.random() < 0.02 else rng.randint(count // 2, count)
    events = meant_events(rng, which, image, count, meant)
    if events and rng.random() < 0.4:
        place = rng.choice((0, count - 1, rng.randrange(count)))
        events[place] = refused_event(rng, which, events[place])
    data = b''.join(event_bytes(*event) for event in events)
    # Where more are given than may be asked, as many as may be, or one more.
    whole_or_part = (count, count, rng.randint(0, count))
    asked = rng.choice(whole_or_part if count <= MOST_EVENTS else (MOST_EVENTS, MOST_EVENTS + 1))
    room = 2 * asked + rng.choice((0, 0, 1, 2))
    if rng.random() < 0.2:
        data, asked, room = burst_of_eight(rng, data, asked, room)
    if rng.random() < 0.12:
        image = broken_image(rng, which, image)
        if rng.random() < 0.3:
            asked = 0
    return image, asked, room, data


def burst_line(rng, which):
    """A burst line with its newline."""
    image, asked, room, data = burst_given(rng, which)
    line = ('%s\t%016x\t%04x\t%s' % (image_fields(image), asked, room, data.hex())).encode()
    if rng.random() < 0.03:
        line = spoiled_line(rng, line)
    return line + b'\n'


# The planner's starts and goals: a byte for each of the part's registers, outputs, configurations, port kind, pin kinds.

def random_setting(rng, which):
    part = PARTS[which]
    return bytearray(rng.choice((rng.randrange(256), rng.randrange(256), 0x00, 0xFF)) & part.bits[number]
                     for number in part.settings)


def few_bits_moved(rng, which, setting):
    part, moved = PARTS[which], bytearray(setting)
    for _ in range(rng.randint(1, 5)):
        place = rng.randrange(len(moved))
        moved[place] ^= 1 << rng.randrange(part.bits[part.settings[place]].bit_length())
    return moved


def setting_pair(rng, which):
    """A start and a goal, well formed, of one of several tempers."""
    part, ports = PARTS[which], PARTS[which].ports
    directions, port_kind, pin_kinds = slice(ports, 2 * ports), 2 * ports, 2 * ports + 1
    start, goal = random_setting(rng, which), random_setting(rng, which)
    temper = rng.randrange(9)
    if temper == 0:
        goal = few_bits_moved(rng, which, start)
    elif temper == 1:
        start[directions] = goal[directions] = bytes(part.bits[number] for number in part.settings[directions])
    elif temper == 2:
        start[directions] = goal[directions] = bytes(ports)
    elif temper == 3:
        goal[port_kind] = start[port_kind] ^ rng.randrange(1, 1 << ports)
    elif temper == 4:
        goal[port_kind] = start[port_kind]
    elif temper == 5:
        # No pin of a port whose kind changes is high at both ends, else most random pairs are hopeless.
        for port in range(ports):
            goal[port] &= ~start[port] | start[ports + port] | goal[ports + port]
    elif temper == 6:
        # One pin high at both ends while its port's bit changes; the others out of the way, or not.
        pin = rng.randrange(part.pins)
        port, bit = pin // 8, 1 << pin % 8
        for k in range(ports):
            goal[k] &= ~start[k] & 0xFF
        goal[port_kind] = start[port_kind] ^ 1 << port
        for setting in (start, goal):
            setting[port] |= bit
            setting[ports + port] &= ~bit
            kind = bit if setting[port_kind] >> port & 1 else 0
            setting[pin_kinds + port] = setting[pin_kinds + port] & ~bit | kind
        if rng.random() < 0.5:
            rng.choice((start, goal))[rng.choice((0, pin_kinds)) + port] ^= bit
    elif temper == 7:
        goal = bytearray(start)
    return bytes(start), bytes(goal)


def malformed_pair(rng, which):
    """A start and a goal of whole bytes, at least one of them of another length or with an unused bit set."""
    part = PARTS[which]
    whole = len(part.settings)
    unused = [place for place, number in enumerate(part.settings) if part.bits[number] != 0xFF]
    lengths = sorted({1, whole - 1, whole + 1, 2 * whole} | {len(other.settings) for other in PARTS.values()} - {whole})
    ends = [random_setting(rng, which), random_setting(rng, which)]
    for place in rng.choice(((0,), (1,), (0, 1))):
        if rng.random() < 0.5:
            at = rng.choice(unused)
            free = 0xFF & ~part.bits[part.settings[at]]
            ends[place][at] |= rng.choice((free & -free, free, rng.randrange(256) & free or free))
        else:
            length = rng.choice(lengths + [rng.randint(1, whole - 1), rng.randint(whole + 1, 40)])
            ends[place] = (ends[place] * 4)[:length]
    return bytes(ends[0]), bytes(ends[1])


def one_pin_pairs(which):
    """All starts and goals in which one pin's four bits vary; the others are inputs, output 1, kind 0."""
    part, ports = PARTS[which], PARTS[which].ports
    for pin in range(part.pins):
        port, bit = pin // 8, 1 << pin % 8
        settings = []
        for bits in range(16):
            setting = bytearray(part.bits[number] for number in part.settings[:2 * ports]) + bytearray(1 + ports)
            setting[port] ^= bit * (bits & 1)
            setting[ports + port] ^= bit * (bits >> 1 & 1)
            setting[2 * ports] = (bits >> 2 & 1) << port
            setting[2 * ports + 1 + port] = bit * (bits >> 3)
            settings.append(bytes(setting))
        for start in settings:
            for goal in settings:
                yield start, goal


def plan_room(rng, which):
    """Room at and around the longest plan of either part, or any."""
    rooms = [2 * part.most_writes + more for part in PARTS.values() for more in (-1, 0, 1)]
    return rng.choice(rooms + [2 * PARTS[which].most_writes] * 3 + [0, rng.randrange(64)])


def padded_plan(rng, which):
    """A start, a goal and a right plan but for its length, which is at a limit or near it: all pins stay inputs."""
    part = PARTS[which]
    start = bytearray(part.bits[n] if part.map[n].name in ('output', 'configuration') else 0 for n in part.settings)
    goal, port = bytearray(start), rng.randrange(part.ports - 1)
    most = rng.choice([other.most_writes for other in PARTS.values()]) + rng.choice((-1, 0, 1))
    # One or two writes that are wanted, and the rest there and back.
    writes = [(part.pin_kind + part.ports - 1 - n, 1) for n in range(2 - most % 2)]
    for number, value in writes:
        goal[part.settings.index(number)] = value
    there_and_back = [(part.output + port, 0x7F), (part.output + port, 0xFF)]
    writes = there_and_back * ((most - len(writes)) // 2) + writes
    return bytes(start), bytes(goal), 'plan' + ''.join('\t%02x%02x' % write for write in writes)


# Events and answers recorded to them, for the program compare.

SHORT_LENGTHS = (0, 0, 1, 1, 2, 3, 5, 8, 12, 20)
# Lines of logs over 20,000 and over 70,000 bytes, and the bytes of a line that no buffer holds.
LARGE_LENGTHS, LONG_LINE = (3000, 9000), 200000
# How many bytes a program may read at once.
BORDERS = tuple(1 << power for power in range(9, 17))
NEWLINE = 0x0A
# Lines that come up more often than in other logs: empty, ended by a return or NUL, as long as a person is shown or about
# so long, and some that are answered with digits.
ODD_LINES = ('', 'start\r', 'stop\0', 'x' * 31, 'y' * 32, 'z' * 33, 'z' * 34, 'z' * 70, 'fetch\t1', 'fetch\t0')


def short_log(rng):
    """A log of a few lines: it may have devices of both parts, begin before one, be empty, or lack its last newline."""
    log = Log(rng, rng.choice(list(PARTS)), True)
    if rng.random() < 0.2:
        rng.choice((log.stray, log.garbage))()
    log.device()
    if rng.random() < 0.2:
        log.later_device()
    log.go_on(max(SHORT_LENGTHS), log.weights)
    lines = [rng.choice(ODD_LINES) if rng.random() < 0.25 else line for line in log.lines[:rng.choice(SHORT_LENGTHS)]]
    end = '\n' if lines and rng.random() < 0.8 else ''
    return ('\n'.join(lines) + end).encode('latin-1')


def text_lines(text):
    """The lines of a text with their newlines, the last one perhaps without."""
    return re.findall(rb'[^\n]*\n|[^\n]+', text)


# Spoils: what is made by chance of a text that is not empty.

def on_a_byte(new, where=slice(None)):
    """Some byte there becomes another, or none."""
    def spoil(rng, text):
        place = rng.choice(range(len(text))[where])
        return text[:place] + new(rng) + text[place + 1:]
    return spoil


def on_a_line(change):
    """Some line becomes what the change makes of it and its newline."""
    def spoil(rng, text):
        lines = text_lines(text)
        place = rng.randrange(len(lines))
        lines[place] = change(rng, lines[place])
        return b''.join(lines)
    return spoil


def up_to_a_line(kept):
    """The text ends with what is kept of some line."""
    def spoil(rng, text):
        lines = text_lines(text)
        place = rng.randrange(len(lines))
        return b''.join(lines[:place]) + kept(rng, lines[place])
    return spoil


def before_newline(put):
    return on_a_line(lambda rng, line: line.replace(b'\n', put + b'\n'))


def only_lines(first, end):
    """Those from the first to before the end."""
    return lambda rng, text: b''.join(text_lines(text)[first:end])


def exchanged(rng, text):
    """Some line and another one, which differs if there is such a one."""
    lines = text_lines(text)
    one = rng.randrange(len(lines))
    other = rng.choice([place for place, line in enumerate(lines) if line != lines[one]] or [one])
    lines[one], lines[other] = lines[other], lines[one]
    return b''.join(lines)


def any_byte(rng):
    return bytes([rng.choice((rng.randrange(256), rng.randrange(0x20, 0x7F), *b'01f\t\r '))])


def beginning(rng, line):
    """Neither nothing nor the whole line without its newline, if it is long enough."""
    return line[:rng.randrange(1, max(2, len(line) - 1))]


def grown(rng, line):
    """The line made as long as one that a person is shown whole, or about so long."""
    return line.rstrip(b'\n').ljust(rng.choice((31, 32, 32, 33, 33, 100)), b'+') + b'\n'


def capitals(rng, text):
    """The digits in capitals, the words as they are."""
    return re.sub(rb'(?<=[\t\n])[0-9a-f]+(?=[\t\n])', lambda digits: digits.group().upper(), text)


def left_over(rng, text):
    """A line after the last, perhaps without its newline."""
    line = rng.choice(text_lines(text))
    return text + rng.choice((line, line, line.rstrip(b'\n'), grown(rng, line), b'refused\t7\n', b'\r\n', b'\0\n', b'x'))


SPOILS = {
    'none': lambda rng, text: text,
    'no last newline': lambda rng, text: text[:-1],
    'nothing left': lambda rng, text: b'',
    'only a newline': lambda rng, text: b'\n',
    'a beginning': lambda rng, text: text[:rng.randrange(len(text))],
    'cut in a line': up_to_a_line(beginning),
    'cut before a newline': up_to_a_line(lambda rng, line: line[:-1]),
    'cut after a newline': up_to_a_line(lambda rng, line: line),
    'another byte': on_a_byte(any_byte),
    'another byte in the header': on_a_byte(any_byte, slice(20)),
    'another byte near the end': on_a_byte(any_byte, slice(-30, None)),
    'a newline for a byte': on_a_byte(lambda rng: b'\n'),
    'NUL for a byte': on_a_byte(lambda rng: b'\0'),
    'a byte dropped': on_a_byte(lambda rng: b''),
    'another byte for a newline': on_a_line(lambda rng, line: line.replace(b'\n', any_byte(rng))),
    'a newline dropped': on_a_line(lambda rng, line: line.replace(b'\n', b'')),
    'first line dropped': only_lines(1, None),
    'a line dropped': on_a_line(lambda rng, line: b''),
    'last line dropped': only_lines(0, -1),
    'a line doubled': on_a_line(lambda rng, line: line * 2),
    'two lines exchanged': exchanged,
    'a line emptied': on_a_line(lambda rng, line: b'\n'),
    'an empty line put in': on_a_line(lambda rng, line: b'\n' + line),
    'a line cut short': on_a_line(lambda rng, line: beginning(rng, line) + b'\n'),
    'a line grown': on_a_line(grown),
    'an empty line left over': lambda rng, text: text + b'\n',
    'a line left over': left_over,
    'lines left over': lambda rng, text: left_over(rng, text + rng.choice((b'\n', b'\n\n', text))),
    'a return before a newline': before_newline(b'\r'),
    'returns before all newlines': lambda rng, text: text.replace(b'\n', b'\r\n'),
    'a return for the last newline': lambda rng, text: text[:-1] + b'\r',
    'NUL before a newline': before_newline(b'\0'),
    'NUL and more before a newline': before_newline(b'\0x'),
    'a space before a newline': before_newline(b' '),
    'spaces before all newlines': lambda rng, text: text.replace(b'\n', b' \n'),
    'capitals': capitals,
    'capitals in a line': on_a_line(lambda rng, line: line.upper()),
}


def spoiled(rng, text, name):
    return SPOILS[name](rng, text) if text else text


def log_pair(rng, number):
    """A log and its answers, spoiled in the way whose turn it is; some in a second way, and some with spoiled events."""
    names = list(SPOILS)
    events = short_log(rng)
    answers = spoiled(rng, run_log(events), names[number % len(names)])
    if rng.random() < 0.25:
        answers = spoiled(rng, answers, rng.choice(names))
    if rng.random() < 0.1:
        events = spoiled(rng, events, rng.choice(names))
    return events, answers


def large_pairs(rng):
    """Logs of both parts, spoiled near the end of their answers in every way."""
    for length in LARGE_LENGTHS:
        events = b''.join(long_log(rng, which, length // len(PARTS)) for which in PARTS)
        answers = run_log(events)
        late = answers.rindex(b'\n', 0, len(answers) - 400) + 1
        for name in SPOILS:
            yield events, answers[:late] + spoiled(rng, answers[late:], name)


def long_line_pairs(rng):
    """One line of the answers, or one of the events, is very long."""
    long = bytes(rng.choices([byte for byte in range(256) if byte != NEWLINE], k=LONG_LINE))
    events = long_log(rng, rng.choice(list(PARTS)), 10)
    answers = run_log(events)
    lines = text_lines(answers)
    for place in (0, len(lines) // 2, len(lines) - 1):
        before, after = b''.join(lines[:place]), b''.join(lines[place + 1:])
        for whole in (long, lines[place][:-1] + long):
            yield events, before + whole + b'\n' + after
    yield from ((events, answers + long), (events, answers + long + b'\n'), (b'', long))
    for end in (b'', b'\n', b'\nstart\n'):
        asked = events + long + end
        yield from ((asked, run_log(asked)), (asked, answers), (asked, answers + b'refused\t8\n'))


def bordered(end):
    """A log that ends after so many bytes, and so do its answers: a device, unreadable lines, fetches."""
    # Of the answers the header has 20 bytes, the device's line 18, an unreadable line's 10, a fetch's 19.
    fetches = (38 - end) % 10 or 10
    unreadable = (end - 38 - 19 * fetches) // 10
    short = b'device\t0\t000000\n' + b'no event.\n' * (unreadable - 1)
    return short + b'x' * (end - len(short) - 8 * fetches - 1) + b'\n' + b'fetch\t1\n' * fetches


def border_pairs(border):
    """A line of the events and one of the answers end before the border, at it or after it, or go over it."""
    for end in (border - 1, border, border + 1, border + 5):
        events = bordered(end)
        answers, longer = run_log(events), events + b'start\nstop\n'
        yield from ((events, answers), (events, answers[:-1]), (events, answers + b'\n'), (events, answers + b'x'),
                    (events[:-1], answers), (events, answers[:-2] + b'8\n'), (events, answers[:-2]),
                    (longer, run_log(longer)), (longer, answers), (longer, answers[:-1]), (longer, answers + b'x\n'))


def further_log_pairs(rng):
    """Those that are longer than a program's buffers."""
    yield from large_pairs(rng)
    yield from long_line_pairs(rng)
    for border in BORDERS:
        yield from border_pairs(border)
