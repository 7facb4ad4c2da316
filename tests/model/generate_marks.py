"""Seeded generators for either part with marks: logs of the program watch, marked bursts, sign-offs, healthy sets."""

from device import ARMED, CALL, EVENT_BYTES, FILLING, LEVELS, PARTS, RESET, SENDING, START, STOP, kept_image
from generate import (MARK_READS, MARK_WRITES, MIXED_READS, MIXED_WRITES, ODD_LINES, OUTPUT_READS, OUTPUT_WRITES, Log,
                      any_image, broken_image, burst_given, busy_image, device_line, event_bytes, long_log, meant_event,
                      over, refused_event, spoiled_line, trace_log)
from probe import image_fields

# Writes and reads as a log of trace has them, and the weights of the acts in the order of `WatchLog.acts`.
WATCH_TEMPERS = (
    # Mostly pins that are lost and found again.
    (MIXED_WRITES, MIXED_READS, (3, 4, 20, 4, 2, 1, 1, 1, 0.3, 1, 1, 0.3, 0.2, 0.2, 0.5, 0.3, 0.3, 1, 0.3, 0.3)),
    (MARK_WRITES, MARK_READS, (3, 4, 20, 4, 2, 1, 2, 2, 0.5, 0.5, 1, 0.1, 0.1, 0.1, 0.2, 0.1, 0.1, 1, 0.3, 0.2)),
    # Anything that a log of trace has, and sign-offs between.
    (MIXED_WRITES, MIXED_READS, (20, 6, 2, 2, 1, 2, 30, 5, 0.3, 16, 20, 10, 4, 1, 6, 3, 5, 3, 1, 0.3)),
    (MARK_WRITES, MARK_READS, (15, 6, 2, 2, 1, 2, 20, 20, 0.3, 5, 20, 0.5, 0.3, 0.3, 0.3, 0.3, 0.3, 1, 2.5, 0.2)),
    # Mostly outputs, and what they show.
    (OUTPUT_WRITES, OUTPUT_READS, (20, 4, 1, 1, 0.3, 2, 30, 0, 2, 20, 15, 0.5, 1, 0.3, 0.3, 0.3, 0.3, 1, 0.3, 0.2)),
    # Mostly pins that turn from input to output and back.
    (MARK_WRITES, MARK_READS, (4, 4, 2, 2, 0.3, 0.5, 2, 2, 20, 1, 2, 0.1, 0.1, 0.1, 0.1, 0.1, 0.1, 0.3, 0.3, 0.2)),
    # Mostly devices that are made anew, and lines that are nearly readable.
    (MARK_WRITES, MARK_READS, (6, 4, 1, 0.3, 0.3, 2, 2, 0.5, 0.1, 1, 4, 0.1, 0.1, 0.3, 0.3, 0.3, 0.3, 25, 0.5, 5)),
)


def watch_device_line(which, choice, levels, healthy):
    return '%s\t%0*x' % (device_line(which, choice, levels), PARTS[which].digits, healthy)


class WatchLog(Log):
    """A log of the program watch under way: it knows its healthy set beside the levels, and signs pins off."""

    tempers = WATCH_TEMPERS

    def __init__(self, rng, which, others):
        self.healthy = 0
        super().__init__(rng, which, others)

    def acts(self):
        return (self.sign_some_pin, self.sign_when_found, self.lose_and_find, self.ring_by_a_write, self.lose_together,
                self.sweep, *super().acts())

    def event(self, line):
        """Now and then a pin is signed off while the bus is in the middle of something."""
        super().event(line)
        if self.rng.random() < 0.02:
            self.sign_some_pin()

    def device_line(self):
        """Most pins are healthy at first; the pins dwelt on are as it comes."""
        rng, limit = self.rng, self.part.limit
        self.healthy = rng.choices((self.levels_now, 0, limit - 1, rng.randrange(limit)), (5, 1, 1, 2))[0]
        for pin in self.focus:
            self.healthy ^= (rng.random() < 0.3) << pin
        return watch_device_line(self.which, self.choice, self.levels_now, self.healthy)

    def device(self):
        """A new device; marks that nobody clears cannot be set again, so most pins are signed off at once."""
        super().device()
        if self.rng.random() < 0.8:
            self.sweep()

    def before_device(self):
        super().before_device()
        self.sign(self.rng.choice((0, self.pin_beyond(), self.rng.randrange(256))))
        self.garbage()

    def garbage(self):
        """What trace could not read either, or what comes near to a line of watch."""
        rng = self.rng
        if rng.random() < 0.35:
            super().garbage()
        elif rng.random() < 0.5:
            self.lines.append(rng.choice(rng.choice((NO_SIGNS, NO_WATCHES, ODD_LINES))))
        else:
            self.lines.append(near_miss(rng, self.readable_line()))

    def readable_line(self):
        """A line of a device, of the other part only where others may come, of a sign-off, or of an event of late."""
        rng = self.rng
        which = rng.choice(list(PARTS)) if self.others else self.which
        levels, healthy = (rng.choice((self.levels_now % PARTS[which].limit, rng.randrange(PARTS[which].limit)))
                           for _ in range(2))
        of_late = [line for line in self.lines[-20:] if not line.startswith('device')] or ['start']
        return rng.choice((watch_device_line(which, self.choice, levels, healthy), 'sign\t%02x' % rng.choice(self.focus),
                           rng.choice(of_late)))

    # Sign-offs.

    def sign(self, pin):
        self.lines.append('sign\t%02x' % pin)

    def pin_beyond(self):
        """A pin that the part has not, or the other one has not; some with the low bits of one that it has."""
        rng, pins = self.rng, self.part.pins
        near = rng.choice((pins, pins, pins + 1, 0x18, 0x20, 0x21, 0x22, 0x28, 0x3F, 0x40, 0xFF, rng.randrange(pins, 256)))
        return rng.choice((near, rng.choice((0x20, 0x40, 0x80, 0xC0)) + rng.choice(self.focus)))

    def sign_some_pin(self):
        """Mostly a pin dwelt on, as it stands."""
        rng = self.rng
        self.sign(rng.choices((rng.choice(self.focus), rng.randrange(self.part.pins), self.pin_beyond()), (10, 3, 2))[0])

    def sweep(self):
        """Several pins one after another, now and then all there are."""
        rng, pins = self.rng, self.part.pins
        chosen = rng.sample(range(pins), pins if rng.random() < 0.1 else rng.randint(0, 5))
        for pin in self.focus + chosen:
            self.sign(pin)

    def unhealthy(self, pin):
        return (self.levels_now ^ self.healthy) >> pin & 1 == 1

    def find(self, pin):
        """The pin at its healthy level."""
        if self.unhealthy(pin):
            self.move(pin)

    def lose(self, pin):
        if not self.unhealthy(pin):
            self.move(pin)

    def fetch_port(self, pin):
        self.start(0)
        self.command(self.number('input port', pin))
        self.start(1)
        self.event('fetch\t%d' % self.rng.randrange(2))

    def reset_softly(self):
        for line in ('start', 'byte\t00', 'byte\t06', 'stop'):
            self.event(line)

    def settle(self, pin):
        """By each of the ways there are."""
        self.rng.choice((lambda: self.fetch_port(pin), lambda: self.fetch_port(pin),
                         lambda: self.write_pin('interrupt clear', pin, 1)))()

    def reset_somehow(self, pin):
        """It takes the pin's level for the reference, as every pin's."""
        self.rng.choice((self.reset_softly, self.reset_softly, lambda: self.event('reset')))()

    def unmask(self, pin):
        self.write_pin('interrupt mask', pin, 0)

    def sign_when_found(self):
        """All that makes a pin fit to be signed off, or all but one of it; a second time it is signed off already."""
        rng, pin = self.rng, self.rng.choice(self.focus)
        for act in rng.sample((self.find, self.settle), rng.choice((2, 2, 2, 1))):
            act(pin)
        self.sign(pin)
        if rng.random() < 0.3:
            rng.choice((self.lose, self.find, self.settle))(pin)
            self.sign(pin)

    def dress(self, pin):
        """What a sign-off does not ask for: latch, edge field, polarity, direction, mask."""
        rng = self.rng
        name = rng.choice(('input latch', 'input latch', 'interrupt edge', 'interrupt edge', 'polarity', 'polarity',
                           'configuration', 'interrupt mask', 'pin output kind'))
        self.write_pin(name, pin, rng.randrange(4) if name == 'interrupt edge' else rng.randrange(2))

    def lose_and_find(self):
        """The loss of the README and what follows, each step left out now and then, and signed off too early at each."""
        rng, pin = self.rng, self.rng.choice(self.focus)
        for act in (self.find, self.settle, self.unmask, self.dress, self.lose, self.reset_somehow, self.unmask, self.dress,
                    self.find, self.settle):
            if rng.random() < 0.8:
                act(pin)
            if rng.random() < 0.5:
                self.sign(pin)

    def ring_by_a_write(self):
        """A pin is signed off and lost while nothing is to be seen of it, and then a write shows it."""
        rng, pin = self.rng, self.rng.choice(self.focus)
        for act in (self.find, self.settle, self.unmask):
            act(pin)
        self.sign(pin)
        # The field is for the edge that does not come.
        other_edge = 1 if self.levels_now >> pin & 1 else 2
        name, hidden, shown = rng.choice((
            ('interrupt mask', 1, 0), ('interrupt edge', other_edge, 0), ('configuration', 0, 1)))
        self.write_pin(name, pin, hidden)
        self.lose(pin)
        self.sign(pin)
        self.write_pin(name, pin, shown)
        self.sign(pin)

    def lose_together(self):
        """Several pins are unmasked and signed off, and lost at once."""
        rng, pins = self.rng, self.part.pins
        first = rng.choice((0, pins - 2, rng.randrange(pins - 1)))
        some = [first, min(first + rng.randint(1, 9), pins - 1)] + self.focus[:rng.randrange(2)]
        for pin in some:
            self.unmask(pin)
            self.find(pin)
            self.fetch_port(pin)
            self.sign(pin)
        for pin in set(some):
            self.levels_now ^= 1 << pin
        self.put_levels()
        for pin in some:
            self.sign(pin)


# Lines that sign no pin off.
NO_SIGNS = (
    'sign', 'sign\t', 'sign\t0', 'sign\t1', 'sign\t000', 'sign\t001', 'sign\t0000', 'sign\t00000000', 'sign\t0A', 'sign\tFF',
    'sign\t1F', 'sign\t0g', 'sign\t 0', 'sign\t0 ', 'sign\t-1', 'sign\t+1', 'sign\t0x', 'sign\t0_', 'sign\t00\r',
    'sign\t00\t', 'sign\t00 ', 'sign\t00\0', 'sign\t\t00', 'sign\t00\t00', 'sign 00', 'sign00', '\tsign\t00', ' sign\t00',
    'Sign\t00', 'SIGN\t00', 'signs\t00', 'sig\t00', 'sign34\t00', 'sign\t0\t0', 'sign\t\xb2\xb2', 'sign\t00' + ' ' * 25,
    'sign\t00' + ' ' * 26, 'q' * 32 + 'sign\t00', 'q' * 33 + 'sign\t00', 'q' * 64 + 'sign\t00', 'sign\t00' * 5,
    'answer\tint\tlow\thigh\tmarks', 'refused\t13', 'marks\t000000', 'healthy\t000000',
)
# Those that make no device, and no marks either: trace's own among them.
NO_WATCHES = (
    'device\t2\t000000', 'device\t0\tffffff', 'device\t3\t000001', 'device34\t2\t000000000', 'device34\t0\t3ffffffff',
    'device34\t1\t000000001', 'device\t2\t000000\t', 'device\t2\t\t000000', 'device\t\t000000\t000000',
    'device\t2\t000000\t\t',
    'device\t2\t000000\t00000', 'device\t2\t000000\t0000000', 'device\t2\t00000\t000000', 'device\t2\t0000000\t000000',
    'device\t2\t000000\t000000\t', 'device\t2\t000000\t000000\t000000', 'device\t2\t000000\t000000\t2',
    'device\t2\t000000\t000000\r', 'device\t2\t000000\t000000 ', 'device\t2\t000000\t000000\0', 'device\t2\t000000 000000',
    'device 2 000000 000000', 'device\t2\t00000A\t000000', 'device\t2\t000000\t00000A', 'device\t2\t000000\tFFFFFF',
    'device\t2\t000000\t00000g', 'device\t2\t00000g\t000000', 'device\t4\t000000\t000000', 'device\tf\t000000\tffffff',
    'device\t00\t000000\t000000', 'device\tA\t000000\t000000', 'device\t2\t000000\t-00001', 'device\t2\t000000\t0x0000',
    'device\t2\t000000\t1000000', 'device\t000000\t000000\t2', 'device\t000000\t000000', 'devices\t2\t000000\t000000',
    'Device\t2\t000000\t000000', 'device24\t2\t000000\t000000', 'device\t2\t000000\t000000000',
    'device\t2\t000000000\t000000',
    'device\t2\t000000000\t000000000', 'device\t1\t000000000\t000000001', 'device34\t2\t000000\t000000',
    'device34\t2\t000000000\t000000', 'device34\t2\t000000\t000000000', 'device34\t0\t000001\t000001',
    'device34\t2\t000000000\t00000000', 'device34\t2\t00000000\t000000000', 'device34\t2\t0000000000\t0000000000',
    'device34\t2\t000000000\t400000000', 'device34\t2\t400000000\t000000000', 'device34\t0\t000000000\tfffffffff',
    'device34\t1\t000000001\t800000000', 'device34\t2\tfffffffff\t000000000', 'device34\t3\t000000000\t400000001',
    'device34\t4\t000000000\t000000000', 'device34\t2\t000000000\t00000000F', 'device34\t2\t00000000F\t000000000',
    'device34\t2\t000000000\t000000000\t', 'device34\t2\t000000000\t000000000\r', 'device34\t2\t000000000\t000000000 ',
    'device34\t2\t000000000\t0000000000', 'device34\t2\t000000000\t000000000\0\0', 'device34\t2\t000000000\t000000000  ',
    'device34\t2\t000000000\t000000000   ', 'device34\t2\t000000000\t000000000\t\t\t', 'device34 2 000000000 000000000',
    'device34\t2\t000000000\t000000000\t000000000', 'x' * 32 + 'device\t0\t000000\t000000',
    'x' * 33 + 'device34\t0\t000000000\t000000000', 'device34\t00\t000000000\t000000000', 'device34\t\t000000000\t000000000',
)


def near_miss(rng, line):
    """A readable line with one thing wrong; now and then it is readable still, since it has no letter or no digit."""
    fields = line.split('\t')
    place = rng.randrange(len(fields))
    way = rng.randrange(13)
    if way == 0:
        fields[place] += rng.choice('0f')
    elif way == 1:
        fields[place] = fields[place][:-1]
    elif way == 2:
        fields[place] = fields[place].encode('latin-1').upper().decode('latin-1')
    elif way == 3:
        fields[-1] += rng.choice(('\r', ' ', '\0', '\t', '\r\r'))
    elif way == 4:
        fields.append(rng.choice(fields))
    elif way == 5 and len(fields) > 1:
        del fields[-1]
    elif way == 6:
        fields.reverse()
    elif way == 7:
        return rng.choice(('\t', ' ', '\r')) + line
    elif way == 8:
        return line.replace('\t', rng.choice((' ', '\t\t', ',')), 1)
    elif way == 9:
        return line + rng.choice((' ', '\0', 'x')) * rng.choice((max(0, 32 - len(line)), max(1, 33 - len(line)), 40))
    elif way == 10:
        fields[place] = rng.choice(('', '0' * len(fields[place]), 'g' + fields[place][1:], '0x' + fields[place][2:]))
    elif way == 11 and place > 1:
        # In the digits of the other part.
        fields[place] = fields[place].zfill(9) if len(fields[place]) == 6 else fields[place][-6:]
    else:
        fields.insert(place, rng.choice(('', fields[place])))
    return '\t'.join(fields)


def garbled_log(rng, which, alone, others):
    """A log of some 40 lines, of which few are readable; alone, it may begin before a device, or lack its last newline."""
    log = WatchLog(rng, which, others)
    if alone and rng.random() < 0.3:
        log.before_device()
    log.device()
    log.setting_up()
    while len(log.lines) < 40:
        rng.choice((log.garbage, log.garbage, log.garbage, log.levels, log.sign_some_pin))()
    end = '' if alone and rng.random() < 0.6 else '\n'
    return ('\n'.join(log.lines) + end).encode('latin-1')


def watch_log(rng, which, alone=False, others=True):
    """As a log of trace, or one that is hardly readable."""
    if rng.random() < (0.5 if alone else 0.1):
        return garbled_log(rng, which, alone, others)
    return trace_log(rng, which, alone, others, WatchLog)


def long_watch(rng, which, length):
    return long_log(rng, which, length, WatchLog)


# Marked bursts.

def marked_event(rng, which, bus, choice):
    """As in a burst without marks, but with more levels, more resets of both kinds, and more of what is nearly one."""
    if bus == ARMED and rng.random() < 0.7:
        return rng.choice((STOP, STOP, START)), 0
    if bus == CALL and rng.random() < 0.3:
        return rng.choice((STOP, START)), 0
    chance = rng.random()
    if chance < 0.05:
        return RESET, 0
    if chance < 0.15:
        return LEVELS, rng.randrange(PARTS[which].limit)
    return meant_event(rng, which, bus, choice)


def with_bits(number, place, all_bits, bits):
    return number & ~(all_bits << place) | bits << place


# A write to these may let a pin ask for attention, or move nothing at all; a fetch of those may end it, or show it.
POISED_WRITES = ('interrupt mask', 'configuration', 'interrupt edge', 'input latch', 'polarity')
POISED_READS = ('input port', 'interrupt status', 'input status')


def poised_image(rng, which):
    """A pin that asks for attention once one of its registers is written, or does now: before a fetch, or near a reset."""
    image, part = any_image(rng, which), PARTS[which]
    pin, registers = rng.randrange(part.pins), list(image.registers)
    bus, name = rng.choice([(FILLING, name) for name in POISED_WRITES] + [(SENDING, name) for name in POISED_READS]
                           + [(CALL, 'input port'), (ARMED, 'input port'), (ARMED, 'input port')])
    latched, field = rng.randrange(2), rng.choice((0, 0, rng.randrange(1, 4)))
    held, edge = latched, int(field != 0)
    if name == 'configuration':
        field = 0
    elif name == 'interrupt edge':
        field, edge = rng.randrange(1, 4), 0
    elif name == 'input latch':
        latched, field, held = 1, 0, 0
    for group, bits in (('interrupt mask', int(name == 'interrupt mask')), ('configuration', int(name != 'configuration')),
                        ('input latch', latched)):
        number = part.named[group].first + pin // 8
        registers[number] = with_bits(registers[number], pin % 8, 1, bits)
    number = part.edge + pin // 4
    registers[number] = with_bits(registers[number], 2 * (pin % 4), 3, field)
    return kept_image(which, image._replace(
        registers=tuple(registers), bus=bus, pointer=part.named[name].first + pin // (4 if name == 'interrupt edge' else 8),
        reference=with_bits(image.reference, pin, 1, ~image.level >> pin & 1),
        held=with_bits(image.held, pin, 1, held), edge=with_bits(image.edge, pin, 1, edge)))


def marked_image(rng, which):
    """Half of them with a pin that an event is about to move."""
    return rng.choice((poised_image, busy_image))(rng, which)


def mark_sets(rng, which, image):
    """Marks that are set, or clear, where the status bits are, or anywhere; levels that are healthy, or not, or any."""
    limit = PARTS[which].limit
    status, level = image.status % limit, image.level % limit
    marks = rng.choice((0, 0, limit - 1, rng.randrange(limit), rng.randrange(limit), status, limit - 1 - status))
    healthy = rng.choice((0, limit - 1, rng.randrange(limit), level, level, limit - 1 - level))
    for _ in range(rng.randrange(3)):
        marks ^= 1 << rng.randrange(PARTS[which].pins)
        healthy ^= 1 << rng.randrange(PARTS[which].pins)
    return marks, healthy


def broken_set(rng, which, pins):
    """A set with a pin past the last, the others as they were or not."""
    limit = PARTS[which].limit
    return rng.choice((limit, pins | limit, pins | 1 << rng.randrange(PARTS[which].pins, 64), pins | 1 << 63,
                       over(rng, limit, 1 << 64)))


def broken_sets(rng, which, sets):
    """One of the two, or both."""
    marks, healthy = (broken_set(rng, which, pins) for pins in sets)
    return rng.choice(((marks, sets[1]), (marks, sets[1]), (sets[0], healthy), (sets[0], healthy), (marks, healthy)))


def spoiled_marks(rng, line):
    """The line made unreadable: without a mark set or both, or as any line."""
    if rng.random() < 0.3:
        fields = line.split(b'\t')
        del fields[13:rng.choice((14, 15))]
        return b'\t'.join(fields)
    return spoiled_line(rng, line)


def marked_burst_line(rng, which):
    """A line of a marked burst with its newline."""
    image, asked, room, data = burst_given(rng, which, marked_image, marked_event)
    sets = mark_sets(rng, which, image)
    if rng.random() < 0.15:
        sets = broken_sets(rng, which, sets)
        if rng.random() < 0.3:
            asked = 0
        elif rng.random() < 0.5 and len(data) >= EVENT_BYTES:
            # The first event would be refused for itself.
            data = event_bytes(*refused_event(rng, which, (START, 0, 0))) + data[EVENT_BYTES:]
    line = ('%s\t%016x\t%016x\t%016x\t%04x\t%s' % (image_fields(image), *sets, asked, room, data.hex())).encode()
    if rng.random() < 0.03:
        line = spoiled_marks(rng, line)
    return line + b'\n'


# Sign-offs.

def numbered_pin(rng, which):
    """Mostly one of the part's; else past the last, or one that it has only in the low bits."""
    pins = PARTS[which].pins
    pin = rng.randrange(pins)
    near = rng.choice((pins, pins, pins + 1, rng.randrange(24, 65), over(rng, pins, 1 << 32), 0xFFFFFFFF))
    aliased = pin + (1 << rng.choice((5, 6, 7, 8, 16, 24, 31, rng.randrange(5, 32))))
    return rng.choices((pin, pins - 1, near, aliased), (9, 1, 2, 2))[0]


def sign_off_line(rng, which):
    """A line of a sign-off with its newline; of those that nothing is wrong with, half and more are refused with 13."""
    image = any_image(rng, which)
    sets = mark_sets(rng, which, image)
    if rng.random() < 0.12:
        image = broken_image(rng, which, image)
    if rng.random() < 0.15:
        sets = broken_sets(rng, which, sets)
    line = ('%s\t%016x\t%016x\t%08x' % (image_fields(image), *sets, numbered_pin(rng, which))).encode()
    if rng.random() < 0.03:
        line = spoiled_marks(rng, line)
    return line + b'\n'


# New marks.

def new_marks_line(rng, which):
    """A healthy set with its newline: half of them have a pin past the last."""
    limit = PARTS[which].limit
    healthy = rng.choice((0, limit - 1, rng.randrange(limit), rng.randrange(limit)))
    if rng.random() < 0.5:
        healthy = broken_set(rng, which, healthy)
    line = b'%016x' % healthy
    if rng.random() < 0.05:
        line = rng.choice((b'', line[1:], line + b'0', line.upper() + b'G', line + b'\r', line + b'\t', line[:-1] + b'A',
                           b' ' + line[1:], line + b'\t' + line))
    return line + b'\n'
