"""The 24-pin I2C expander and its 34-pin sister as the rules state them: a pin at a time, a short function a rule."""

from collections import namedtuple
from functools import lru_cache

IDLE, OPENED, CHOSEN, FILLING, SENDING, CALL, ARMED, DEAF, ASKING, NAMED, REOPENED, TELLING = range(12)
START, STOP, BYTE, FETCH, LEVELS, RESET = range(6)

# Numbers from first to last; the bits are those that the last one has, all others have eight.
Group = namedtuple('Group', 'first last name default stored bits')

GROUPS24 = (
    Group(0x00, 0x02, 'input port', 0x00, False, 0xFF),
    Group(0x04, 0x06, 'output', 0xFF, True, 0xFF),
    Group(0x08, 0x0A, 'polarity', 0x00, True, 0xFF),
    Group(0x0C, 0x0E, 'configuration', 0xFF, True, 0xFF),
    Group(0x40, 0x45, 'drive strength', 0xFF, True, 0xFF),
    Group(0x48, 0x4A, 'input latch', 0x00, True, 0xFF),
    Group(0x4C, 0x4E, 'pull enable', 0x00, True, 0xFF),
    Group(0x50, 0x52, 'pull select', 0xFF, True, 0xFF),
    Group(0x54, 0x56, 'interrupt mask', 0xFF, True, 0xFF),
    Group(0x58, 0x5A, 'interrupt status', 0x00, False, 0xFF),
    Group(0x5C, 0x5C, 'output port kind', 0x00, True, 0x07),
    Group(0x60, 0x65, 'interrupt edge', 0x00, True, 0xFF),
    Group(0x68, 0x6A, 'interrupt clear', 0x00, False, 0xFF),
    Group(0x6C, 0x6E, 'input status', 0x00, False, 0xFF),
    Group(0x70, 0x72, 'pin output kind', 0x00, True, 0xFF),
    Group(0x74, 0x75, 'debounce enable', 0x00, True, 0xFF),
    Group(0x76, 0x76, 'debounce count', 0x00, True, 0xFF),
)

GROUPS34 = (
    Group(0x00, 0x04, 'input port', 0x00, False, 0x03),
    Group(0x05, 0x09, 'output', 0xFF, True, 0x03),
    Group(0x0A, 0x0E, 'polarity', 0x00, True, 0x03),
    Group(0x0F, 0x13, 'configuration', 0xFF, True, 0x03),
    Group(0x30, 0x38, 'drive strength', 0xFF, True, 0x0F),
    Group(0x3A, 0x3E, 'input latch', 0x00, True, 0x03),
    Group(0x3F, 0x43, 'pull enable', 0x00, True, 0x03),
    Group(0x44, 0x48, 'pull select', 0xFF, True, 0x03),
    Group(0x49, 0x4D, 'interrupt mask', 0xFF, True, 0x03),
    Group(0x4E, 0x52, 'interrupt status', 0x00, False, 0x03),
    Group(0x53, 0x53, 'output port kind', 0x00, True, 0x1F),
    Group(0x54, 0x5C, 'interrupt edge', 0x00, True, 0x0F),
    Group(0x5E, 0x62, 'interrupt clear', 0x00, False, 0x03),
    Group(0x63, 0x67, 'input status', 0x00, False, 0x03),
    Group(0x68, 0x6C, 'pin output kind', 0x00, True, 0x03),
    Group(0x6D, 0x6F, 'debounce', 0x00, True, 0xFF),
)

# An event of a burst, and how many of them one call may be asked.
EVENT_BYTES, MOST_EVENTS = 12, 512

Image = namedtuple('Image', 'registers level reference held edge pointer bus choice status line mode number place')

# INT's level, as the line is kept.
ASSERTED, QUIET = 0, 1

# How the pointer steps: the bit of a command byte above the register's number.
IN_GROUP, OVER_MAP = 0, 1

# The address bytes of the Device ID, which no device has for its own: to ask a device for its number, to have it told.
ASK, TELL = 0xF8, 0xF9

# A device's number: its bytes, and the first number that they do not hold.
NUMBER_BYTES, NUMBER_LIMIT = 3, 1 << 24


class Part:
    """What one part has and the other has otherwise: its pins, its groups, and how many writes a plan may have."""

    def __init__(self, pins, groups, most_writes):
        self.pins, self.groups, self.most_writes = pins, groups, most_writes
        self.ports, self.limit = (pins + 7) // 8, 1 << pins
        self.named = {group.name: group for group in groups}
        # The group of each command number, None where the number is reserved; the bits that each number has, and stores.
        self.map, self.bits, self.stored = [None] * 128, [0] * 128, [0] * 128
        for group in groups:
            for number in range(group.first, group.last + 1):
                self.map[number] = group
                self.bits[number] = group.bits if number == group.last else 0xFF
                self.stored[number] = self.bits[number] if group.stored else 0
        (self.output, self.polarity, self.configuration, self.latch, self.mask, self.port_kind, self.edge, self.clear,
         self.pin_kind) = (self.named[name].first for name in (
             'output', 'polarity', 'configuration', 'input latch', 'interrupt mask', 'output port kind',
             'interrupt edge', 'interrupt clear', 'pin output kind'))
        # The planner's registers in its order; levels as hex digits; whether an argument takes more than one word.
        self.settings = tuple(number for name in ('output', 'configuration', 'output port kind', 'pin output kind')
                              for number in range(self.named[name].first, self.named[name].last + 1))
        self.digits = (pins + 3) // 4
        self.wide = pins > 32

    def power_on(self):
        """The register file after power-on: what is not stored, and unused bits, hold 0."""
        return [group.default & stored if group else 0 for group, stored in zip(self.map, self.stored)]


# By the number of their pins.
PARTS = {24: Part(24, GROUPS24, 16), 34: Part(34, GROUPS34, 26)}


def pin_set(marks):
    """The number whose bit i is mark i."""
    number, bit = 0, 1
    for mark in marks:
        if mark:
            number |= bit
        bit <<= 1
    return number


def pin_marks(number, pins):
    """So many marks, mark i the number's bit i."""
    return [number >> i & 1 == 1 for i in range(pins)]


class Pin:
    __slots__ = ('level', 'reference', 'held', 'edge')

    def __init__(self, level, reference, held, edge):
        self.level, self.reference, self.held, self.edge = level, reference, held, edge


class Device:
    parts = PARTS

    def __init__(self, which, image):
        """The part with so many pins in the state of the image."""
        self.which = which
        self.part = part = self.parts[which]
        self.map = part.map
        self.registers = list(image.registers)
        self.pins = [Pin(*marks) for marks in zip(*(
            pin_marks(marks, part.pins) for marks in (image.level, image.reference, image.held, image.edge)))]
        self.pointer, self.bus, self.choice = image.pointer, image.bus, image.choice
        self.status, self.line = pin_marks(image.status, part.pins), image.line
        self.mode = image.mode
        self.number, self.place = image.number, image.place
        # A device loaded from a broken image answers each step with refusal 3.
        self.broken = self.image_broken(image)
        # The drives are worked out again only after something that can move them.
        self.changed = True

    @classmethod
    def make(cls, which, choice, levels, number=0):
        """A device at power-on, or refusal 2."""
        if cls.make_too_large(which, choice, levels, number):
            return ('refused', 2)
        device = cls(which, Image([0] * 128, levels, 0, 0, 0, 0, IDLE, choice, 0, QUIET, IN_GROUP, number, 0))
        device.reset()
        # What the reset made is judged as every image is, and not what it was made from.
        return cls(which, device.image())

    def image(self):
        return Image(
            tuple(self.registers),
            pin_set(pin.level for pin in self.pins),
            pin_set(pin.reference for pin in self.pins),
            pin_set(pin.held for pin in self.pins),
            pin_set(pin.edge for pin in self.pins),
            self.pointer, self.bus, self.choice, pin_set(self.status), self.line, self.mode, self.number, self.place)

    # Refusals.

    @classmethod
    def make_too_large(cls, which, choice, levels, number):
        """Refusal 2 of a new device: choice over 3, levels with a pin past the last, a number past its bytes."""
        return choice > 3 or levels >= cls.parts[which].limit or number >= NUMBER_LIMIT

    def image_broken(self, image):
        """Refusal 3: any one of these faults."""
        return (self.pointer_broken(image.pointer)
                or self.bus_broken(image.bus)
                or self.choice_broken(image.choice)
                or self.pin_sets_broken(image)
                or any(self.unused_broken(n, value) or self.entry_broken(n, value)
                       for n, value in enumerate(image.registers) if value)
                or self.status_broken(image.status)
                or self.line_broken(image.line)
                or self.mode_broken(image.mode)
                or self.number_broken(image.number)
                or self.place_broken(image.place))

    def pointer_broken(self, pointer):
        """A pointer over 7Fh or at a reserved number."""
        return pointer > 0x7F or self.map[pointer] is None

    def bus_broken(self, bus):
        """There are twelve bus states."""
        return bus > TELLING

    def choice_broken(self, choice):
        """There are four addresses."""
        return choice > 3

    def pin_sets_broken(self, image):
        """A pin set knows the part's pins."""
        return any(marks >= self.part.limit for marks in (image.level, image.reference, image.held, image.edge))

    def unused_broken(self, number, value):
        """An unused bit of a register is set: of a port kind that is none's, or of the sister's last port."""
        group = self.map[number]
        return group is not None and group.stored and value & ~self.part.bits[number] != 0

    def entry_broken(self, number, value):
        """A nonzero entry where nothing is stored."""
        group = self.map[number]
        return value != 0 and (group is None or not group.stored)

    def status_broken(self, status):
        """A status set other than the one that pins and registers give."""
        return status != pin_set(self.status_bits())

    def line_broken(self, line):
        """A line other than the one that those status bits give."""
        return line != self.line_by(self.status_bits())

    def mode_broken(self, mode):
        """There are two ways to step."""
        return mode > OVER_MAP

    def number_broken(self, number):
        """A number that its bytes do not hold."""
        return number >= NUMBER_LIMIT

    def place_broken(self, place):
        """A place past the number's last byte, whatever the bus state."""
        return place >= NUMBER_BYTES

    def refusal(self, kind, arg):
        """The image first, then the kind, then the argument; None if the step is taken."""
        if self.broken:
            return 3
        if self.kind_unknown(kind):
            return 1
        if self.argument_too_large(kind, arg):
            return 2
        return None

    def kind_unknown(self, kind):
        """Kinds are 0 to 5."""
        return kind > 5

    def argument_too_large(self, kind, arg):
        """Byte over 255, acknowledge bit over 1, levels with a pin past the last; the other kinds ignore it."""
        if kind == BYTE:
            return arg > 255
        if kind == FETCH:
            return arg > 1
        if kind == LEVELS:
            return arg >= self.part.limit
        return False

    # Events.

    def step(self, kind, arg):
        """('refused', n) with nothing changed, or the answer: '-', 'ack', 'nak' or a byte."""
        number = self.refusal(kind, arg)
        if number is not None:
            return ('refused', number)
        if kind == START:
            self.start()
        elif kind == STOP:
            self.stop()
        elif kind == BYTE:
            return self.byte(arg)
        elif kind == FETCH:
            return self.fetch(arg == 1)
        elif kind == LEVELS:
            self.levels(pin_marks(arg, self.part.pins))
        else:
            self.reset()
        return '-'

    # Bursts: many events in one call, three words each.

    def burst(self, data, asked, room):
        """(refusal, events done, answers of those done); (8, None, []) with nothing changed nor told."""
        if self.burst_refused(len(data), asked, room):
            return 8, None, []
        answers = []
        for place in range(asked):
            kind, low, rest = self.words_of(data, place)
            arg = self.argument_of(low, rest)
            number = self.event_refusal(kind, arg, rest)
            if number is not None:
                return number, len(answers), answers
            answers.append(self.step(kind, arg))
        return 0, len(answers), answers

    def burst_refused(self, given, asked, room):
        """Refusal 8: no whole events, more asked than given or than 512, or no room for two bytes each."""
        return (given % EVENT_BYTES != 0 or asked > given // EVENT_BYTES
                or self.too_many(asked) or self.too_small(asked, room))

    def too_many(self, asked):
        """At most 512 events in a call, however many are given."""
        return asked > MOST_EVENTS

    def too_small(self, asked, room):
        """Two bytes for each answer."""
        return room < 2 * asked

    def words_of(self, data, place):
        """Kind, argument and its upper half or what is to be zero, four bytes each, the lowest first."""
        event = data[EVENT_BYTES * place:EVENT_BYTES * (place + 1)]
        return tuple(int.from_bytes(event[i:i + 4], 'little') for i in (0, 4, 8))

    def argument_of(self, low, rest):
        """The third word is the upper half of the sister's argument."""
        return low | rest << 32 if self.part.wide else low

    def event_refusal(self, kind, arg, rest):
        """A step's refusals, and after the kind, before the argument, 2 for a third word that is to be zero."""
        number = self.refusal(kind, arg)
        if number in (3, 1):
            return number
        return 2 if self.rest_refused(kind, rest) else number

    def rest_refused(self, kind, rest):
        """Of every kind of the 24-pin part."""
        return not self.part.wide and rest != 0

    def start(self):
        """START opens a transaction from any state, and again where the device was named; pointer and mode stay."""
        self.bus = REOPENED if self.start_repeats() else OPENED

    def start_repeats(self):
        """The START after the name is the repeated one, and so is every further one that follows it."""
        return self.bus in (NAMED, REOPENED)

    def stop(self):
        """STOP ends it; an armed general call resets the device first."""
        if self.bus == ARMED:
            self.reset()
        self.bus = IDLE

    def byte(self, value):
        if self.bus == OPENED:
            return self.opened_byte(value)
        if self.bus == CHOSEN:
            return self.chosen_byte(value)
        if self.bus == FILLING:
            return self.filling_byte(value)
        if self.bus == CALL:
            return self.call_byte(value)
        if self.bus == ARMED:
            return self.armed_byte(value)
        if self.bus == SENDING:
            return self.sending_byte(value)
        if self.bus == ASKING:
            return self.asking_byte(value)
        if self.bus == NAMED:
            return self.named_byte(value)
        if self.bus == REOPENED:
            return self.reopened_byte(value)
        if self.bus == TELLING:
            return self.telling_byte(value)
        return self.unheard_byte(value)

    def address(self):
        """Choices 0 to 3 are the seven-bit addresses 20h to 23h."""
        return 0x20 + self.choice

    def opened_byte(self, value):
        """The own address to write or to read, the general call, the question for a number, or someone else's address."""
        if value == 2 * self.address():
            self.bus = CHOSEN
        elif value == 2 * self.address() + 1:
            self.bus = SENDING
        elif value == 0x00:
            self.bus = CALL
        elif value == ASK:
            self.bus = ASKING
        else:
            self.bus = DEAF
            return 'nak'
        return 'ack'

    def command(self, value):
        """The register that a command byte's low seven bits name, None if reserved."""
        return value & 0x7F if self.map[value & 0x7F] is not None else None

    def command_mode(self, value):
        """How a command byte has the pointer step: its bit 7."""
        return value >> 7

    def chosen_byte(self, value):
        """A known command becomes the pointer, and its bit 7 the mode; another leaves both and deafens."""
        number = self.command(value)
        if number is None:
            self.bus = DEAF
            return 'nak'
        self.pointer = number
        self.mode = self.command_mode(value)
        self.bus = FILLING
        return 'ack'

    def filling_byte(self, value):
        """A data byte is written at the pointer, which then steps."""
        self.write(self.pointer, value)
        self.changed = True
        self.pointer = self.next_number(self.pointer)
        return 'ack'

    def call_byte(self, value):
        """After the general call only 06h is known, and it only arms."""
        self.bus = ARMED if value == 0x06 else DEAF
        return 'ack' if value == 0x06 else 'nak'

    def armed_byte(self, value):
        """A further byte spoils the software reset."""
        self.bus = DEAF
        return 'nak'

    def sending_byte(self, value):
        """The device is sending, so a byte from the master is nothing it knows."""
        self.bus = DEAF
        return 'nak'

    def asking_byte(self, value):
        """Whose number is meant: the own address names this device, whatever its lowest bit."""
        named = value >> 1 == self.address()
        self.bus = NAMED if named else DEAF
        return 'ack' if named else 'nak'

    def named_byte(self, value):
        """Without the repeated START nothing is told."""
        self.bus = DEAF
        return 'nak'

    def reopened_byte(self, value):
        """Now the number may be told, from its first byte on; any other byte is as after the first START."""
        if value != TELL:
            return self.opened_byte(value)
        self.bus, self.place = TELLING, 0
        return 'ack'

    def telling_byte(self, value):
        """The device is telling its number, so a byte from the master is nothing it knows."""
        self.bus = DEAF
        return 'nak'

    def unheard_byte(self, value):
        """Idle and Deaf: nobody listens."""
        return 'nak'

    def next_number(self, number):
        """By the mode: over the whole map, or in the group."""
        return self.next_over_map(number) if self.mode == OVER_MAP else self.next_in_group(number)

    def next_in_group(self, number):
        """The next number of the group, from the last back to the first; a group of one stays."""
        group = self.map[number]
        return group.first if number == group.last else number + 1

    def next_over_map(self, number):
        """The next number that is not reserved, whatever its group; after the highest comes 00h."""
        return next((following for following in range(number + 1, 128) if self.map[following]), 0x00)

    def fetch(self, acknowledged):
        if self.bus == SENDING:
            return self.sending_fetch(acknowledged)
        if self.bus == TELLING:
            return self.telling_fetch(acknowledged)
        return self.stray_fetch()

    def sending_fetch(self, acknowledged):
        """The byte at the pointer; it is formed before its pins are settled."""
        value = self.byte_at(self.pointer)
        self.settle_fetched(self.settled_by_fetch(self.pointer, acknowledged))
        self.after_fetch(acknowledged)
        return value

    def stray_fetch(self):
        """Nobody drives the line, so it reads as ones."""
        return 0xFF

    def settled_by_fetch(self, number, acknowledged):
        """An input port register settles its own eight pins, acknowledged or not."""
        if self.map[number].name == 'input port':
            return self.pins_of(number)
        return ()

    def settle_fetched(self, pins):
        """Settled pins have no status bit, and that is kept."""
        for i in pins:
            self.settle(i)
        self.keep('fetch', pins)

    def after_fetch(self, acknowledged):
        """Acknowledged, the pointer steps; not acknowledged, the master has ended the read."""
        if acknowledged:
            self.pointer = self.next_number(self.pointer)
        else:
            self.bus = DEAF

    def telling_fetch(self, acknowledged):
        """The number's byte at the place; no pin and no register has to do with it."""
        value = self.number_byte(self.place)
        self.after_telling(acknowledged)
        return value

    def number_byte(self, place):
        """The highest byte comes first."""
        return self.number >> 8 * (NUMBER_BYTES - 1 - place) & 0xFF

    def after_telling(self, acknowledged):
        """Acknowledged, the place steps; not acknowledged, the master has ended the read."""
        if acknowledged:
            self.place = self.next_place(self.place)
        else:
            self.bus = DEAF

    def next_place(self, place):
        """After the lowest byte the highest comes again."""
        return (place + 1) % NUMBER_BYTES

    def levels(self, new):
        """Each pin's marks are judged by its old level, then it takes the new one; any status bit may be another."""
        for i, level in enumerate(new):
            pin = self.pins[i]
            if self.level_sets_held(i, level):
                pin.held = True
            if self.level_sets_edge(i, level):
                pin.edge = True
            self.take_level(i, level)
        self.keep('levels', range(self.part.pins))

    def level_sets_held(self, i, new):
        """A latched input that leaves its reference is held."""
        return new != self.pins[i].reference and self.is_input(i) and self.latched(i)

    def level_sets_edge(self, i, new):
        """An unmasked input records a change that matches its field."""
        old = self.pins[i].level
        return self.change_matches(self.field(i), old, new) and self.is_input(i) and not self.masked(i)

    def change_matches(self, field, old, new):
        """Field 01 rising, 10 falling, 11 either, 00 none."""
        if new and not old:
            return field in (1, 3)
        if old and not new:
            return field in (2, 3)
        return False

    def take_level(self, i, new):
        """Outputs take their level too."""
        self.pins[i].level = new

    # Resets.

    def reset(self):
        """Defaults, pointer 00h, steps in the group, place 0, Idle, nothing held; levels, address and number stay."""
        self.registers = self.reset_registers()
        self.pointer = self.reset_pointer()
        self.mode = self.reset_mode()
        self.place = self.reset_place()
        self.bus = self.reset_bus()
        for i in range(self.part.pins):
            self.reset_pin(i)
        self.keep('reset', range(self.part.pins))
        self.changed = True

    def reset_registers(self):
        return self.part.power_on()

    def reset_pointer(self):
        return 0x00

    def reset_mode(self):
        return IN_GROUP

    def reset_place(self):
        return 0

    def reset_bus(self):
        return IDLE

    def reset_pin(self, i):
        """The present level is the new reference and no event is held."""
        pin = self.pins[i]
        pin.reference = pin.level
        pin.held = pin.edge = False

    # Registers of one pin.

    def bit(self, first, i):
        """Pin 8k+j is bit j of the register of port k."""
        return self.registers[first + i // 8] >> i % 8 & 1 == 1

    def is_input(self, i):
        return self.bit(self.part.configuration, i)

    def latched(self, i):
        return self.bit(self.part.latch, i)

    def masked(self, i):
        return self.bit(self.part.mask, i)

    def inverted(self, i):
        return self.bit(self.part.polarity, i)

    def field(self, i):
        """Two bits a pin, four pins a register, the lowest pin in bits 1 and 0."""
        return self.registers[self.part.edge + i // 4] >> 2 * (i % 4) & 3

    def pins_of(self, number):
        """The pins of a register that has one bit a pin: eight, of the sister's last port two."""
        port = number - self.map[number].first
        return range(8 * port, min(8 * port + 8, self.part.pins))

    def field_pins_of(self, number):
        """The pins of an edge register: four, of the sister's last one two."""
        first = 4 * (number - self.part.edge)
        return range(first, min(first + 4, self.part.pins))

    # Writes.

    def write(self, number, value):
        """The pins follow the rule of the group, then the value is stored, and their status bits with it."""
        name, pins = self.map[number].name, ()
        if name == 'interrupt edge':
            pins = self.field_pins_of(number)
            for j, i in enumerate(pins):
                self.field_written(i, value >> 2 * j & 3)
        elif name in ('interrupt clear', 'interrupt mask', 'input latch', 'configuration'):
            pins = self.pins_of(number)
            for j, i in enumerate(pins):
                old, new = self.registers[number] >> j & 1, value >> j & 1
                if name == 'interrupt clear':
                    self.clear_written(i, new)
                elif name == 'interrupt mask':
                    self.mask_written(i, new)
                elif name == 'input latch':
                    self.latch_written(i, old, new)
                else:
                    self.configuration_written(i, old, new)
        self.store(number, value)
        self.keep(name, pins)

    def store(self, number, value):
        """A register without a stored value takes the write and keeps nothing."""
        if self.map[number].stored:
            self.registers[number] = self.kept(number, value)

    def kept(self, number, value):
        """Unused bits are ignored."""
        return value & self.part.bits[number]

    def settle(self, i):
        """No mark is left and the present level is the reference."""
        pin = self.pins[i]
        pin.edge = pin.held = False
        pin.reference = pin.level

    def clear_written(self, i, new):
        """1 settles that pin alone, 0 does nothing."""
        if new:
            self.settle(i)

    def mask_written(self, i, new):
        """1 forgets the edge mark, and only that."""
        if new:
            self.pins[i].edge = False

    def field_written(self, i, new):
        """Field 00 forgets the edge mark, another field keeps it."""
        if new == 0:
            self.pins[i].edge = False

    def latch_written(self, i, old, new):
        """0 lets go; from 0 to 1 an input holds what is pending and an output holds nothing."""
        pin = self.pins[i]
        if not new:
            pin.held = False
        elif not old:
            pin.held = self.is_input(i) and pin.level != pin.reference

    def configuration_written(self, i, old, new):
        """An output has no marks; a pin that becomes an input keeps its reference, and latched it holds what differs."""
        pin = self.pins[i]
        if not new:
            pin.held = pin.edge = False
        elif not old:
            pin.edge = False
            pin.held = self.latched(i) and pin.level != pin.reference

    # What is kept: the status set and the line.

    def keep(self, operation, pins):
        """After an operation that can change them, on these pins: their status bits, then the line."""
        for i in pins:
            self.keep_status(operation, i)
        if pins:
            self.keep_line(operation)

    def keep_status(self, operation, i):
        self.status[i] = self.status_bit(i)

    def keep_line(self, operation):
        self.line = self.line_by(self.status)

    # What is seen of a pin.

    def open_drain(self, i):
        """The pin's own bit flips its port's bit."""
        return bool(self.registers[self.part.port_kind] >> i // 8 & 1) != self.bit(self.part.pin_kind, i)

    def drive(self, i):
        if self.is_input(i):
            return 'released'
        if not self.bit(self.part.output, i):
            return 'low'
        return 'released' if self.open_drain(i) else 'high'

    def drives(self):
        return [self.drive(i) for i in range(self.part.pins)]

    def input_bit(self, i):
        """Outputs show their level, open-drain ones 0; inputs the held or present level, perhaps inverted."""
        if self.is_input(i):
            return self.raw_bit(i) != self.inverted(i)
        return self.pins[i].level and not self.open_drain(i)

    def raw_bit(self, i):
        """A held pin shows the level it went to, which is not its reference."""
        pin = self.pins[i]
        return not pin.reference if self.latched(i) and pin.held else pin.level

    def input_status_bit(self, i):
        """The same bit as the input port."""
        return self.input_bit(i)

    def pending(self, i):
        """With an edge field the edge mark counts; else the hold if latched, the difference if not."""
        pin = self.pins[i]
        if self.field(i) != 0:
            return pin.edge
        return pin.held if self.latched(i) else pin.level != pin.reference

    def status_bit(self, i):
        """Only an unmasked input can ask for attention."""
        return not self.masked(i) and self.is_input(i) and self.pending(i)

    def status_bits(self):
        """All of them as the rules work them out, whatever is kept."""
        return [self.status_bit(i) for i in range(self.part.pins)]

    def line_by(self, status):
        """INT is asserted exactly if some status bit is 1."""
        return ASSERTED if any(status) else QUIET

    def byte_at(self, number):
        """The byte a fetch shows: two groups are formed from the pins, the status is kept, the rest is the file."""
        name = self.map[number].name
        if name == 'input port':
            return pin_set(self.input_bit(i) for i in self.pins_of(number))
        if name == 'input status':
            return pin_set(self.input_status_bit(i) for i in self.pins_of(number))
        if name == 'interrupt status':
            return pin_set(self.status[i] for i in self.pins_of(number))
        return self.registers[number]

    # What a host is told when it asks, ('refused', n) where it is refused; nothing changes.

    def drives_refusal(self):
        """3 of a broken image; None if the drives are told."""
        return 3 if self.broken else None

    def int_refusal(self):
        """3 of a broken image; None if INT is told."""
        return 3 if self.broken else None

    def byte_refusal(self, number):
        """The image first, then the number; None if the byte is told."""
        if self.broken:
            return 3
        if self.number_refused(number):
            return 2
        return None

    def number_refused(self, number):
        """A register number that is reserved or over 7Fh."""
        return number > 0x7F or self.map[number] is None

    def told_drives(self):
        """The pins driven low, the pins driven high."""
        number = self.drives_refusal()
        return self.outputs()[1:] if number is None else ('refused', number)

    def told_int(self):
        """1 quiet, 0 asserted."""
        number = self.int_refusal()
        return self.outputs()[0] if number is None else ('refused', number)

    def told_byte(self, number):
        """The byte that a fetch of the register would show."""
        refusal = self.byte_refusal(number)
        return self.byte_at(number) if refusal is None else ('refused', refusal)

    def outputs(self):
        """INT's level, the pins driven low, the pins driven high."""
        if self.changed:
            drives = self.drives()
            self.driven = (pin_set(drive == 'low' for drive in drives), pin_set(drive == 'high' for drive in drives))
            self.changed = False
        return (self.line,) + self.driven


def kept_image(which, image):
    """The image with the status set and the line that its pins and registers give."""
    device = Device(which, image)
    return image._replace(status=pin_set(device.status_bits()), line=device.line_by(device.status_bits()))


def settings_image(which, setting, rest):
    """The image `rest` with the planner's registers set to the bytes of `setting`."""
    registers = list(rest.registers)
    for number, value in zip(PARTS[which].settings, setting):
        registers[number] = value
    return kept_image(which, rest._replace(registers=tuple(registers)))


@lru_cache(maxsize=None)
def power_on_image(which):
    return Device.make(which, 0, 0).image()


@lru_cache(maxsize=16)
def settings_drives(which, setting):
    """The drive of each pin under the bytes of a setting."""
    return tuple(Device(which, settings_image(which, setting, power_on_image(which))).drives())
