"""A judge for plans: it runs a plan on the model device and knows nothing of how plans are made."""

import random
import re
from functools import lru_cache

from device import (BYTE, IN_GROUP, NUMBER_BYTES, NUMBER_LIMIT, PARTS, QUIET, START, Device, Image, settings_drives,
                    settings_image)

RESTS = 3

ANSWER_PLAN = re.compile(r'plan((?:\t[0-9a-f]{4})*)')
ANSWER_REFUSED = re.compile(r'refused\t([0-9]+)')


# Whether any quiet list of writes exists.
#
# A write gives a whole register any value, so it can move one pin's bit and leave the other
# bits of the register as they are: every bit of output, configuration and pin output kind can be
# moved alone, and each port's kind can be moved alone too. A write that moves several bits at once is no
# more than some of those moves at one moment. A pin's drive depends only on its own three bits
# and its port's bit. So the pins of one port share nothing but the moments at which the port's
# bit flips, and the ports share nothing at all: a quiet list exists exactly if for each port
# there is a number of flips, of the right parity, such that each pin of the port by itself has
# a quiet walk with that many flips. That is searched here with no further theory; the self-test
# holds it against a search over whole small ports, writes of several bits at once included.

@lru_cache(maxsize=None)
def drive(output, configuration, kind, port_bit):
    """The drive of a pin by its four bits, asked of the model device."""
    part = PARTS[24]
    registers = part.power_on()
    registers[part.output], registers[part.configuration] = output, configuration
    registers[part.pin_kind], registers[part.port_kind] = kind, port_bit
    return Device(24, Image(registers, 0, 0, 0, 0, 0, 0, 0, 0, QUIET, IN_GROUP, 0, 0)).drive(0)


def move_allowed(start, goal, before, after):
    """One move of a pin is quiet: drives are those of the ends, changed once and never back; inputs stay inputs.

    start, goal, before and after are (output, configuration, kind, port bit).
    """
    if start[1] and goal[1] and not after[1]:
        return False
    was, now = drive(*before), drive(*after)
    return now == was or (was == drive(*start) and now == drive(*goal))


@lru_cache(maxsize=None)
def walk_on(start, goal, states):
    """All states of a pin that quiet moves of its own three bits reach from `states`."""
    reached, fresh = set(states), list(states)
    while fresh:
        before = fresh.pop()
        for place in range(3):
            after = tuple(bit ^ (n == place) for n, bit in enumerate(before))
            if after not in reached and move_allowed(start, goal, before, after):
                reached.add(after)
                fresh.append(after)
    return frozenset(reached)


@lru_cache(maxsize=None)
def flip(start, goal, states):
    """The states of a pin after its port's bit flips, those left out for which the flip is not quiet."""
    moved = set()
    for before in states:
        after = before[:3] + (1 - before[3],)
        if move_allowed(start, goal, before, after):
            moved.add(after)
    return walk_on(start, goal, frozenset(moved))


def port_exists(starts, goals):
    """Search by number of flips for one port, given its pins' four bits at both ends."""
    reached = tuple(walk_on(s, g, frozenset([s])) for s, g in zip(starts, goals))
    seen = set()
    while reached not in seen:
        if all(goal in states for goal, states in zip(goals, reached)):
            return True
        seen.add(reached)
        reached = tuple(flip(s, g, states) for s, g, states in zip(starts, goals, reached))
    return False


def pin_bits(which, setting, i):
    """(output, configuration, kind, port bit) of pin i in a setting."""
    ports, port, j = PARTS[which].ports, i // 8, i % 8
    output, configuration, kind = (setting[place + port] >> j & 1 for place in (0, ports, 2 * ports + 1))
    return output, configuration, kind, setting[2 * ports] >> port & 1


def exists(which, start, goal):
    """Whether some list of writes, of any length, goes quietly from start to goal."""
    part = PARTS[which]
    for port in range(part.ports):
        pins = range(8 * port, min(8 * port + 8, part.pins))
        if not port_exists([pin_bits(which, start, i) for i in pins], [pin_bits(which, goal, i) for i in pins]):
            return False
    return True


def random_rest(which, rng):
    """A random image, its bus Idle so that the writes can be sent; well formed once it is at a setting."""
    part = PARTS[which]
    registers = [rng.getrandbits(8) & stored if stored else 0 for stored in part.stored]
    pointer = rng.choice([n for n in range(128) if part.map[n]])
    marks = (rng.randrange(part.limit) for _ in range(4))
    return Image(tuple(registers), *marks, pointer, 0, rng.randrange(4), 0, QUIET, rng.randrange(2),
                 rng.randrange(NUMBER_LIMIT), rng.randrange(NUMBER_BYTES))


def send(device, register, value):
    """One write as a transaction; True if each byte was acknowledged."""
    device.step(START, 0)
    return all(device.step(BYTE, byte) == 'ack' for byte in (2 * device.address(), register, value))


def judge_run(which, start, goal, writes, rest):
    """What goes wrong when the writes are sent to one device, None if nothing."""
    part = PARTS[which]
    device = Device(which, settings_image(which, start, rest))
    first, last = settings_drives(which, start), settings_drives(which, goal)
    always_inputs = [i for i in range(part.pins) if pin_bits(which, start, i)[1] and pin_bits(which, goal, i)[1]]
    status = {i: device.status[i] for i in always_inputs}
    changes = [0] * part.pins
    before = first
    for count, (register, value) in enumerate(writes, 1):
        where = 'write %d (%02x%02x)' % (count, register, value)
        if register not in part.settings:
            return '%s: not one of the planner\'s registers' % where
        stored = device.registers[register]
        if not send(device, register, value):
            return '%s: not acknowledged' % where
        if device.registers[register] == stored:
            return '%s: changes nothing' % where
        now = device.drives()
        for i in range(part.pins):
            changes[i] += now[i] != before[i]
            if now[i] not in (first[i], last[i]):
                return '%s: pin %d is %s, neither its start nor its goal' % (where, i, now[i])
            if changes[i] > 1:
                return '%s: pin %d changes its drive again' % (where, i)
        for i in always_inputs:
            if not device.is_input(i):
                return '%s: pin %d, an input at both ends, is an output' % (where, i)
            if device.status[i] != status[i]:
                return '%s: the status bit of pin %d moves' % (where, i)
        before = now
    if bytes(device.registers[number] for number in part.settings) != goal:
        return 'the goal is not reached'
    return None


class Planner:
    """What the planner of one part owes for a start, a goal and the room for its plan."""

    def __init__(self, which):
        self.which, self.part = which, PARTS[which]

    def length_wrong(self, setting):
        """A byte for each of the planner's registers."""
        return len(setting) != len(self.part.settings)

    def unused_set(self, setting):
        """A port's kind that is none's, or a pin of the sister's last port that is none."""
        return any(value & ~self.part.bits[number] for number, value in zip(self.part.settings, setting))

    def well_formed(self, setting):
        return not self.length_wrong(setting) and not self.unused_set(setting)

    def most_writes(self):
        return self.part.most_writes

    def room_small(self, room):
        """Two bytes for each write of the longest plan, however short the plan."""
        return room < 2 * self.part.most_writes

    def refusal(self, start, goal, room):
        """5, 6 and 4 in this order; None if a plan is owed."""
        if not (self.well_formed(start) and self.well_formed(goal)):
            return 5
        if self.room_small(room):
            return 6
        return None if exists(self.which, start, goal) else 4

    def judge(self, start, goal, answer, room=1 << 16):
        """None if the answer line is right for these ends and this room, else a string that says what is wrong."""
        number = self.refusal(start, goal, room)
        refused = ANSWER_REFUSED.fullmatch(answer)
        if refused or number:
            wanted = 'refused\t%d' % number if number else 'a plan'
            return None if answer == wanted else 'wanted %r' % wanted
        plan = ANSWER_PLAN.fullmatch(answer)
        if not plan:
            return 'unreadable answer'
        writes = [(int(pair[:2], 16), int(pair[2:], 16)) for pair in plan.group(1).split('\t')[1:]]
        if start == goal and writes:
            return 'writes where start and goal are equal'
        if len(writes) > self.most_writes():
            return '%d writes' % len(writes)
        rng = random.Random(start.hex() + goal.hex())
        wrong = (judge_run(self.which, start, goal, writes, random_rest(self.which, rng)) for _ in range(RESTS))
        return next(filter(None, wrong), None)
