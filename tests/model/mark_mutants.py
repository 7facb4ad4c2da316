"""One-rule mutants of a device with marks and of the program watch; try_mutants.py tries them.

A mutant of the device with marks is tried on each part that it is about, the other part being right: on both, if it does
not say. It says by which cases it must be told from the model, by each of them: the logs of watch, marked bursts,
sign-offs, new marks. From power-on no log leads to a status bit at 1 without its mark, so that no log tells what a reset
finds; nor does a log have a refused event or a mark set that is none.
"""

import re

import trace
import watch
from device import (ARMED, BYTE, CALL, FETCH, FILLING, LEVELS, PARTS, QUIET, RESET, SENDING, START, STOP, Device, pin_set)
from marks import NOT_AT_REST, Marked
from trace import NEW, UNREADABLE, answer_line, split_lines
from watch import SIGN, Watch

WATCHES, BURSTS, SIGN_OFFS, NEW_MARKS = PLACES = ('watches', 'marked bursts', 'sign-offs', 'new marks')

MARKED = []


def marked(*places, on=tuple(PARTS)):
    """A mutant that each of these places must tell, on these parts."""
    def listed(cls):
        cls.places, cls.on = places, on
        MARKED.append(cls)
        return cls
    return listed


def made(name, places, on=tuple(PARTS), **methods):
    marked(*places, on=on)(type(name, (Marked,), methods))


def all_pins(device):
    return device.part.limit - 1


def healthy_now(device):
    """The pins at their healthy level."""
    return pin_set(pin.level == device.healthy_level(i) for i, pin in enumerate(device.pins))


def port_at(device, name):
    """The pins of the register at the pointer, if it is of the group."""
    group = device.map[device.pointer]
    return device.pins_of(device.pointer) if group and group.name == name else ()


# Events that clear marks.

def clearing(name, pins_of, *places):
    """A mutant whose every event clears the marks of the pins that it is told of the device before the event."""
    def step(self, kind, arg):
        pins = pins_of(self, kind, arg)
        answer = Marked.step(self, kind, arg)
        if not isinstance(answer, tuple):
            self.marks &= ~pins
        return answer
    made(name, places or (WATCHES, BURSTS), step=step)


def at_event(wanted, pins):
    """The pins at events of the kind, and none at others."""
    return lambda device, kind, arg: pins(device) if kind == wanted else 0


def at_software_reset(pins):
    return lambda device, kind, arg: pins(device) if kind == STOP and device.bus == ARMED else 0


def at_fetch(name, pins=all_pins):
    """Those of the pins whose register of the group is fetched."""
    def cleared(device, kind, arg):
        if kind != FETCH or device.bus != SENDING:
            return 0
        return pins(device) & sum(1 << i for i in port_at(device, name))
    return cleared


def at_write(name, bit):
    """The pins of a register of the group that is written, where their bit in it is so."""
    def cleared(device, kind, arg):
        if kind != BYTE or device.bus != FILLING:
            return 0
        return sum(1 << i for i in port_at(device, name) if arg >> i % 8 & 1 == bit)
    return cleared


def status_now(device):
    return pin_set(device.status)


clearing('HardwareResetClears', at_event(RESET, all_pins))
clearing('SoftwareResetClears', at_software_reset(all_pins))
clearing('HardwareResetClearsItsPins', at_event(RESET, status_now))
clearing('SoftwareResetClearsItsPins', at_software_reset(status_now))
clearing('HardwareResetClearsHealthy', at_event(RESET, healthy_now))
clearing('SoftwareResetClearsHealthy', at_software_reset(healthy_now))
clearing('FetchClears', at_event(FETCH, all_pins))
clearing('PortFetchClears', at_fetch('input port'))
clearing('PortFetchClearsHealthy', at_fetch('input port', healthy_now))
clearing('PortFetchClearsItsPins', at_fetch('input port', status_now))
clearing('StatusFetchClears', at_fetch('interrupt status'))
clearing('InputStatusFetchClears', at_fetch('input status'))
clearing('StatusFetchClearsItsPins', at_fetch('interrupt status', status_now))
clearing('WriteClears', lambda device, kind, arg: all_pins(device) if kind == BYTE and device.bus == FILLING else 0)
clearing('ByteClears', at_event(BYTE, all_pins))
clearing('ClearBitClears', at_write('interrupt clear', 1))
clearing('ClearBitOfZeroClears', at_write('interrupt clear', 0))
clearing('MaskClears', at_write('interrupt mask', 1))
clearing('UnmaskClears', at_write('interrupt mask', 0))
clearing('LatchClears', at_write('input latch', 1))
clearing('UnlatchClears', at_write('input latch', 0))
clearing('OutputClears', at_write('configuration', 0))
clearing('InputClears', at_write('configuration', 1))
clearing('PolarityClears', at_write('polarity', 1))
clearing('StartClears', at_event(START, all_pins))
clearing('StopClears', at_event(STOP, all_pins))
clearing('StopOfOthersClears', lambda device, kind, arg: all_pins(device) if kind == STOP and device.bus != ARMED else 0)
clearing('ArmingClears', lambda device, kind, arg: all_pins(device) if (kind, device.bus, arg) == (BYTE, CALL, 6) else 0)
clearing('LevelsClear', at_event(LEVELS, all_pins))
clearing('HealthyLevelClears',
         lambda device, kind, arg: ~(arg ^ device.healthy) if kind == LEVELS and arg < device.part.limit else 0)
clearing('ReturnClears', lambda device, kind, arg: pin_set(
    pin.reference == (arg >> i & 1 == 1) for i, pin in enumerate(device.pins)) if kind == LEVELS else 0)


@marked(WATCHES, BURSTS)
class EdgeWriteClears(Marked):
    def field_written(self, i, new):
        super().field_written(i, new)
        self.marks &= ~(1 << i)


@marked(WATCHES, BURSTS)
class FallClears(Marked):
    """A mark lives as long as its status bit."""

    def note(self, before, reset):
        super().note(before, reset)
        self.marks &= ~pin_set(old and not new for old, new in zip(before, self.status))


@marked(WATCHES, BURSTS)
class QuietLineClears(Marked):
    """INT gone quiet, all are taken for signed off."""

    def note(self, before, reset):
        super().note(before, reset)
        if any(before) and self.line == QUIET:
            self.marks = 0


@marked(WATCHES, BURSTS)
class MarksAreStatus(Marked):
    def note(self, before, reset):
        self.marks = pin_set(self.status)


# Rises.

@marked(WATCHES, BURSTS)
class RiseUnnoted(Marked):
    def rises(self, i, before, after):
        return False


def unnoted(name, event, *places):
    """A mutant that does not see what some events set, by the device before them."""
    def step(self, kind, arg):
        marks, is_such = self.marks, event(self, kind, arg)
        answer = Marked.step(self, kind, arg)
        if is_such:
            self.marks = marks
        return answer
    made(name, places or (WATCHES, BURSTS), step=step)


def writes(name):
    def is_such(device, kind, arg):
        group = device.map[device.pointer]
        return kind == BYTE and device.bus == FILLING and group is not None and group.name == name
    return is_such


unnoted('RiseByLevelsUnnoted', lambda device, kind, arg: kind == LEVELS)
unnoted('RiseByWriteUnnoted', lambda device, kind, arg: kind == BYTE)
unnoted('RiseByUnmaskUnnoted', writes('interrupt mask'))
unnoted('RiseByTurnUnnoted', writes('configuration'))
unnoted('RiseByFieldUnnoted', writes('interrupt edge'))
# A latched input that is away from its reference and not held is in images alone.
unnoted('RiseByLatchUnnoted', writes('input latch'), BURSTS)
unnoted('RiseWhileSendingUnnoted', lambda device, kind, arg: kind == LEVELS and device.bus == SENDING)


def rising(name, wanted, *places, on=tuple(PARTS)):
    """A mutant that asks more of a rise, or less."""
    made(name, places or (WATCHES, BURSTS), on, rises=wanted)


rising('RiseOnlyUnhealthy', lambda self, i, before, after:
       after and not before and self.pins[i].level != self.healthy_level(i))
rising('RiseOnlyHigh', lambda self, i, before, after: after and not before and self.pins[i].level)
rising('RiseOnlyLow', lambda self, i, before, after: after and not before and not self.pins[i].level)
rising('RiseOnlyAwayFromReference', lambda self, i, before, after:
       after and not before and self.pins[i].level != self.pins[i].reference)
rising('RiseOnlyUnlatched', lambda self, i, before, after: after and not before and not self.latched(i))
rising('RiseOnlyLatched', lambda self, i, before, after: after and not before and self.latched(i))
rising('RiseOnlyWithoutField', lambda self, i, before, after: after and not before and self.field(i) == 0)
rising('RiseOnlyWithField', lambda self, i, before, after: after and not before and self.field(i) != 0)
rising('FallForRise', lambda self, i, before, after: before and not after)
rising('FallSetsToo', lambda self, i, before, after: before != after, BURSTS)
rising('StatusSets', lambda self, i, before, after: after, BURSTS)
rising('OldStatusSets', lambda self, i, before, after: before)
rising('UnhealthySets', lambda self, i, before, after:
       after and not before or self.pins[i].level != self.healthy_level(i))


@marked(WATCHES, BURSTS)
class RiseOnlyAsIntFalls(Marked):
    """A second pin's loss goes by while INT is asserted."""

    def note(self, before, reset):
        if reset or not any(before):
            super().note(before, reset)


@marked(WATCHES, BURSTS)
class RiseOfLowestOnly(Marked):
    def note(self, before, reset):
        marks = self.marks
        super().note(before, reset)
        new = self.marks & ~marks
        if not reset:
            self.marks = marks | new & -new


@marked(WATCHES, BURSTS)
class RiseSetsItsPort(Marked):
    def set_mark(self, i):
        for pin in range(8 * (i // 8), min(8 * (i // 8) + 8, self.part.pins)):
            super().set_mark(pin)


@marked(WATCHES, BURSTS)
class RiseSetsAll(Marked):
    def set_mark(self, i):
        self.marks = all_pins(self)


@marked(WATCHES, BURSTS)
class MarksCountFromOne(Marked):
    def set_mark(self, i):
        super().set_mark((i + 1) % self.part.pins)


@marked(WATCHES, BURSTS)
class MarksCountDown(Marked):
    def set_mark(self, i):
        super().set_mark(self.part.pins - 1 - i)


@marked(WATCHES, BURSTS)
class LastPinUnmarked(Marked):
    def set_mark(self, i):
        if i < self.part.pins - 1:
            super().set_mark(i)


@marked(WATCHES, BURSTS)
class FirstPinUnmarked(Marked):
    def set_mark(self, i):
        if i > 0:
            super().set_mark(i)


@marked(WATCHES, BURSTS)
class MarkToggled(Marked):
    def set_mark(self, i):
        self.marks ^= 1 << i


@marked(WATCHES, BURSTS)
class OnlyLastMarkKept(Marked):
    def set_mark(self, i):
        self.marks = 1 << i


def seen_as(name, status, *places):
    """A mutant that takes something else for the status bits."""
    made(name, places or (WATCHES, BURSTS), status_seen=status)


seen_as('MaskedPinsSeen', lambda self: [self.is_input(i) and self.pending(i) for i in range(self.part.pins)])
seen_as('OutputsSeen', lambda self: [not self.masked(i) and self.pending(i) for i in range(self.part.pins)])
seen_as('AnyPendingSeen', lambda self: [self.pending(i) for i in range(self.part.pins)])
seen_as('DifferencesSeen', lambda self: [
    not self.masked(i) and self.is_input(i) and pin.level != pin.reference for i, pin in enumerate(self.pins)])
seen_as('UnhealthySeen', lambda self: [
    not self.masked(i) and self.is_input(i) and pin.level != self.healthy_level(i) for i, pin in enumerate(self.pins)])
seen_as('LevelsSeen', lambda self: [pin.level for pin in self.pins])
seen_as('InputPortSeen', lambda self: [self.input_bit(i) for i in range(self.part.pins)])


# Of the sister.

@marked(WATCHES, BURSTS, on=(34,))
class MarksOf24(Marked):
    def set_mark(self, i):
        if i < 24:
            super().set_mark(i)


@marked(WATCHES, BURSTS, on=(34,))
class MarksOf32(Marked):
    def set_mark(self, i):
        if i < 32:
            super().set_mark(i)


@marked(WATCHES, BURSTS, on=(34,))
class MarksWrapAt32(Marked):
    def set_mark(self, i):
        super().set_mark(i % 32)


# Resets.

def resetting(name, wanted, *places):
    """A mutant that takes other events for resets, by the device before them."""
    made(name, places or (BURSTS,), resets=wanted)


resetting('ResetsUnnoted', lambda self, kind: False)
resetting('HardwareResetUnnoted', lambda self, kind: kind == STOP and self.bus == ARMED)
resetting('SoftwareResetUnnoted', lambda self, kind: kind == RESET)
resetting('EveryStopNoted', lambda self, kind: kind in (RESET, STOP))
resetting('StopAfterCallNoted', lambda self, kind: kind == RESET or kind == STOP and self.bus in (CALL, ARMED))
resetting('StartAfterArmingNoted', lambda self, kind: kind == RESET or kind in (START, STOP) and self.bus == ARMED)
resetting('EventAfterArmingNoted', lambda self, kind: kind == RESET or self.bus == ARMED)
resetting('ByteAfterCallNoted', lambda self, kind: kind == RESET or kind == STOP and self.bus == ARMED or (
    kind == BYTE and self.bus == CALL))
resetting('FetchNoted', lambda self, kind: Marked.resets(self, kind) or kind == FETCH)
resetting('WriteNoted', lambda self, kind: Marked.resets(self, kind) or kind == BYTE and self.bus == FILLING)


@marked(BURSTS)
class ArmingNotedForStop(Marked):
    """As the reset is said, not as it is done."""

    def step(self, kind, arg):
        if (kind, self.bus, arg) == (BYTE, CALL, 6) and self.refusal(kind, arg) is None:
            self.marks |= pin_set(self.status)
        return super().step(kind, arg)

    def resets(self, kind):
        return kind == RESET


def losing(name, wanted, *places, hardware=True, software=True):
    """A mutant to which a reset of these kinds finds something else."""
    def step(self, kind, arg):
        self.is_such = software if kind == STOP else hardware
        return Marked.step(self, kind, arg)

    def lost_by_reset(self, i, before):
        return wanted(self, i, before) if self.is_such else before
    made(name, places or (WATCHES, BURSTS), step=step, lost_by_reset=lost_by_reset)


losing('HardwareResetSetsAll', lambda self, i, before: True, software=False)
losing('SoftwareResetSetsAll', lambda self, i, before: True, hardware=False)
losing('ResetSetsAll', lambda self, i, before: True)
losing('ResetSetsUnhealthy', lambda self, i, before: before or self.pins[i].level != self.healthy_level(i))
losing('ResetSetsOnlyUnhealthy', lambda self, i, before: before and self.pins[i].level != self.healthy_level(i), BURSTS)
losing('HardwareResetSetsQuiet', lambda self, i, before: not before, software=False)
losing('SoftwareResetSetsQuiet', lambda self, i, before: not before, hardware=False)
losing('HardwareResetFindsNone', lambda self, i, before: False, BURSTS, software=False)
losing('SoftwareResetFindsNone', lambda self, i, before: False, BURSTS, hardware=False)
losing('ResetFindsFirstPortOnly', lambda self, i, before: before and i < 8, BURSTS)
losing('ResetFindsHighOnly', lambda self, i, before: before and self.pins[i].level, BURSTS)


@marked(WATCHES, BURSTS)
class ResetWhileAssertedSetsAll(Marked):
    def note(self, before, reset):
        super().note(before, reset)
        if reset and any(before):
            self.marks = all_pins(self)


@marked(WATCHES, BURSTS)
class ResetSetsPending(Marked):
    """Masked ones and outputs too."""

    def step(self, kind, arg):
        pending = pin_set(self.pending(i) for i in range(self.part.pins)) if self.resets(kind) else 0
        answer = super().step(kind, arg)
        if not isinstance(answer, tuple):
            self.marks |= pending
        return answer


@marked(BURSTS)
class ResetNotesTheLine(Marked):
    """Only where one pin alone asks is it known which."""

    def note(self, before, reset):
        super().note(before if sum(before) == 1 or not reset else [False] * len(before), reset)


# Refused events, and marks that are none.

def on_refusal(name, after, *numbers, on=tuple(PARTS)):
    """A mutant whose refused events of a burst leave other marks."""
    def event_refusal(self, kind, arg, rest):
        number = Marked.event_refusal(self, kind, arg, rest)
        if number in (numbers or (1, 2)):
            after(self, kind, arg)
        return number
    made(name, (BURSTS,), on, event_refusal=event_refusal)


def mark_all(device, kind, arg):
    device.marks = all_pins(device)


def mark_status(device, kind, arg):
    device.marks |= pin_set(device.status)


def unmark_all(device, kind, arg):
    device.marks = 0


def mark_moved(device, kind, arg):
    """The pins that the refused levels would move."""
    if kind == LEVELS:
        device.marks |= (arg ^ pin_set(pin.level for pin in device.pins)) & all_pins(device)


def mark_found(device, kind, arg):
    if device.resets(kind):
        mark_status(device, kind, arg)


def cut_marks(device, kind, arg):
    device.marks, device.healthy = (pins % device.part.limit for pins in (device.marks, device.healthy))


def step_anyway(device, kind, arg):
    """The device goes on, the marks stay as they are."""
    sets = device.marks, device.healthy
    device.marks = device.healthy = 0
    device.step(kind, arg)
    device.marks, device.healthy = sets


on_refusal('RefusedEventSetsAll', mark_all)
on_refusal('RefusedKindSetsAll', mark_all, 1)
on_refusal('RefusedArgumentSetsAll', mark_all, 2)
on_refusal('RefusedEventSetsItsPins', mark_status)
on_refusal('RefusedEventClears', unmark_all)
on_refusal('RefusedLevelsSet', mark_moved)
# Its third word has to be zero; the sister's resets are never refused.
on_refusal('RefusedResetNoted', mark_found, on=(24,))
on_refusal('BrokenEventClears', unmark_all, 3)
on_refusal('BrokenEventSetsAll', mark_all, 3)
on_refusal('BrokenMarksCut', cut_marks, 3)
on_refusal('BrokenMarksStep', step_anyway, 3)


def judging(name, broken, *places, on=tuple(PARTS)):
    """Mutants that judge one set or the other otherwise."""
    def judge(self, pins):
        return broken(self.part, pins)
    for judged in ('set', 'healthy'):
        made(name % judged.title(), (BURSTS, SIGN_OFFS) + places, on, **{'%s_broken' % judged: judge})


judging('%sUnjudged', lambda part, pins: False)
judging('%sLimitPasses', lambda part, pins: pins > part.limit)
judging('%sOfAllFails', lambda part, pins: pins >= part.limit - 1, WATCHES)
judging('%sJudgedByLowWord', lambda part, pins: pins & 0xFFFFFFFF >= part.limit, on=(24,))
judging('%sJudgedByNextBit', lambda part, pins: pins >> part.pins & 1 == 1)
judging('%sJudgedByTopBit', lambda part, pins: pins >> 63 == 1)
judging('%sLimitOf32', lambda part, pins: pins >= 1 << 32, on=(24,))
judging('%sLimitOf32', lambda part, pins: pins >= 1 << 32, WATCHES, on=(34,))
judging('%sLimitOf24', lambda part, pins: pins >= 1 << 24, WATCHES, on=(34,))
judging('%sLimitOf36', lambda part, pins: pins >= 1 << 36, on=(34,))
judging('%sLimitOf40', lambda part, pins: pins >= 1 << 40, on=(34,))
judging('%sLimitOf34', lambda part, pins: pins >= 1 << 34, on=(24,))


@marked(BURSTS, SIGN_OFFS)
class OnlyBothBrokenFail(Marked):
    def marks_broken(self):
        return self.set_broken(self.marks) and self.healthy_broken(self.healthy)


@marked(BURSTS, SIGN_OFFS)
class StatusWithoutMarkFails(Marked):
    """From power-on there is none, but an image may have one."""

    def marks_broken(self):
        return super().marks_broken() or not self.broken and pin_set(self.status) & ~self.marks != 0


@marked(WATCHES, BURSTS, SIGN_OFFS)
class NoMarksFail(Marked):
    def marks_broken(self):
        return super().marks_broken() or self.marks == 0


@marked(WATCHES, BURSTS, SIGN_OFFS)
class NothingHealthyFails(Marked):
    def marks_broken(self):
        return super().marks_broken() or self.healthy == 0


@marked(BURSTS)
class MarksUnjudgedAtEvents(Marked):
    def refusal(self, kind, arg):
        return Device.refusal(self, kind, arg)


@marked(BURSTS)
class KindBeforeMarks(Marked):
    def refusal(self, kind, arg):
        return 1 if self.kind_unknown(kind) and not self.broken else super().refusal(kind, arg)


@marked(BURSTS)
class ArgumentBeforeMarks(Marked):
    def refusal(self, kind, arg):
        return 2 if self.argument_too_large(kind, arg) and not self.broken else super().refusal(kind, arg)


@marked(BURSTS)
class MarksAfterAll(Marked):
    """Image, kind and argument first."""

    def refusal(self, kind, arg):
        number = Device.refusal(self, kind, arg)
        return 3 if number is None and self.marks_broken() else number


@marked(BURSTS, on=(24,))
class ThirdWordBeforeMarks(Marked):
    def event_refusal(self, kind, arg, rest):
        return 2 if rest != 0 and kind < 6 and not self.broken else super().event_refusal(kind, arg, rest)


@marked(BURSTS)
class MarksOneWithKind(Marked):
    """Broken marks are an unknown kind."""

    def refusal(self, kind, arg):
        return 1 if self.marks_broken() and not self.broken else super().refusal(kind, arg)


@marked(BURSTS)
class MarksHideBrokenImage(Marked):
    """Only the marks are judged."""

    def refusal(self, kind, arg):
        number = super().refusal(kind, arg)
        return None if number == 3 and not self.marks_broken() else number


# Bursts with marks.

@marked(BURSTS)
class MarksBeforeEight(Marked):
    def burst(self, data, asked, room):
        return (3, 0, []) if self.marks_broken() and asked > 0 else super().burst(data, asked, room)


@marked(BURSTS)
class MarksOfNoneAsked(Marked):
    def burst(self, data, asked, room):
        told = super().burst(data, asked, room)
        return (3, 0, []) if told[0] == 0 and self.marks_broken() else told


@marked(BURSTS)
class ImageOfNoneAsked(Marked):
    def burst(self, data, asked, room):
        told = super().burst(data, asked, room)
        return (3, 0, []) if told[0] == 0 and self.broken else told


@marked(BURSTS)
class NoneAskedTellsNoCount(Marked):
    def burst(self, data, asked, room):
        number, done, answers = super().burst(data, asked, room)
        return number, done if asked else None, answers


@marked(BURSTS)
class NoneAskedCutsMarks(Marked):
    def burst(self, data, asked, room):
        told = super().burst(data, asked, room)
        if told[1] == 0 and asked == 0:
            cut_marks(self, None, None)
        return told


def after_burst(name, spoil):
    """A mutant that leaves other sets after a burst: told its refusal and the sets before it."""
    def burst(self, data, asked, room):
        sets = self.marks, self.healthy
        number, done, answers = Marked.burst(self, data, asked, room)
        spoil(self, number, sets)
        return number, done, answers
    made(name, (BURSTS,), burst=burst)


def marks_set(device, marks):
    device.marks = marks


def healthy_set(device, healthy):
    device.healthy = healthy


after_burst('EightSetsAll', lambda self, number, sets: marks_set(self, all_pins(self)) if number == 8 else None)
after_burst('EightClears', lambda self, number, sets: marks_set(self, 0) if number == 8 else None)
after_burst('BurstLeavesMarks', lambda self, number, sets: marks_set(self, sets[0]))
after_burst('RefusalUndoesMarks', lambda self, number, sets: marks_set(self, sets[0]) if number in (1, 2) else None)
after_burst('RefusalKeepsMarksSet', lambda self, number, sets: marks_set(self, 0) if number in (1, 2) else None)
after_burst('WholeBurstLeavesMarks', lambda self, number, sets: marks_set(self, sets[0]) if number == 0 else None)
after_burst('OnlyNewMarksTold', lambda self, number, sets: marks_set(self, self.marks & ~sets[0]))
after_burst('HealthyForgotten', lambda self, number, sets: healthy_set(self, 0))
after_burst('HealthyOfLevels', lambda self, number, sets: healthy_set(self, pin_set(pin.level for pin in self.pins)))
after_burst('HealthyMarked', lambda self, number, sets: healthy_set(self, self.healthy | self.marks & ~sets[0]))
after_burst('SetsSwapped', lambda self, number, sets: (marks_set(self, sets[1]), healthy_set(self, sets[0])))


@marked(BURSTS)
class MarksByEndsOfBurst(Marked):
    """What rises and ends within a burst goes by, and so does what a reset in it finds."""

    def burst(self, data, asked, room):
        marks, before = self.marks, self.status_seen()
        told = super().burst(data, asked, room)
        self.marks = marks
        if told[1]:
            self.note(before, False)
        return told


@marked(BURSTS)
class FirstEventOnlyNoted(Marked):
    noted = None

    def burst(self, data, asked, room):
        self.noted = False
        return super().burst(data, asked, room)

    def note(self, before, reset):
        if not self.noted:
            super().note(before, reset)
        if self.noted is not None:
            self.noted = True


class RemembersMarks(Marked):
    """What the marks were before the last event that was noted."""

    def burst(self, data, asked, room):
        self.last = self.marks
        return super().burst(data, asked, room)

    def note(self, before, reset):
        self.last = self.marks
        super().note(before, reset)


@marked(BURSTS)
class LastEventUnnoted(RemembersMarks):
    def burst(self, data, asked, room):
        told = super().burst(data, asked, room)
        if told[0] == 0 and asked:
            self.marks = self.last
        return told


@marked(BURSTS)
class EventBeforeRefusedUnnoted(RemembersMarks):
    """A refused event takes the one before with it."""

    def burst(self, data, asked, room):
        told = super().burst(data, asked, room)
        if told[0] in (1, 2):
            self.marks = self.last
        return told


@marked(BURSTS)
class MarksGoOnAfterRefusal(Marked):
    """The device stands still, the marks are those of all that was asked."""

    def burst(self, data, asked, room):
        told = super().burst(data, asked, room)
        if told[0] in (1, 2):
            further = Marked(self.which, self.image(), self.marks, self.healthy)
            for place in range(told[1] + 1, asked):
                kind, low, rest = self.words_of(data, place)
                further.step(kind, self.argument_of(low, rest))
            self.marks = further.marks
        return told


@marked(BURSTS)
class BrokenMarksTellNoCount(Marked):
    def burst(self, data, asked, room):
        number, done, answers = super().burst(data, asked, room)
        return number, None if number == 3 and self.marks_broken() else done, answers


@marked(BURSTS)
class EightTellsNone(Marked):
    def burst(self, data, asked, room):
        number, done, answers = super().burst(data, asked, room)
        return number, 0 if number == 8 else done, answers


@marked(BURSTS)
class RefusedEventCounted(Marked):
    def burst(self, data, asked, room):
        number, done, answers = super().burst(data, asked, room)
        return number, done + 1 if number in (1, 2, 3) else done, answers


# New marks.

def renewing(name, first, *places, on=tuple(PARTS)):
    """A mutant with other marks at first."""
    def first_marks(cls, which, healthy):
        return first(PARTS[which], healthy)
    made(name, places or (WATCHES, NEW_MARKS), on, first_marks=classmethod(first_marks))


renewing('NoneMarkedAtFirst', lambda part, healthy: 0)
renewing('HealthyMarkedAtFirst', lambda part, healthy: healthy)
renewing('UnhealthyMarkedAtFirst', lambda part, healthy: part.limit - 1 - healthy)
renewing('LastNotMarkedAtFirst', lambda part, healthy: part.limit // 2 - 1)
renewing('FirstNotMarkedAtFirst', lambda part, healthy: part.limit - 2)
renewing('OneMoreMarkedAtFirst', lambda part, healthy: 2 * part.limit - 1)
renewing('AllBitsMarkedAtFirst', lambda part, healthy: (1 << 64) - 1)
renewing('WholePortsMarkedAtFirst', lambda part, healthy: (1 << 8 * part.ports) - 1, on=(34,))
renewing('MarksOf24AtFirst', lambda part, healthy: (1 << 24) - 1, on=(34,))
renewing('MarksOf32AtFirst', lambda part, healthy: (1 << 32) - 1, on=(34,))


def keeping(name, kept):
    """A mutant that keeps another healthy set."""
    def kept_healthy(cls, which, healthy):
        return kept(PARTS[which], healthy)
    made(name, (WATCHES, NEW_MARKS), kept_healthy=classmethod(kept_healthy))


keeping('HealthyDropped', lambda part, healthy: 0)
keeping('HealthyInverted', lambda part, healthy: part.limit - 1 - healthy)
keeping('AllHealthyAtOne', lambda part, healthy: part.limit - 1)
keeping('HealthyOfLowPortsOnly', lambda part, healthy: healthy & 0xFFFF)


def limiting(name, too_large, *places, on=tuple(PARTS)):
    """A mutant that refuses other healthy sets."""
    def healthy_too_large(cls, which, healthy):
        return too_large(PARTS[which], healthy)
    made(name, places or (NEW_MARKS,), on, healthy_too_large=classmethod(healthy_too_large))


limiting('AnyHealthyMade', lambda part, healthy: False)
limiting('HealthyOfLimitMade', lambda part, healthy: healthy > part.limit)
limiting('LargestHealthyRefused', lambda part, healthy: healthy >= part.limit - 1, WATCHES, NEW_MARKS)
limiting('NothingHealthyRefused', lambda part, healthy: healthy == 0 or healthy >= part.limit, WATCHES, NEW_MARKS)
limiting('HealthyLowWordLimited', lambda part, healthy: healthy & 0xFFFFFFFF >= part.limit)
limiting('HealthyTopBitRefused', lambda part, healthy: healthy >> 63 == 1)
limiting('HealthyNextBitRefused', lambda part, healthy: healthy >> part.pins & 1 == 1)
limiting('HealthyOf32Made', lambda part, healthy: healthy >= 1 << 32, on=(24,))
limiting('HealthyOf34Made', lambda part, healthy: healthy >= 1 << 34, on=(24,))
limiting('HealthyOf24Only', lambda part, healthy: healthy >= 1 << 24, WATCHES, NEW_MARKS, on=(34,))
limiting('HealthyOf32Only', lambda part, healthy: healthy >= 1 << 32, WATCHES, NEW_MARKS, on=(34,))
limiting('HealthyOf36Made', lambda part, healthy: healthy >= 1 << 36, on=(34,))
limiting('HealthyOf40Made', lambda part, healthy: healthy >= 1 << 40, on=(34,))


@marked(NEW_MARKS)
class LargeHealthyCut(Marked):
    @classmethod
    def new_marks(cls, which, healthy):
        return super().new_marks(which, healthy % PARTS[which].limit)


def over_old(name, renew):
    """A mutant that makes something else of the sets that lay there: told the refusal, these and the new ones."""
    def renewed(cls, which, healthy, sets):
        number, new = Marked.renewed(which, healthy, sets)
        return number, renew(PARTS[which], healthy, number, sets, new)
    made(name, (NEW_MARKS,), renewed=classmethod(renewed))


over_old('RefusedRenewalMarks', lambda part, healthy, number, old, new: (part.limit - 1 if number else new[0], new[1]))
over_old('RefusedRenewalClears', lambda part, healthy, number, old, new: (0, 0) if number else new)
over_old('RefusedRenewalTakesHealthy', lambda part, healthy, number, old, new: (new[0], healthy))
over_old('OldMarksStay', lambda part, healthy, number, old, new: (old[0] % part.limit, new[1]) if number == 0 else new)
over_old('OldHealthyStays', lambda part, healthy, number, old, new: (new[0], old[1]))
over_old('NewMarksAdded', lambda part, healthy, number, old, new: (new[0] | old[0], new[1]))


@marked(NEW_MARKS)
class LargeHealthyIsBroken(Marked):
    """3, as of a mark set."""

    @classmethod
    def new_marks(cls, which, healthy):
        made_so = super().new_marks(which, healthy)
        return ('refused', 3) if made_so[0] == 'refused' else made_so


# Sign-offs: what is asked of the pin.

def resting(name, at_rest, *places, on=tuple(PARTS)):
    """A mutant that asks something else of a pin."""
    made(name, places or (WATCHES, SIGN_OFFS), on, at_rest=at_rest)


resting('StatusNotAsked', lambda self, pin: self.pins[pin].level == self.healthy_level(pin))
resting('LevelNotAsked', lambda self, pin: not self.status[pin])
resting('NothingAsked', lambda self, pin: True)
resting('EitherIsEnough', lambda self, pin: not self.status[pin] or self.pins[pin].level == self.healthy_level(pin))
resting('StatusAskedFor', lambda self, pin: self.status[pin] and self.pins[pin].level == self.healthy_level(pin))
resting('IntAskedForStatus', lambda self, pin: self.line == QUIET and self.pins[pin].level == self.healthy_level(pin))
resting('PortAskedForStatus', lambda self, pin: self.pins[pin].level == self.healthy_level(pin) and not any(
    self.status[8 * (pin // 8):8 * (pin // 8) + 8]))
resting('PendingAskedForStatus', lambda self, pin: Marked.at_rest(self, pin) and not self.pending(pin))
resting('MaskedPendingAsked', lambda self, pin: Marked.at_rest(self, pin) and not (self.is_input(pin) and self.pending(pin)))
resting('ReferenceAskedToo', lambda self, pin: Marked.at_rest(self, pin) and (
    self.pins[pin].level == self.pins[pin].reference))
resting('HeldAskedToo', lambda self, pin: Marked.at_rest(self, pin) and not self.pins[pin].held)
resting('EdgeAskedToo', lambda self, pin: Marked.at_rest(self, pin) and not self.pins[pin].edge, SIGN_OFFS)
resting('OutputsRefused', lambda self, pin: Marked.at_rest(self, pin) and self.is_input(pin))
resting('OutputsAlwaysRest', lambda self, pin: Marked.at_rest(self, pin) or not self.is_input(pin))
resting('MaskedRefused', lambda self, pin: Marked.at_rest(self, pin) and not self.masked(pin))
resting('MaskedAlwaysRest', lambda self, pin: Marked.at_rest(self, pin) or self.masked(pin))
resting('InvertedRefused', lambda self, pin: Marked.at_rest(self, pin) and not self.inverted(pin))
resting('AllMustBeHealthy', lambda self, pin: Marked.at_rest(self, pin) and healthy_now(self) == all_pins(self))
resting('PortMustBeHealthy', lambda self, pin: Marked.at_rest(self, pin) and all(
    self.pins[i].level == self.healthy_level(i) for i in range(8 * (pin // 8), min(8 * (pin // 8) + 8, self.part.pins))))
resting('ClearMarkNotJudged', lambda self, pin: Marked.at_rest(self, pin) or not self.is_marked(pin))
resting('ClearMarkRefused', lambda self, pin: Marked.at_rest(self, pin) and self.is_marked(pin))
resting('SetMarkNotJudged', lambda self, pin: Marked.at_rest(self, pin) or self.is_marked(pin))


def seeing(name, seen):
    """A mutant that takes something else for the level of a pin."""
    made(name, (WATCHES, SIGN_OFFS), seen_level=seen)


seeing('PolarityApplied', lambda self, pin: self.pins[pin].level != self.inverted(pin))
seeing('PolarityOfInputsApplied', lambda self, pin: self.pins[pin].level != (self.inverted(pin) and self.is_input(pin)))
seeing('InputPortBitTaken', lambda self, pin: self.input_bit(pin))
seeing('RawBitTaken', lambda self, pin: self.raw_bit(pin))
seeing('ReferenceTaken', lambda self, pin: self.pins[pin].reference)
seeing('OpenDrainIsLow', lambda self, pin: self.pins[pin].level and (self.is_input(pin) or not self.open_drain(pin)))
seeing('DriveTaken', lambda self, pin: self.pins[pin].level if self.is_input(pin) else self.bit(self.part.output, pin))
seeing('LevelOfNeighbour', lambda self, pin: self.pins[pin ^ 1].level)
seeing('LevelInverted', lambda self, pin: not self.pins[pin].level)


def healthy_as(name, healthy):
    """A mutant that takes another level for the healthy one."""
    made(name, (WATCHES, SIGN_OFFS), healthy_level=healthy)


healthy_as('HealthyIsLow', lambda self, pin: False)
healthy_as('HealthyIsHigh', lambda self, pin: True)
healthy_as('HealthyIsReference', lambda self, pin: self.pins[pin].reference)
healthy_as('HealthyOfNeighbour', lambda self, pin: self.healthy >> (pin ^ 1) & 1 == 1)
healthy_as('HealthyOfPin0', lambda self, pin: self.healthy & 1 == 1)
healthy_as('HealthyOfMarks', lambda self, pin: self.marks >> pin & 1 == 1)
healthy_as('HealthyCountsDown', lambda self, pin: self.healthy >> self.part.pins - 1 - pin & 1 == 1)


# What a sign-off changes.

def clearing_by(name, clear, *places):
    """A mutant that clears other marks where a pin is signed off."""
    made(name, places or (WATCHES, SIGN_OFFS), clear_mark=clear)


clearing_by('SignOffClearsNone', lambda self, pin: None)
clearing_by('SignOffClearsAll', lambda self, pin: marks_set(self, 0))
clearing_by('SignOffClearsItsPort', lambda self, pin: marks_set(self, self.marks & ~(0xFF << 8 * (pin // 8))))
clearing_by('SignOffClearsNeighbour', lambda self, pin: marks_set(self, self.marks & ~(1 << (pin + 1) % self.part.pins)))
clearing_by('SignOffClearsTwo', lambda self, pin: marks_set(self, self.marks & ~(3 << pin)))
clearing_by('SignOffClearsAllHealthy', lambda self, pin: marks_set(self, self.marks & ~pin_set(
    Marked.at_rest(self, i) for i in range(self.part.pins))))
clearing_by('SignOffClearsUpTo', lambda self, pin: marks_set(self, self.marks & ~((2 << pin) - 1)))
clearing_by('SignOffKeepsOne', lambda self, pin: marks_set(self, self.marks & 1 << pin))
clearing_by('SignOffToggles', lambda self, pin: marks_set(self, self.marks ^ 1 << pin))
clearing_by('SignOffSets', lambda self, pin: marks_set(self, self.marks | 1 << pin))
clearing_by('SignOffCountsDown', lambda self, pin: marks_set(self, self.marks & ~(1 << self.part.pins - 1 - pin)))
clearing_by('SignOffSubtracts', lambda self, pin: marks_set(self, (self.marks - (1 << pin)) % self.part.limit))
clearing_by('SignOffMovesHealthy', lambda self, pin: (
    Marked.clear_mark(self, pin), healthy_set(self, self.healthy ^ 1 << pin)))
clearing_by('SignOffSettles', lambda self, pin: (Marked.clear_mark(self, pin), self.settle(pin)), WATCHES)
clearing_by('SignOffMasks', lambda self, pin: (Marked.clear_mark(self, pin), self.registers.__setitem__(
    self.part.mask + pin // 8, self.registers[self.part.mask + pin // 8] | 1 << pin % 8)), WATCHES)
clearing_by('SignOffEndsTransaction', lambda self, pin: (Marked.clear_mark(self, pin), Device.stop(self)), WATCHES)


def after_refusal(name, spoil, number, *places):
    """A mutant whose refused sign-offs with the number change something."""
    def sign_off(self, pin):
        refusal = Marked.sign_off(self, pin)
        if refusal == number:
            spoil(self, pin)
        return refusal
    made(name, places or (WATCHES, SIGN_OFFS), sign_off=sign_off)


after_refusal('RefusedSignOffClears', Marked.clear_mark, NOT_AT_REST)
after_refusal('RefusedSignOffSets', Marked.set_mark, NOT_AT_REST)
after_refusal('RefusedSignOffSetsAll', lambda self, pin: marks_set(self, all_pins(self)), NOT_AT_REST)
after_refusal('RefusedSignOffSettles', Device.settle, NOT_AT_REST, WATCHES)
after_refusal('UnknownPinClearsAll', lambda self, pin: marks_set(self, 0), 2)
after_refusal('UnknownPinClearsLowBits', lambda self, pin: marks_set(self, self.marks & ~(1 << pin % 32)), 2)
after_refusal('BrokenSignOffClears', lambda self, pin: marks_set(self, 0), 3, SIGN_OFFS)
after_refusal('BrokenSignOffCuts', lambda self, pin: cut_marks(self, None, None), 3, SIGN_OFFS)


# Refusals of a sign-off.

def unknown(name, pin_unknown, *places, on=tuple(PARTS)):
    """A mutant that knows other pins; those that are none have neither level nor status nor mark."""
    def at_rest(self, pin):
        return pin >= self.part.pins or Marked.at_rest(self, pin)

    def clear_mark(self, pin):
        if pin < self.part.pins:
            Marked.clear_mark(self, pin)
    made(name, places or (WATCHES, SIGN_OFFS), on, pin_unknown=pin_unknown, at_rest=at_rest, clear_mark=clear_mark)


unknown('OnePinMore', lambda self, pin: pin > self.part.pins)
unknown('OnePinLess', lambda self, pin: pin >= self.part.pins - 1)
unknown('AnyPinKnown', lambda self, pin: False)
unknown('PinsOf24', lambda self, pin: pin >= 24, on=(34,))
unknown('PinsOf32', lambda self, pin: pin >= 32)
unknown('PinsOf34', lambda self, pin: pin >= 34, on=(24,))
unknown('PinsOfWholePorts', lambda self, pin: pin >= 40, on=(34,))
unknown('PinsOf64', lambda self, pin: pin >= 64)
unknown('PinOfLowByte', lambda self, pin: pin & 0xFF >= self.part.pins, SIGN_OFFS)
unknown('PinOfLowHalf', lambda self, pin: pin & 0xFFFF >= self.part.pins, SIGN_OFFS)
unknown('PinOfLowFiveBits', lambda self, pin: pin & 0x1F >= self.part.pins)
unknown('PinOfLowSixBits', lambda self, pin: pin & 0x3F >= self.part.pins)
unknown('PinWithTopBit', lambda self, pin: pin & 0x7FFFFFFF >= self.part.pins, SIGN_OFFS)


def wrapped(name, bits, *places):
    """A mutant to which a pin is its number's low bits."""
    def sign_off(self, pin):
        return Marked.sign_off(self, pin % (1 << bits))
    made(name, places or (WATCHES, SIGN_OFFS), sign_off=sign_off)


wrapped('PinsWrapAt32', 5)
wrapped('PinsWrapAt64', 6)
wrapped('PinsWrapAt256', 8, SIGN_OFFS)
wrapped('PinsWrapAt65536', 16, SIGN_OFFS)


def refusing(name, refusal, *places):
    made(name, places or (SIGN_OFFS,), sign_off_refusal=refusal)


refusing('UnknownPinIsNotAtRest', lambda self, pin:
         NOT_AT_REST if self.pin_unknown(pin) and not self.sign_off_broken() else Marked.sign_off_refusal(self, pin),
         WATCHES, SIGN_OFFS)
refusing('PinBeforeImage', lambda self, pin: 2 if self.pin_unknown(pin) else Marked.sign_off_refusal(self, pin))
refusing('PinBeforeMarks', lambda self, pin:
         2 if self.pin_unknown(pin) and not self.broken else Marked.sign_off_refusal(self, pin))
refusing('RestBeforeImage', lambda self, pin:
         NOT_AT_REST if not self.pin_unknown(pin) and not self.at_rest(pin) else Marked.sign_off_refusal(self, pin))
refusing('RestBeforeMarks', lambda self, pin: NOT_AT_REST if not self.broken and not self.pin_unknown(pin) and (
    not self.at_rest(pin)) else Marked.sign_off_refusal(self, pin))
refusing('ThirteenOfBrokenMarks', lambda self, pin:
         NOT_AT_REST if self.marks_broken() and not self.broken else Marked.sign_off_refusal(self, pin))
refusing('TwoOfPinNotAtRest', lambda self, pin:
         {NOT_AT_REST: 2}.get(Marked.sign_off_refusal(self, pin), Marked.sign_off_refusal(self, pin)), WATCHES, SIGN_OFFS)
made('ImageUnjudgedAtSignOff', (SIGN_OFFS,), sign_off_broken=Marked.marks_broken)
made('MarksUnjudgedAtSignOff', (SIGN_OFFS,), sign_off_broken=lambda self: self.broken)
made('OnlySetJudgedAtSignOff', (SIGN_OFFS,), sign_off_broken=lambda self: self.broken or self.set_broken(self.marks))
made('OnlyHealthyJudgedAtSignOff', (SIGN_OFFS,), sign_off_broken=lambda self: (
    self.broken or self.healthy_broken(self.healthy)))


# The program watch: what it reads, what it keeps from line to line, what it writes.

WATCHERS = []


def watcher(cls):
    WATCHERS.append(cls)
    return cls


def watching(name, **methods):
    watcher(type(name, (Watch,), methods))


# Its lines.

watching('HeaderOfTrace', header=lambda self: trace.HEADER)
watching('NoHeader', header=lambda self: b'')
watching('HeaderWithMarksBeforeHigh', header=lambda self: b'answer\tint\tlow\tmarks\thigh\n')
watching('HeaderWithHealthy', header=lambda self: b'answer\tint\tlow\thigh\tmarks\thealthy\n')
watching('HeaderInTheSingular', header=lambda self: b'answer\tint\tlow\thigh\tmark\n')


def columns(name, line):
    """A mutant with other answer lines: told the session and the columns of trace."""
    def answered_line(self, answer):
        return '\t'.join(line(self, answer_line(answer, self.device).split('\t')))
    watching(name, answered_line=answered_line)


columns('NoMarksColumn', lambda self, told: told)
columns('MarksBeforeHigh', lambda self, told: told[:3] + [self.marks_text()] + told[3:])
columns('MarksBeforeLow', lambda self, told: told[:2] + [self.marks_text()] + told[2:])
columns('MarksFirst', lambda self, told: [self.marks_text()] + told)
columns('MarksTwice', lambda self, told: told + [self.marks_text()] * 2)
columns('HealthyTold', lambda self, told: told + ['%0*x' % (self.device.part.digits, self.device.healthy)])
columns('HealthyToldToo', lambda self, told: (
    told + [self.marks_text(), '%0*x' % (self.device.part.digits, self.device.healthy)]))
columns('StatusTold', lambda self, told: told + ['%0*x' % (self.device.part.digits, pin_set(self.device.status))])
columns('ClearMarksTold', lambda self, told: (
    told + ['%0*x' % (self.device.part.digits, all_pins(self.device) & ~self.device.marks)]))
columns('MarksInSixDigits', lambda self, told: told + ['%06x' % self.device.marks])
columns('MarksInNineDigits', lambda self, told: told + ['%09x' % self.device.marks])
columns('MarksInFewestDigits', lambda self, told: told + ['%x' % self.device.marks])
columns('MarksInCapitals', lambda self, told: told + [self.marks_text().upper()])
columns('MarksOfSixLowDigits', lambda self, told: told + ['%0*x' % (
    self.device.part.digits, self.device.marks & 0xFFFFFF)])
columns('LineEndsWithTab', lambda self, told: told + [self.marks_text(), ''])
columns('CountOfMarksTold', lambda self, told: told + ['%0*x' % (
    self.device.part.digits, bin(self.device.marks).count('1'))])


@watcher
class MarksFromBefore(Watch):
    """The column is a line late."""

    told = None

    def answered_line(self, answer):
        now = self.marks_text()
        told = self.told if self.told and len(self.told) == len(now) else now
        self.told = now
        return '%s\t%s' % (answer_line(answer, self.device), told)


@watcher
class MarksOnlyWhereMoved(Watch):
    told = None

    def answered_line(self, answer):
        line = super().answered_line(answer)
        moved, self.told = self.told != self.marks_text(), self.marks_text()
        return line if moved else answer_line(answer, self.device)


@watcher
class MarksOnRefusedSignOffs(Watch):
    def refused_line(self, answer):
        return '%s\t%s' % (super().refused_line(answer), self.marks_text())


@watcher
class MarksOnUnreadableLines(Watch):
    def answer(self, event):
        told = super().answer(event)
        return told[:-1] + b'\t' + self.marks_text().encode() + b'\n' if told == UNREADABLE and self.device else told


@watcher
class ColumnsOnRefusedSignOffs(Watch):
    def refused_line(self, answer):
        return self.answered_line(super().refused_line(answer))


@watcher
class SignOffAcknowledged(Watch):
    def sign(self, pin):
        answer = super().sign(pin)
        return 'ack' if answer == '-' else answer


@watcher
class SignOffAnsweredAlone(Watch):
    """No columns of a line that is no event."""

    def event(self, kind, argument, digits):
        self.signing = kind == SIGN
        return super().event(kind, argument, digits)

    def new(self, *given):
        self.signing = False
        return super().new(*given)

    def answered_line(self, answer):
        return answer if self.signing else super().answered_line(answer)


@watcher
class SignOffWithoutMarks(SignOffAnsweredAlone):
    def answered_line(self, answer):
        return answer_line(answer, self.device) if self.signing else Watch.answered_line(self, answer)


@watcher
class DeviceWithoutMarks(Watch):
    """A device line is answered as trace does."""

    def new(self, *given):
        self.making = True
        return super().new(*given)

    def event(self, kind, argument, digits):
        self.making = False
        return super().event(kind, argument, digits)

    def answered_line(self, answer):
        return answer_line(answer, self.device) if self.making else super().answered_line(answer)


def signing(name, sign):
    """A mutant that answers sign-offs otherwise: told the session, the pin and the right answer."""
    def changed(self, pin):
        return sign(self, pin, Watch.sign(self, pin))
    watching(name, sign=changed)


signing('SignBeforeDeviceIsThirteen', lambda self, pin, told: ('refused', 13) if told is None else told)
signing('SignBeforeDeviceIsTwo', lambda self, pin, told: ('refused', 2) if told is None else told)
signing('SignBeforeDeviceIsThree', lambda self, pin, told: ('refused', 3) if told is None else told)
signing('UnknownPinBeforeDeviceIsTwo', lambda self, pin, told: ('refused', 2) if told is None and pin > 33 else told)
signing('UnknownPinUnreadable', lambda self, pin, told: None if told == ('refused', 2) else told)
signing('UnknownPinIsThirteen', lambda self, pin, told: ('refused', 13) if told == ('refused', 2) else told)
signing('NotAtRestUnreadable', lambda self, pin, told: None if told == ('refused', 13) else told)
signing('NotAtRestIsTwo', lambda self, pin, told: ('refused', 2) if told == ('refused', 13) else told)
signing('NotAtRestInHex', lambda self, pin, told: 'refused\td' if told == ('refused', 13) else told)
signing('NotAtRestTakenSilently', lambda self, pin, told: '-' if told == ('refused', 13) else told)
signing('NotAtRestIsNak', lambda self, pin, told: 'nak' if told == ('refused', 13) else told)
signing('SignOffTellsPin', lambda self, pin, told: pin if told == '-' else told)


@watcher
class HexPinsDecimal(Watch):
    def sign(self, pin):
        digits = '%02x' % pin
        return super().sign(int(digits) if digits.isdigit() else pin)


@watcher
class SignOffTwice(Watch):
    """A pin signed off already is not answered again."""

    def sign(self, pin):
        marks = self.device.marks if self.device else 0
        told = super().sign(pin)
        return None if told == '-' and marks == self.device.marks else told


# Its device lines.

@watcher
class HealthyIsLevels(Watch):
    """What the pins are at first is taken for healthy."""

    def make(self, which, choice, levels, healthy):
        return super().make(which, choice, levels, levels)


@watcher
class HealthyBeforeLevels(Watch):
    def make(self, which, choice, levels, healthy):
        return super().make(which, choice, healthy, levels)


@watcher
class DevicesHaveANumber(Watch):
    def make(self, which, choice, levels, healthy):
        return self.classes[which].make(which, choice, levels, 1, healthy)


def remaking(name, sets):
    """A mutant whose later devices have other sets: of the device before, where it is of the same part, and their own."""
    def make(self, which, choice, levels, healthy):
        new, old = Watch.make(self, which, choice, levels, healthy), self.device
        if not isinstance(new, tuple) and old is not None and old.which == which:
            new.marks, new.healthy = sets(old, new)
        return new
    watching(name, make=make)


remaking('LaterDeviceKeepsMarks', lambda old, new: (old.marks, new.healthy))
remaking('LaterDeviceKeepsHealthy', lambda old, new: (new.marks, old.healthy))
remaking('LaterDeviceKeepsBoth', lambda old, new: (old.marks, old.healthy))
remaking('LaterDeviceHasNoMarks', lambda old, new: (0, new.healthy))
remaking('LaterDeviceNotesTheOld', lambda old, new: (old.marks | pin_set(old.status), new.healthy))


@watcher
class LaterDeviceUnreadable(Watch):
    def new(self, *given):
        return super().new(*given) if self.device is None else None


@watcher
class LaterDeviceKeepsDevice(Watch):
    """Only the marks are made anew."""

    def take(self, made_so):
        old, answer = self.device, super().take(made_so)
        if answer is not None and old is not None and old.which == self.device.which:
            self.device = Marked(old.which, old.image(), self.device.marks, self.device.healthy)
        return answer


@watcher
class UnreadableDeviceTakesHealthy(Watch):
    """The choice or the levels are wrong, the healthy set is not."""

    def new(self, which, choice, levels, healthy, digits):
        answer = super().new(which, choice, levels, healthy, digits)
        if answer is None and self.device and self.device.which == which and self.healthy_read(which, healthy, digits[1]):
            self.device.healthy = healthy
        return answer


@watcher
class UnreadableDeviceMarksAll(Watch):
    def new(self, *given):
        answer = super().new(*given)
        if answer is None and self.device:
            self.device.marks = all_pins(self.device)
        return answer


@watcher
class UnreadableDeviceEndsTheOld(Watch):
    def new(self, *given):
        answer = super().new(*given)
        if answer is None:
            self.device = None
        return answer


def healthy_digits(name, fits):
    """A mutant that reads other healthy sets: told the part's number, its digits and the set."""
    def healthy_read(self, which, healthy, digits):
        return fits(which, digits, healthy) or Watch.healthy_read(self, which, healthy, digits)

    def make(self, which, choice, levels, healthy):
        return Watch.make(self, which, choice, levels, healthy % PARTS[which].limit)
    watching(name, healthy_read=healthy_read, make=make)


healthy_digits('SixHealthyDigitsOfTheSister', lambda which, digits, healthy: which == 34 and digits == 6)
healthy_digits('NineHealthyDigitsOf24', lambda which, digits, healthy: which == 24 and digits == 9)
healthy_digits('AnyHealthyDigits', lambda which, digits, healthy: True)
healthy_digits('TooManyHealthyCut', lambda which, digits, healthy: digits == PARTS[which].digits)
healthy_digits('FewerHealthyDigits', lambda which, digits, healthy: digits < PARTS[which].digits)
healthy_digits('MoreHealthyDigits', lambda which, digits, healthy: digits == PARTS[which].digits + 1)


@watcher
class TooManyHealthyGetTwo(Watch):
    def healthy_read(self, which, healthy, digits):
        return self.digits_fit(which, digits)

    def take(self, made_so):
        return made_so if self.device is not None and isinstance(made_so, tuple) else super().take(made_so)


@watcher
class SixDigitsMakeASister(Watch):
    def new(self, which, choice, levels, healthy, digits):
        return super().new(which, choice, levels, healthy, (9, 9) if (which, digits) == (34, (6, 6)) else digits)


@watcher
class NineDigitsMakeADevice(Watch):
    def new(self, which, choice, levels, healthy, digits):
        return super().new(which, choice, levels, healthy, (6, 6) if (which, digits) == (24, (9, 9)) else digits)


@watcher
class NineDigitsMakeASister(Watch):
    """Whatever the line calls it."""

    def new(self, which, choice, levels, healthy, digits):
        return super().new({6: 24, 9: 34}.get(digits[0], which), choice, levels, healthy, digits)


@watcher
class SixDigitsForTheSistersPins(Watch):
    def event(self, kind, argument, digits):
        of_sister = self.device is not None and self.device.which == 34
        return super().event(kind, argument, 9 if kind == trace.LEVELS and digits == 6 and of_sister else digits)


@watcher
class TooManyLevelsCut(Watch):
    def new(self, which, choice, levels, healthy, digits):
        return super().new(which, choice, levels % PARTS[which].limit, healthy, digits)


@watcher
class ChoiceCut(Watch):
    def make(self, which, choice, levels, healthy):
        return super().make(which, choice % 4, levels, healthy)


# What a line is.

def reading(name, read):
    """A mutant that reads lines otherwise: told the line, and how a line is read."""
    watching(name, read=lambda self, line: read(line, watch.read_line))


def three_fields(healthy):
    """A device line of trace, and the healthy set that it is taken to say."""
    def read(line, right):
        event = trace.read_line(line)
        if event is None or event[0] != NEW:
            return right(line)
        (which, choice, levels), digits = event[1:]
        return NEW, (which, choice, levels, healthy(which, levels)), (digits, digits)
    return read


def by_form(form, made_of):
    """Lines of the form are read as what is made of them."""
    form = re.compile(form)
    return lambda line, right: right(form.sub(made_of, line) if form.fullmatch(line) else line)


reading('ThreeFieldsAndNoneHealthy', three_fields(lambda which, levels: 0))
reading('ThreeFieldsAndLevelsHealthy', three_fields(lambda which, levels: levels))
reading('ThreeFieldsAndAllHealthy', three_fields(lambda which, levels: PARTS[which].limit - 1))
reading('EmptyHealthySet', by_form(rb'(device\t.\t[0-9a-f]{6})\t', rb'\1\t000000'))
reading('FifthFieldIgnored', by_form(rb'(device(?:34)?\t[^\t]*\t[^\t]*\t[^\t]*)\t.*', rb'\1'))
reading('EmptyFifthFieldIgnored', by_form(rb'(device(?:34)?\t[^\t]*\t[^\t]*\t[^\t]*)\t', rb'\1'))
reading('CapitalsInSignOffs', by_form(rb'sign\t[0-9A-Fa-f]{2}', lambda found: found.group().lower()))
reading('CapitalsInDevices', by_form(rb'device.*', lambda found: found.group().lower()))
reading('CapitalsInHealthySets', by_form(
    rb'(device(?:34)?\t[0-9a-f]\t[0-9a-f]+\t)([0-9A-Fa-f]+)', lambda found: found.group(1) + found.group(2).lower()))
reading('CapitalsInWords', by_form(rb'(?i:sign)(\t..)', rb'sign\1'))
reading('OneDigitSigns', by_form(rb'sign\t([0-9a-f])', rb'sign\t0\1'))
reading('ThreeDigitsSign', by_form(rb'sign\t0([0-9a-f]{2})', rb'sign\t\1'))
reading('MoreDigitsSign', by_form(rb'sign\t0+([0-9a-f]{2})', rb'sign\t\1'))
reading('NoDigitSigns', by_form(rb'sign\t?', rb'sign\t00'))
reading('SecondFieldOfSignIgnored', by_form(rb'(sign\t[0-9a-f]{2})\t.*', rb'\1'))
reading('SpaceForTabInSign', by_form(rb'sign ([0-9a-f]{2})', rb'sign\t\1'))
reading('SpaceForTabInDevice', by_form(rb'(device(?:34)?)[ \t](.)[ \t](.*)[ \t](.*)', rb'\1\t\2\t\3\t\4'))
reading('ReturnForgiven', by_form(rb'(?s:(.*)\r)', rb'\1'))
reading('SpaceForgiven', by_form(rb'(?s:(.*?) +)', rb'\1'))
reading('SpaceBeforeForgiven', by_form(rb'(?s: +(.*))', rb'\1'))
reading('TabForgiven', by_form(rb'(?s:(.*)\t)', rb'\1'))
reading('NulEndsLine', by_form(rb'(?s:([^\0]*)\0.*)', rb'\1'))
reading('TwoTabsAreOne', lambda line, right: right(re.sub(rb'\t\t+', rb'\t', line)))
reading('SignOfTheSister', by_form(rb'sign34(\t..)', rb'sign\1'))
reading('LongLineCutAt30', lambda line, right: right(line[:30]))
reading('LongLineReadFrom32', lambda line, right: right(line[32:] if len(line) > 32 else line))
reading('LongLineReadFrom33', lambda line, right: right(line[33:] if len(line) > 33 else line))
reading('LimitOf29Bytes', lambda line, right: right(line) if len(line) < 30 else None)
reading('LimitOf23Bytes', lambda line, right: right(line) if len(line) < 24 else None)
reading('SignsUnreadable', lambda line, right: None if line.startswith(b'sign') else right(line))
reading('SignedPinsUpTo1f', lambda line, right: None if line > b'sign\t1f' and line.startswith(b'sign') else right(line))


@watcher
class EmptyLinesPassed(Watch):
    def lines(self, log):
        return [line for line in split_lines(log) if line]


@watcher
class LastLineNeedsNewline(Watch):
    def lines(self, log):
        return log.split(b'\n')[:-1]


@watcher
class EmptyLastLineCounts(Watch):
    def lines(self, log):
        return log.split(b'\n')


@watcher
class ReturnEndsLine(Watch):
    def lines(self, log):
        return split_lines(log.replace(b'\r\n', b'\n').replace(b'\r', b'\n'))
