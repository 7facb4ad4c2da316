"""One-rule mutants of the model, and which only images, views or bursts can show; try_mutants.py tries them.

A mutant of the device is tried on each part that it is about, the other part being right: on both, if it does not say.
"""

from device import (ARMED, ASK, ASKING, ASSERTED, BYTE, CALL, CHOSEN, DEAF, EVENT_BYTES, FETCH, FILLING, IDLE, IN_GROUP,
                    LEVELS, MOST_EVENTS, NAMED, NUMBER_BYTES, NUMBER_LIMIT, OPENED, OVER_MAP, PARTS, QUIET, REOPENED, RESET,
                    SENDING, TELL, TELLING, Device, Part, Pin, pin_set, power_on_image)
from generate import BORDERS
from judge import Planner
from logs import AGREES, DEPARTS, ENDS_EARLY, LEFT_OVER, SHOWN_BYTES, Comparison
from probe import IMAGE_WIDTHS, WIDTHS, image_fields
from probe import read_line as probe_line
from trace import HEADER, UNREADABLE, Session, answer_line, run_log, split_lines

# Name of a mutant that no output can tell from the model, and why.
SURVIVORS = {}

# The mutants that no log can tell from the model: from power-on no log leads to the marks on which they differ; or a
# log loads no image, and no line of it has an unknown kind or an argument too large or not asked for; or they differ
# only in what an image alone shows, such as Idle from Deaf, or in a number, which is 0 in every log.
ONLY_BY_IMAGES = frozenset('''
    interrupt_status_is_stored input_status_is_stored input_port_is_stored
    OutputShowsHeld HeldShowsWithoutLatch EdgeCountsWithoutField
    HeldComparesOldLevel HeldOnOutputs HeldWithoutLatch HeldOnlyOnChange EdgeOnOutputs
    LatchOffKeepsHeld LatchOffOnlyFromOne LatchOnOrsHeld LatchOnHoldsOutputs LatchOnKeepsOutputsHeld
    OutputKeepsHeld OutputKeepsEdge OutputClearsOnlyOnce TurnOrsHeld TurnHoldsWithoutLatch TurnKeepsEdge
    ResetKeepsHeld ResetDeafens LastFetchGoesIdle IdleByteDeafens
    KindSixPasses KindLowByteOnly ByteLimitOneMore FetchLimitOneMore LevelsLimitOneMore ArgumentLowWordOnly
    StartChecksArgument ResetChecksArgument KindBeforeImage ArgumentBeforeImage
    ReservedPointerPasses LargePointerPasses BusStateTwelvePasses BusStateElevenFails BusStateEightFails ChoiceFourPasses
    PortKindOneMorePasses PortKindOfAllFails ReservedEntryPasses ReadOnlyEntryPasses ClearEntryPasses LastEntryUnchecked
    HeldWithoutLatchFails LargeLevelPasses LargeReferencePasses LargeHeldPasses LargeEdgePasses
    LineKeptAsAsserted StatusUnjudged LineUnjudged StatusAndLineUnjudged StatusJudgedWithoutMask LineJudgedByKeptStatus
    StatusJudgedAsSomeOrNone MissingStatusBitPasses ExtraStatusBitPasses StatusPastThePinsPasses LineJudgedByLowestBit
    LevelsLimitOf32Bits LevelsLimitOf36 LevelLimitOf36 ReferenceLimitOf36 HeldLimitOf24 HeldLimitOf36 EdgeLimitOf24
    EdgeLimitOf36 PortKindLimitOf24 PortKindLimitNone LastPortUnjudged PointersOf24
    ModeTwoPasses ModeUnjudged ModeOneFails ModeJudgedByTopBit ModeNotTold ModeNotTaken
    LowestByteFirst HighestByteNotTold PlaceStays PlaceStopsAtLast PlaceStepsDown LastTellSteps LastTellClearsPlace
    LastTellGoesIdle OtherNameGoesIdle TellKeepsPlace ResetKeepsPlace HardwareResetKeepsPlace SoftwareResetKeepsPlace
    PlaceClearedByStart PlaceClearedByStop PlaceClearedByLevels PlaceClearedByName PlaceClearedByAddress
    PlaceClearedByCommand PlaceClearedByTellingByte PlaceClearedByFetch PlaceClearedByAsk
    ResetForgetsNumber HardwareResetForgetsNumber SoftwareResetForgetsNumber
    NumberLimitPasses LargestNumberFails NumberUnjudged NumberJudgedByTopBit NumberNotTold NumberNotTaken
    PlaceThreePasses PlaceTwoFails PlaceUnjudged PlaceJudgedWhileTelling PlaceNotTold PlaceNotTaken
'''.split())

# The mutants of what a host is told when it asks, and of when it is refused: no event asks.
ONLY_BY_VIEWS = frozenset('''
    IntOfBrokenImageIsQuiet IntOfBrokenImageIsTold DrivesOfBrokenImageAreTold ByteOfBrokenImageIsTold
    ReservedNumberShowsNull LargeNumberShowsNull NumberBeforeImage NumberLowByteOnly TopBitOfNumberDropped
    ByteOnlyWhileSending ByteAskedSettles
'''.split())

# The mutants of many events in one call: no single event knows them.
ONLY_BY_BURSTS = frozenset('''
    BurstCountsOneTooMany BurstCountsRefused BurstCountsGiven BurstStopsOneEarly BurstGoesOnAfterRefusal
    BurstAnswersRefused BurstUndoesOnRefusal BurstTellsNoCountOfRefused BurstClearsRoom
    RestOfStartIgnored RestOfStopIgnored RestOfResetIgnored RestOfByteIgnored RestOfFetchIgnored RestOfLevelsIgnored
    RestLowByteOnly RestBeforeKind RestBeforeImage RestIsArgumentsUpperWord
    UpperHalfIgnored UpperHalfOfByteIgnored UpperHalfOfFetchIgnored UpperHalfOfLevelsIgnored UpperHalfRefused
    UpperHalfRefusedButOfLevels UpperHalfRefusedBeforeKind HalvesSwapped UpperHalfOf16Bits
    EventWordsHighestFirst EventOfEightBytes ArgumentLowHalfOnly
    Burst513Passes Burst512Fails BurstGivenOver512Fails BurstRoomOneShortPasses BurstRoomForAllGiven
    BurstPartOfEventPasses BurstLessGivenPasses BurstEightAfterThree BurstEightTellsNone BurstOfNoneOnBrokenFails
    BurstOfNoneTellsNoCount BurstLeavesStatus BurstLeavesLine BurstLeavesMode BurstLeavesPlace
'''.split())

MUTANTS = []


def mutant(cls):
    MUTANTS.append(cls)
    return cls


def mutant_on(*parts):
    """A mutant of a rule that only these parts have."""
    def marked(cls):
        cls.on = parts
        return mutant(cls)
    return marked


Device.on = tuple(PARTS)


def of_part(which, name, part):
    """A mutant whose one part is this one."""
    mutant_on(which)(type(name, (Device,), {'parts': {**PARTS, which: part}}))


def with_groups(which, groups):
    return Part(PARTS[which].pins, groups, PARTS[which].most_writes)


def entry(which, name, first, **changes):
    """A mutant with one table entry of one part changed."""
    groups = PARTS[which].groups
    group = next(group for group in groups if group.first == first)
    rest = [other for other in groups if other is not group]
    of_part(which, name, with_groups(which, rest + [group._replace(**changes)]))


# The tables: the same of both, by the group's name.

def entries(suffix, group_name, **changes):
    for which, part in PARTS.items():
        if group_name in part.named:
            entry(which, '%s_%s' % (group_name.replace(' ', '_'), suffix), part.named[group_name].first, **changes)


entries('default_00', 'output', default=0x00)
entries('default_ff', 'polarity', default=0xFF)
entries('default_00', 'configuration', default=0x00)
entries('default_00', 'drive strength', default=0x00)
entries('default_ff', 'input latch', default=0xFF)
entries('default_ff', 'pull enable', default=0xFF)
entries('default_00', 'pull select', default=0x00)
entries('default_00', 'interrupt mask', default=0x00)
entries('default_07', 'output port kind', default=0x07)
entries('default_ff', 'interrupt edge', default=0xFF)
entries('default_ff', 'pin output kind', default=0xFF)
entries('default_ff', 'debounce enable', default=0xFF)
entries('default_ff', 'debounce count', default=0xFF)
entries('default_ff', 'debounce', default=0xFF)
entries('not_stored', 'pull enable', stored=False)
entries('not_stored', 'drive strength', stored=False)
entries('not_stored', 'debounce count', stored=False)
entries('not_stored', 'debounce', stored=False)
entries('is_stored', 'interrupt clear', stored=True)
entries('is_stored', 'interrupt status', stored=True)
entries('is_stored', 'input status', stored=True)
entries('is_stored', 'input port', stored=True)

entry(24, 'debounce_is_one_group', 0x74, last=0x76)
entry(24, 'drive_strength_of_three', 0x40, last=0x42)
entry(24, 'edge_of_three', 0x60, last=0x62)
entry(24, 'input_port_of_two', 0x00, last=0x01)
entry(24, 'port_kind_of_two', 0x5C, last=0x5D)
entry(24, 'debounce_count_of_two', 0x76, last=0x77)
entry(24, 'input_port_of_four', 0x00, last=0x03)
entry(24, 'pin_kind_of_four', 0x70, last=0x73)

entry(34, 'drive_strength_of_five', 0x30, last=0x34)
entry(34, 'drive_strength_of_ten', 0x30, last=0x39)
entry(34, 'edge_of_five', 0x54, last=0x58)
entry(34, 'edge_of_ten', 0x54, last=0x5D)
entry(34, 'input_port_of_three', 0x00, last=0x02)
entry(34, 'configuration_of_six', 0x0F, last=0x14)
entry(34, 'debounce_of_four', 0x6D, last=0x70)


def split_debounce(last):
    """The sister's debounce registers in two groups, as the 24-pin part has them."""
    group = PARTS[34].named['debounce']
    rest = [other for other in PARTS[34].groups if other is not group]
    halves = [group._replace(last=last), group._replace(first=last + 1, name='debounce count')]
    of_part(34, 'debounce_split_after_%02x' % last, with_groups(34, rest + halves))


split_debounce(0x6D)
split_debounce(0x6E)


# The sister's last port, which has two pins.

def wider_last_port(name, **bits):
    """The sister with more bits in the last register of some groups."""
    groups = [group._replace(bits=bits.get(group.name.replace(' ', '_'), group.bits)) for group in PARTS[34].groups]
    of_part(34, name, with_groups(34, groups))


wider_last_port('unused_output_bits_kept', output=0xFF)
wider_last_port('unused_polarity_bits_kept', polarity=0xFF)
wider_last_port('unused_configuration_bits_kept', configuration=0xFF)
wider_last_port('one_unused_configuration_bit_kept', configuration=0x07)
wider_last_port('unused_strength_bits_kept', drive_strength=0xFF)
wider_last_port('strength_of_one_bit_a_pin', drive_strength=0x03)
wider_last_port('unused_latch_bits_kept', input_latch=0xFF)
wider_last_port('unused_pull_enable_bits_kept', pull_enable=0xFF)
wider_last_port('unused_pull_select_bits_kept', pull_select=0xFF)
wider_last_port('unused_mask_bits_kept', interrupt_mask=0xFF)
wider_last_port('unused_edge_bits_kept', interrupt_edge=0xFF)
wider_last_port('edge_of_one_bit_a_pin', interrupt_edge=0x03)
wider_last_port('unused_pin_kind_bits_kept', pin_output_kind=0xFF)
wider_last_port('port_kind_of_three_bits', output_port_kind=0x07)
wider_last_port('port_kind_of_six_bits', output_port_kind=0x3F)
wider_last_port('debounce_of_two_bits', debounce=0x03)


def whole_last_port():
    """The sister with eight pins in its last port; levels of 2^34 or more are refused as ever."""
    groups = [group._replace(bits=0x1F if group.name == 'output port kind' else 0xFF) for group in PARTS[34].groups]
    part = Part(40, groups, PARTS[34].most_writes)
    part.limit, part.digits = PARTS[34].limit, PARTS[34].digits
    return part


of_part(34, 'six_phantom_pins', whole_last_port())


@mutant_on(34)
class PhantomPinsDriven(Device):
    """Six pins more are driven low once a write says that they are outputs; nothing is kept of it."""

    phantoms = 0

    def kept(self, number, value):
        if number == self.part.named['configuration'].last:
            self.phantoms = ~value & 0xFC
        return super().kept(number, value)

    def outputs(self):
        line, low, high = super().outputs()
        return line, low | self.phantoms << 32, high


@mutant_on(34)
class UnusedBitsReadBack(Device):
    """What was written last is read, whole, where a register has unused bits."""

    written = None

    def store(self, number, value):
        super().store(number, value)
        if self.map[number].stored:
            self.written = number, value

    def byte_at(self, number):
        shown = super().byte_at(number)
        if self.written and self.written[0] == number and self.registers[number] == self.kept(*self.written):
            return self.written[1]
        return shown


def unused_bits_read(name):
    """The unused bits of one group's last register read as 1."""
    def byte_at(self, number):
        group = self.map[number]
        unused = 0xFF & ~group.bits if group.name == name and number == group.last else 0
        return Device.byte_at(self, number) | unused
    mutant_on(34)(type('Unused%sBitsReadOne' % name.title().replace(' ', ''), (Device,), {'byte_at': byte_at}))


for read_name in ('input port', 'input status', 'interrupt status', 'interrupt clear', 'configuration'):
    unused_bits_read(read_name)


@mutant_on(34)
class UnusedDefaultsSet(Device):
    """The defaults as the tables of the other ports have them, unused bits and all."""

    def reset_registers(self):
        return [group.default if group and group.stored else 0 for group in self.map]


@mutant_on(34)
class UnusedDefaultsShown(Device):
    """The register file is right, but a fetch of a default shows it with the bits of the other ports."""

    def byte_at(self, number):
        group = self.map[number]
        shown = super().byte_at(number)
        return group.default if group.stored and shown == group.default & self.part.bits[number] else shown


@mutant_on(34)
class UnusedClearBitsSettle(Device):
    def write(self, number, value):
        if self.map[number].name == 'interrupt clear' and number == self.map[number].last and value & 0xFC:
            value |= 0x03
        super().write(number, value)


@mutant_on(34)
class LastPortWrittenWhole(Device):
    """A write with unused bits to the last port is not taken at all."""

    def store(self, number, value):
        if value & ~self.part.bits[number] == 0:
            super().store(number, value)


@mutant_on(34)
class LastPortForgotten(Device):
    """As many ports as the 24-pin part has are fetched and settled."""

    def settled_by_fetch(self, number, acknowledged):
        return super().settled_by_fetch(number, acknowledged) if number < 3 else ()


# What the 24-pin part has, left in the sister.

@mutant_on(34)
class LevelsLimitOf24(Device):
    def argument_too_large(self, kind, arg):
        return super().argument_too_large(kind, arg) or (kind == LEVELS and arg >= PARTS[24].limit)


@mutant_on(34)
class LevelsLimitOf32Bits(Device):
    def argument_too_large(self, kind, arg):
        return super().argument_too_large(kind, arg & 0xFFFFFFFF if kind == LEVELS else arg)


@mutant_on(34)
class LevelsLimitOf36(Device):
    """As many pins as nine digits tell."""

    def argument_too_large(self, kind, arg):
        return arg >= 1 << 36 if kind == LEVELS else super().argument_too_large(kind, arg)


@mutant_on(34)
class MakeLimitOf24(Device):
    @classmethod
    def make_too_large(cls, which, choice, levels, number):
        return levels >= PARTS[24].limit or super().make_too_large(which, choice, levels, number)


def image_limit_mutant(name, limit, what):
    """A mutant that has one limit of the sister's images as `limit`."""
    def pin_sets_broken(self, image):
        return Device.pin_sets_broken(self, image._replace(**{name: 0})) or getattr(image, name) >= limit
    mutant_on(34)(type('%s%s' % (name.title(), what), (Device,), {'pin_sets_broken': pin_sets_broken}))


for limited in ('level', 'reference', 'held', 'edge'):
    image_limit_mutant(limited, PARTS[24].limit, 'LimitOf24')
    image_limit_mutant(limited, 1 << 36, 'LimitOf36')


@mutant_on(34)
class PortKindLimitOf24(Device):
    def unused_broken(self, number, value):
        return value > 7 if number == self.part.port_kind else super().unused_broken(number, value)


@mutant_on(34)
class PortKindLimitNone(Device):
    def unused_broken(self, number, value):
        return number != self.part.port_kind and super().unused_broken(number, value)


@mutant_on(34)
class LastPortUnjudged(Device):
    """Of unused bits only the port kind's are judged, which is all that the 24-pin part has."""

    def unused_broken(self, number, value):
        return number == self.part.port_kind and super().unused_broken(number, value)


@mutant_on(34)
class PointersOf24(Device):
    def pointer_broken(self, pointer):
        return pointer > 0x7F or PARTS[24].map[pointer] is None


@mutant_on(34)
class EntriesOf24(Device):
    def entry_broken(self, number, value):
        group = PARTS[24].map[number]
        return super().entry_broken(number, value) or (value != 0 and (group is None or not group.stored))


@mutant_on(34)
class CommandsOf24(Device):
    def command(self, value):
        return super().command(value) if PARTS[24].map[value & 0x7F] is not None else None


@mutant_on(34)
class StatusOf24Pins(Device):
    def status_bits(self):
        return [bit and i < 24 for i, bit in enumerate(super().status_bits())]

    def keep_status(self, operation, i):
        if i < 24:
            super().keep_status(operation, i)


@mutant_on(34)
class DrivesOf24Pins(Device):
    def drives(self):
        return [drive if i < 24 else 'released' for i, drive in enumerate(super().drives())]


@mutant_on(34)
class DrivesOf32Pins(Device):
    def drives(self):
        return [drive if i < 32 else 'released' for i, drive in enumerate(super().drives())]


@mutant_on(34)
class LevelsOf24Pins(Device):
    def take_level(self, i, new):
        if i < 24:
            super().take_level(i, new)


@mutant_on(34)
class LevelsOf32Pins(Device):
    def take_level(self, i, new):
        if i < 32:
            super().take_level(i, new)


# Drives and what is seen.

@mutant
class PinKindIsOpenDrain(Device):
    def open_drain(self, i):
        return self.bit(self.part.pin_kind, i)


@mutant
class PortKindAlone(Device):
    def open_drain(self, i):
        return bool(self.registers[self.part.port_kind] >> i // 8 & 1)


@mutant
class PortKindBitsReversed(Device):
    def open_drain(self, i):
        return bool(self.registers[self.part.port_kind] >> self.part.ports - 1 - i // 8 & 1) != self.bit(
            self.part.pin_kind, i)


@mutant
class OpenDrainReleasesLow(Device):
    def drive(self, i):
        return 'released' if self.open_drain(i) else super().drive(i)


@mutant
class ConfigurationUpsideDown(Device):
    def drive(self, i):
        if not self.is_input(i):
            return 'released'
        return 'high' if self.bit(self.part.output, i) else 'low'


@mutant
class PolarityOnOutputs(Device):
    def input_bit(self, i):
        return super().input_bit(i) != (not self.is_input(i) and self.inverted(i))


@mutant
class PolarityInvertsDrive(Device):
    def drive(self, i):
        drive = super().drive(i)
        return {'low': 'high', 'high': 'low'}.get(drive, drive) if self.inverted(i) else drive


@mutant
class OpenDrainShowsLevel(Device):
    def input_bit(self, i):
        return super().input_bit(i) if self.is_input(i) else self.pins[i].level


@mutant
class OutputShowsItsBit(Device):
    def input_bit(self, i):
        return super().input_bit(i) if self.is_input(i) else self.bit(self.part.output, i)


@mutant
class OutputShowsHeld(Device):
    def input_bit(self, i):
        return super().input_bit(i) if self.is_input(i) else self.raw_bit(i) and not self.open_drain(i)


@mutant
class HeldShowsReference(Device):
    def raw_bit(self, i):
        pin = self.pins[i]
        return pin.reference if self.latched(i) and pin.held else pin.level


@mutant
class HeldShowsWithoutLatch(Device):
    def raw_bit(self, i):
        pin = self.pins[i]
        return not pin.reference if pin.held else pin.level


@mutant
class LatchIsNotShown(Device):
    def raw_bit(self, i):
        return self.pins[i].level


@mutant
class InputStatusIsLatchFree(Device):
    def input_status_bit(self, i):
        return self.pins[i].level != self.inverted(i) if self.is_input(i) else self.input_bit(i)


@mutant
class InputStatusIgnoresPolarity(Device):
    def input_status_bit(self, i):
        return self.raw_bit(i) if self.is_input(i) else self.input_bit(i)


# Pending and status.

@mutant
class UnlatchedUsesHeld(Device):
    def pending(self, i):
        return self.pins[i].edge if self.field(i) else self.pins[i].held


@mutant
class LatchedUsesDifference(Device):
    def pending(self, i):
        pin = self.pins[i]
        return pin.edge if self.field(i) else pin.level != pin.reference


@mutant
class EdgeCountsWithoutField(Device):
    def pending(self, i):
        return super().pending(i) or self.pins[i].edge


@mutant
class HeldCountsWithField(Device):
    def pending(self, i):
        return super().pending(i) or (self.latched(i) and self.pins[i].held)


@mutant
class DifferenceCountsWithField(Device):
    def pending(self, i):
        pin = self.pins[i]
        return super().pending(i) or (not self.latched(i) and pin.level != pin.reference)


@mutant
class PolarityRings(Device):
    def pending(self, i):
        if self.field(i) or self.latched(i):
            return super().pending(i)
        return self.input_bit(i) != self.pins[i].reference


@mutant
class StatusIgnoresMask(Device):
    def status_bit(self, i):
        return self.is_input(i) and self.pending(i)


@mutant
class StatusOnOutputs(Device):
    def status_bit(self, i):
        return not self.masked(i) and self.pending(i)


@mutant
class IntOfFirstPort(Device):
    def line_by(self, status):
        return super().line_by(status[:8])


@mutant
class IntOfAllButLastPin(Device):
    def line_by(self, status):
        return super().line_by(status[:-1])


@mutant
class IntNeedsTwoPins(Device):
    def line_by(self, status):
        return ASSERTED if sum(status) > 1 else QUIET


# What is kept.

def stale_mutants(name, stale):
    """After one operation the status bits are left as they were, the line being right; or the line alone is."""
    def keep_status(self, operation, i):
        if operation != stale:
            Device.keep_status(self, operation, i)

    def keep_right_line(self, operation):
        self.line = self.line_by(self.status_bits() if operation == stale else self.status)

    def keep_line(self, operation):
        if operation != stale:
            Device.keep_line(self, operation)

    mutant(type('StatusStaleAfter' + name, (Device,), {'keep_status': keep_status, 'keep_line': keep_right_line}))
    mutant(type('LineStaleAfter' + name, (Device,), {'keep_line': keep_line}))


for stale_name, stale_operation in (
        ('Clear', 'interrupt clear'), ('Mask', 'interrupt mask'), ('Edge', 'interrupt edge'), ('Latch', 'input latch'),
        ('Configuration', 'configuration'), ('Levels', 'levels'), ('Fetch', 'fetch'), ('Reset', 'reset')):
    stale_mutants(stale_name, stale_operation)


@mutant
class LineUpsideDown(Device):
    def line_by(self, status):
        return QUIET if any(status) else ASSERTED


@mutant
class LineKeptAsAsserted(Device):
    """INT is told right, but in an image 1 is asserted."""

    def __init__(self, which, image):
        super().__init__(which, image._replace(line=1 - image.line))

    def image(self):
        return super().image()._replace(line=1 - self.line)


@mutant
class StatusOfOutputKept(Device):
    def keep_status(self, operation, i):
        if self.is_input(i):
            super().keep_status(operation, i)


@mutant
class StatusKeptWithoutMask(Device):
    def keep_status(self, operation, i):
        self.status[i] = self.is_input(i) and self.pending(i)


@mutant
class StatusBitsOnlySet(Device):
    def keep_status(self, operation, i):
        self.status[i] = self.status[i] or self.status_bit(i)


@mutant
class LineOfTouchedPinsOnly(Device):
    def keep(self, operation, pins):
        super().keep(operation, pins)
        if pins:
            self.line = self.line_by([self.status[i] for i in pins])


@mutant
class LineOnlyAsserts(Device):
    def keep_line(self, operation):
        if any(self.status) or operation == 'reset':
            super().keep_line(operation)


@mutant
class StatusUnjudged(Device):
    def status_broken(self, status):
        return False


@mutant
class LineUnjudged(Device):
    def line_broken(self, line):
        return False


@mutant
class StatusAndLineUnjudged(Device):
    def status_broken(self, status):
        return False

    def line_broken(self, line):
        return False


@mutant
class StatusJudgedWithoutMask(Device):
    def status_broken(self, status):
        return status != pin_set(self.is_input(i) and self.pending(i) for i in range(self.part.pins))


@mutant
class LineJudgedByKeptStatus(Device):
    """The two fit each other, and the status is not judged."""

    def status_broken(self, status):
        return False

    def line_broken(self, line):
        return line != self.line_by(self.status)


@mutant
class StatusJudgedAsSomeOrNone(Device):
    def status_broken(self, status):
        return (status != 0) != any(self.status_bits())


@mutant
class MissingStatusBitPasses(Device):
    def status_broken(self, status):
        return status & ~pin_set(self.status_bits()) != 0


@mutant
class ExtraStatusBitPasses(Device):
    def status_broken(self, status):
        return pin_set(self.status_bits()) & ~status != 0


@mutant
class StatusPastThePinsPasses(Device):
    def status_broken(self, status):
        return super().status_broken(status % self.part.limit)


@mutant
class LineJudgedByLowestBit(Device):
    def line_broken(self, line):
        return super().line_broken(line & 1)


# Levels.

@mutant
class HeldComparesOldLevel(Device):
    def level_sets_held(self, i, new):
        return new != self.pins[i].level and self.is_input(i) and self.latched(i)


@mutant
class HeldOnOutputs(Device):
    def level_sets_held(self, i, new):
        return new != self.pins[i].reference and self.latched(i)


@mutant
class HeldWithoutLatch(Device):
    def level_sets_held(self, i, new):
        return new != self.pins[i].reference and self.is_input(i)


@mutant
class HeldNotWhileMasked(Device):
    def level_sets_held(self, i, new):
        return super().level_sets_held(i, new) and not self.masked(i)


@mutant
class HeldNotWithField(Device):
    def level_sets_held(self, i, new):
        return super().level_sets_held(i, new) and self.field(i) == 0


@mutant
class HeldGoesOnReturn(Device):
    def take_level(self, i, new):
        super().take_level(i, new)
        if new == self.pins[i].reference:
            self.pins[i].held = False


@mutant
class EdgeGoesOnReturn(Device):
    def take_level(self, i, new):
        super().take_level(i, new)
        if new == self.pins[i].reference:
            self.pins[i].edge = False


@mutant
class HeldOnlyOnChange(Device):
    def level_sets_held(self, i, new):
        return super().level_sets_held(i, new) and new != self.pins[i].level


@mutant
class EdgeWhileMasked(Device):
    def level_sets_edge(self, i, new):
        return self.change_matches(self.field(i), self.pins[i].level, new) and self.is_input(i)


@mutant
class EdgeOnOutputs(Device):
    def level_sets_edge(self, i, new):
        return self.change_matches(self.field(i), self.pins[i].level, new) and not self.masked(i)


@mutant
class EdgeAgainstReference(Device):
    def level_sets_edge(self, i, new):
        return (self.change_matches(self.field(i), self.pins[i].reference, new)
                and self.is_input(i) and not self.masked(i))


@mutant
class EdgeOnlyWithoutLatch(Device):
    def level_sets_edge(self, i, new):
        return super().level_sets_edge(i, new) and not self.latched(i)


@mutant
class RisingAndFallingSwapped(Device):
    def change_matches(self, field, old, new):
        return super().change_matches(field, new, old)


@mutant
class EitherIsNone(Device):
    def change_matches(self, field, old, new):
        return field != 3 and super().change_matches(field, old, new)


@mutant
class RisingIsEither(Device):
    def change_matches(self, field, old, new):
        return super().change_matches(3 if field == 1 else field, old, new)


@mutant
class FallingIsEither(Device):
    def change_matches(self, field, old, new):
        return super().change_matches(3 if field == 2 else field, old, new)


@mutant
class FieldIsALevel(Device):
    def change_matches(self, field, old, new):
        return field in (1, 3) if new else field in (2, 3)


@mutant
class NoFieldMarksChange(Device):
    def change_matches(self, field, old, new):
        return super().change_matches(field or 3, old, new)


@mutant
class FieldsFromTheTop(Device):
    def field(self, i):
        return self.registers[self.part.edge + i // 4] >> 6 - 2 * (i % 4) & 3


@mutant
class OutputsKeepTheirLevel(Device):
    def take_level(self, i, new):
        if self.is_input(i):
            super().take_level(i, new)


@mutant
class MaskedKeepTheirLevel(Device):
    def take_level(self, i, new):
        if not self.masked(i):
            super().take_level(i, new)


@mutant
class OutputReferenceFollows(Device):
    def take_level(self, i, new):
        super().take_level(i, new)
        if not self.is_input(i):
            self.pins[i].reference = new


# Settling.

@mutant
class SettleTakesPolarity(Device):
    def settle(self, i):
        super().settle(i)
        self.pins[i].reference = self.pins[i].level != self.inverted(i)


@mutant
class SettleKeepsReference(Device):
    def settle(self, i):
        self.pins[i].edge = self.pins[i].held = False


@mutant
class SettleKeepsEdge(Device):
    def settle(self, i):
        self.pins[i].held = False
        self.pins[i].reference = self.pins[i].level


@mutant
class SettleKeepsHeld(Device):
    def settle(self, i):
        self.pins[i].edge = False
        self.pins[i].reference = self.pins[i].level


@mutant
class SettleOnlyInputs(Device):
    def settle(self, i):
        if self.is_input(i):
            super().settle(i)


@mutant
class SettleOnlyUnmasked(Device):
    def settle(self, i):
        if not self.masked(i):
            super().settle(i)


@mutant
class InputStatusSettles(Device):
    def settled_by_fetch(self, number, acknowledged):
        return self.pins_of(number) if self.map[number].name in ('input port', 'input status') else ()


@mutant
class StatusSettles(Device):
    def settled_by_fetch(self, number, acknowledged):
        return self.pins_of(number) if self.map[number].name in ('input port', 'interrupt status') else ()


@mutant
class FetchSettlesAll(Device):
    def settled_by_fetch(self, number, acknowledged):
        return range(self.part.pins) if self.map[number].name == 'input port' else ()


@mutant
class FetchSettlesNone(Device):
    def settled_by_fetch(self, number, acknowledged):
        return ()


@mutant
class FetchSettlesAcknowledged(Device):
    def settled_by_fetch(self, number, acknowledged):
        return super().settled_by_fetch(number, acknowledged) if acknowledged else ()


@mutant
class FetchSettlesUnacknowledged(Device):
    def settled_by_fetch(self, number, acknowledged):
        return () if acknowledged else super().settled_by_fetch(number, acknowledged)


@mutant
class FetchSettlesFirst(Device):
    def byte_at(self, number):
        for i in self.settled_by_fetch(number, True):
            self.settle(i)
        return super().byte_at(number)


@mutant
class FetchSettlesInputsOnly(Device):
    def settled_by_fetch(self, number, acknowledged):
        return [i for i in super().settled_by_fetch(number, acknowledged) if self.is_input(i)]


@mutant
class FetchSettlesPending(Device):
    def settled_by_fetch(self, number, acknowledged):
        return [i for i in super().settled_by_fetch(number, acknowledged) if self.status_bit(i)]


# Writes that move marks.

@mutant
class ClearBitClearsPort(Device):
    def clear_written(self, i, new):
        if new:
            for other in range(i - i % 8, min(i - i % 8 + 8, self.part.pins)):
                self.settle(other)


@mutant
class ClearBitClearsNothing(Device):
    def clear_written(self, i, new):
        pass


@mutant
class ClearBitClearsEdgeOnly(Device):
    def clear_written(self, i, new):
        if new:
            self.pins[i].edge = False


@mutant
class ClearBitKeepsReference(Device):
    def clear_written(self, i, new):
        if new:
            self.pins[i].edge = self.pins[i].held = False


@mutant
class ClearBitOfEdgeSourceOnly(Device):
    def clear_written(self, i, new):
        if new and self.field(i):
            self.settle(i)


@mutant
class ClearBitOfLevelSourceOnly(Device):
    def clear_written(self, i, new):
        if new and not self.field(i):
            self.settle(i)


@mutant
class ClearZeroSettles(Device):
    def clear_written(self, i, new):
        if not new:
            self.settle(i)


@mutant
class ClearBitInputsOnly(Device):
    def clear_written(self, i, new):
        if new and self.is_input(i):
            self.settle(i)


@mutant
class MaskKeepsEdge(Device):
    def mask_written(self, i, new):
        pass


@mutant
class MaskClearsHeld(Device):
    def mask_written(self, i, new):
        if new:
            self.pins[i].edge = self.pins[i].held = False


@mutant
class MaskSettles(Device):
    def mask_written(self, i, new):
        if new:
            self.settle(i)


@mutant
class UnmaskClearsEdge(Device):
    def mask_written(self, i, new):
        self.pins[i].edge = False


@mutant
class UnmaskSettles(Device):
    def mask_written(self, i, new):
        super().mask_written(i, new)
        if not new and self.masked(i):
            self.settle(i)


@mutant
class FieldNoneKeepsEdge(Device):
    def field_written(self, i, new):
        pass


@mutant
class FieldAnyClearsEdge(Device):
    def field_written(self, i, new):
        self.pins[i].edge = False


@mutant
class FieldChangeClearsEdge(Device):
    def field_written(self, i, new):
        if new == 0 or new != self.field(i):
            self.pins[i].edge = False


@mutant
class FieldNoneSettles(Device):
    def field_written(self, i, new):
        if new == 0:
            self.settle(i)


@mutant
class FieldNoneClearsHeld(Device):
    def field_written(self, i, new):
        if new == 0:
            self.pins[i].edge = self.pins[i].held = False


@mutant
class LatchOffKeepsHeld(Device):
    def latch_written(self, i, old, new):
        if new:
            super().latch_written(i, old, new)


@mutant
class LatchOffSettles(Device):
    def latch_written(self, i, old, new):
        if new:
            super().latch_written(i, old, new)
        elif old:
            self.settle(i)


@mutant
class LatchOffOnlyFromOne(Device):
    def latch_written(self, i, old, new):
        if old or new:
            super().latch_written(i, old, new)


@mutant
class LatchOnForgetsPending(Device):
    def latch_written(self, i, old, new):
        if not (old and new):
            self.pins[i].held = False


@mutant
class LatchOnKeepsHeld(Device):
    def latch_written(self, i, old, new):
        if not new:
            self.pins[i].held = False


@mutant
class LatchOnOrsHeld(Device):
    def latch_written(self, i, old, new):
        held = self.pins[i].held
        super().latch_written(i, old, new)
        if new and not old:
            self.pins[i].held = self.pins[i].held or held


@mutant
class LatchOnHoldsOutputs(Device):
    def latch_written(self, i, old, new):
        super().latch_written(i, old, new)
        if new and not old:
            self.pins[i].held = self.pins[i].level != self.pins[i].reference


@mutant
class LatchOnKeepsOutputsHeld(Device):
    def latch_written(self, i, old, new):
        if not new or self.is_input(i):
            super().latch_written(i, old, new)


@mutant
class LatchAgainRecomputes(Device):
    def latch_written(self, i, old, new):
        super().latch_written(i, 0, new)


@mutant
class LatchOnOnlyUnmasked(Device):
    def latch_written(self, i, old, new):
        super().latch_written(i, old, new)
        if new and not old and self.masked(i):
            self.pins[i].held = False


@mutant
class OutputKeepsHeld(Device):
    def configuration_written(self, i, old, new):
        held = self.pins[i].held
        super().configuration_written(i, old, new)
        if not new:
            self.pins[i].held = held


@mutant
class OutputKeepsEdge(Device):
    def configuration_written(self, i, old, new):
        edge = self.pins[i].edge
        super().configuration_written(i, old, new)
        if not new:
            self.pins[i].edge = edge


@mutant
class OutputClearsOnlyOnce(Device):
    def configuration_written(self, i, old, new):
        if old or new:
            super().configuration_written(i, old, new)


@mutant
class OutputSettles(Device):
    def configuration_written(self, i, old, new):
        super().configuration_written(i, old, new)
        if not new:
            self.settle(i)


class Turned(Device):
    """What its mutants do beside the rule to a pin that turns from output to input."""

    def configuration_written(self, i, old, new):
        before = Pin(*(getattr(self.pins[i], name) for name in Pin.__slots__))
        super().configuration_written(i, old, new)
        if new and not old:
            self.turned(i, before, self.pins[i])


@mutant
class TurnSettles(Turned):
    def turned(self, i, before, pin):
        self.settle(i)


@mutant
class TurnSettlesMasked(Turned):
    def turned(self, i, before, pin):
        if self.masked(i):
            self.settle(i)


@mutant
class TurnTakesReference(Turned):
    def turned(self, i, before, pin):
        pin.reference = pin.level


@mutant
class TurnTakesOutputBit(Turned):
    def turned(self, i, before, pin):
        pin.reference = self.bit(self.part.output, i)


@mutant
class TurnHoldsNothing(Turned):
    def turned(self, i, before, pin):
        pin.held = False


@mutant
class TurnKeepsHeld(Turned):
    def turned(self, i, before, pin):
        pin.held = before.held


@mutant
class TurnOrsHeld(Turned):
    def turned(self, i, before, pin):
        pin.held = pin.held or before.held


@mutant
class TurnHoldsWithoutLatch(Turned):
    def turned(self, i, before, pin):
        pin.held = pin.level != pin.reference


@mutant
class TurnHoldsWithoutDifference(Turned):
    def turned(self, i, before, pin):
        pin.held = self.latched(i)


@mutant
class TurnHoldsOnlyUnmasked(Turned):
    def turned(self, i, before, pin):
        pin.held = pin.held and not self.masked(i)


@mutant
class TurnHoldsNotWithField(Turned):
    def turned(self, i, before, pin):
        pin.held = pin.held and self.field(i) == 0


@mutant
class TurnKeepsEdge(Turned):
    def turned(self, i, before, pin):
        pin.edge = before.edge


@mutant
class TurnMarksEdge(Turned):
    def turned(self, i, before, pin):
        pin.edge = not self.masked(i) and self.change_matches(self.field(i), pin.reference, pin.level)


@mutant
class InputAgainSettles(Device):
    def configuration_written(self, i, old, new):
        super().configuration_written(i, old, new)
        if old and new:
            self.settle(i)


@mutant
class InputAgainHoldsAnew(Device):
    def configuration_written(self, i, old, new):
        super().configuration_written(i, old, new)
        if old and new:
            self.pins[i].held = self.latched(i) and self.pins[i].level != self.pins[i].reference


@mutant
class InputAgainForgetsEdge(Device):
    def configuration_written(self, i, old, new):
        super().configuration_written(i, old, new)
        if old and new:
            self.pins[i].edge = False


# Resets.

@mutant
class ResetForgetsReference(Device):
    def reset_pin(self, i):
        super().reset_pin(i)
        self.pins[i].reference = False


@mutant
class ResetKeepsReference(Device):
    def reset_pin(self, i):
        self.pins[i].held = self.pins[i].edge = False


@mutant
class ResetKeepsHeld(Device):
    def reset_pin(self, i):
        held = self.pins[i].held
        super().reset_pin(i)
        self.pins[i].held = held


@mutant
class ResetKeepsEdge(Device):
    def reset_pin(self, i):
        edge = self.pins[i].edge
        super().reset_pin(i)
        self.pins[i].edge = edge


@mutant
class ResetClearsLevels(Device):
    def reset_pin(self, i):
        super().reset_pin(i)
        self.pins[i].level = self.pins[i].reference = False


@mutant
class ResetKeepsPointer(Device):
    def reset_pointer(self):
        return self.pointer


@mutant
class ResetKeepsBus(Device):
    def reset_bus(self):
        return self.bus


@mutant
class ResetDeafens(Device):
    def reset_bus(self):
        return DEAF


@mutant
class ResetKeepsStrength(Device):
    def reset_registers(self):
        defaults, group = super().reset_registers(), self.part.named['drive strength']
        return defaults[:group.first] + self.registers[group.first:group.last + 1] + defaults[group.last + 1:]


@mutant
class ResetForgetsAddress(Device):
    def reset_bus(self):
        self.choice = 0
        return IDLE


# The bus.

@mutant
class CallResetsAtOnce(Device):
    def call_byte(self, value):
        answer = super().call_byte(value)
        if value == 0x06:
            self.reset()
            self.bus = DEAF
        return answer


@mutant
class CallResetsOnStart(Device):
    def start(self):
        if self.bus == ARMED:
            self.reset()
        super().start()


@mutant
class CallNeverResets(Device):
    def stop(self):
        self.bus = IDLE


@mutant
class ArmedIsNotSpoiled(Device):
    def armed_byte(self, value):
        return 'nak'


@mutant
class ArmedTakesBytes(Device):
    def armed_byte(self, value):
        self.bus = DEAF
        return 'ack'


@mutant
class ArmedAgainBySix(Device):
    def armed_byte(self, value):
        return self.call_byte(value)


@mutant
class CallTakesAnyByte(Device):
    def call_byte(self, value):
        super().call_byte(value)
        return 'ack'


@mutant
class CallArmsByAny(Device):
    def call_byte(self, value):
        self.bus = ARMED
        return 'ack'


@mutant
class CallFailureKeepsState(Device):
    def call_byte(self, value):
        if value != 0x06:
            return 'nak'
        return super().call_byte(value)


@mutant
class CallNotAcknowledged(Device):
    def opened_byte(self, value):
        if value == 0x00:
            self.bus = DEAF
            return 'nak'
        return super().opened_byte(value)


@mutant
class CallReadIsACall(Device):
    def opened_byte(self, value):
        if value == 0x01:
            self.bus = CALL
            return 'ack'
        return super().opened_byte(value)


@mutant
class StopFromAnyCallResets(Device):
    def stop(self):
        if self.bus in (CALL, ARMED):
            self.reset()
        self.bus = IDLE


@mutant
class FetchDisarms(Device):
    def stray_fetch(self):
        if self.bus == ARMED:
            self.bus = DEAF
        return 0xFF


@mutant
class LevelsDisarm(Device):
    def levels(self, new):
        super().levels(new)
        if self.bus == ARMED:
            self.bus = DEAF


@mutant
class StartResetsPointer(Device):
    def start(self):
        super().start()
        self.pointer = 0


@mutant
class StartOnlyFromIdle(Device):
    def start(self):
        if self.bus == IDLE:
            super().start()


@mutant
class StartNotFromIdle(Device):
    def start(self):
        if self.bus != IDLE:
            super().start()


@mutant
class StartNotFromDeaf(Device):
    def start(self):
        if self.bus != DEAF:
            super().start()


@mutant
class StartNotFromFilling(Device):
    def start(self):
        if self.bus != FILLING:
            super().start()


@mutant
class StopResetsPointer(Device):
    def stop(self):
        super().stop()
        self.pointer = 0


@mutant
class StopKeepsFilling(Device):
    def stop(self):
        if self.bus != FILLING:
            super().stop()


@mutant
class AddressCountsDown(Device):
    def address(self):
        return 0x23 - self.choice


@mutant
class AddressWithoutChoice(Device):
    def address(self):
        return 0x20


@mutant
class OtherAddressKeepsOpened(Device):
    def opened_byte(self, value):
        answer = super().opened_byte(value)
        if answer == 'nak':
            self.bus = OPENED
        return answer


@mutant
class ReadAddressWrites(Device):
    def opened_byte(self, value):
        return super().opened_byte(value & 0xFE)


@mutant
class ReservedMovesPointer(Device):
    def chosen_byte(self, value):
        answer = super().chosen_byte(value)
        if answer == 'nak' and self.map[value & 0x7C]:
            self.pointer = value & 0x7C
        return answer


@mutant
class ReservedAcknowledged(Device):
    def chosen_byte(self, value):
        super().chosen_byte(value)
        return 'ack'


@mutant
class ReservedKeepsChosen(Device):
    def chosen_byte(self, value):
        answer = super().chosen_byte(value)
        if answer == 'nak':
            self.bus = CHOSEN
        return answer


@mutant
class PointerLeavesGroup(Device):
    def next_in_group(self, number):
        return self.next_over_map(number)


@mutant
class PointerStays(Device):
    def next_number(self, number):
        return number


@mutant
class PointerStopsAtLast(Device):
    def next_in_group(self, number):
        return min(number + 1, self.map[number].last)


@mutant
class GroupOfOneSteps(Device):
    def next_in_group(self, number):
        group = self.map[number]
        return self.part.edge if group.name == 'output port kind' else super().next_in_group(number)


@mutant
class WriteDoesNotStep(Device):
    def filling_byte(self, value):
        pointer = self.pointer
        answer = super().filling_byte(value)
        self.pointer = pointer
        return answer


@mutant
class WriteObeysFirstByteOnly(Device):
    def filling_byte(self, value):
        answer = super().filling_byte(value)
        self.bus = DEAF
        return answer


@mutant
class WritesNotAcknowledged(Device):
    def filling_byte(self, value):
        super().filling_byte(value)
        return 'nak'


@mutant
class ReadOnlyNotAcknowledged(Device):
    def filling_byte(self, value):
        name = self.map[self.pointer].name
        super().filling_byte(value)
        return 'nak' if name in ('input port', 'interrupt status', 'input status') else 'ack'


@mutant
class ReadOnlyDoesNotStep(Device):
    def next_number(self, number):
        if self.bus == FILLING and self.map[number].name in ('input port', 'interrupt status', 'input status'):
            return number
        return super().next_number(number)


@mutant
class LastFetchSteps(Device):
    def after_fetch(self, acknowledged):
        super().after_fetch(acknowledged)
        if not acknowledged:
            self.pointer = self.next_number(self.pointer)


@mutant
class LastFetchKeepsSending(Device):
    def after_fetch(self, acknowledged):
        super().after_fetch(acknowledged)
        self.bus = SENDING


@mutant
class LastFetchGoesIdle(Device):
    def after_fetch(self, acknowledged):
        super().after_fetch(acknowledged)
        if not acknowledged:
            self.bus = IDLE


@mutant
class FetchDoesNotStep(Device):
    def after_fetch(self, acknowledged):
        if not acknowledged:
            self.bus = DEAF


@mutant
class StrayFetchGivesNull(Device):
    def stray_fetch(self):
        return 0x00


@mutant
class StrayFetchGivesRegister(Device):
    def stray_fetch(self):
        return self.byte_at(self.pointer)


@mutant
class StrayFetchDeafens(Device):
    def stray_fetch(self):
        self.bus = DEAF
        return 0xFF


@mutant
class SendingTakesBytes(Device):
    def sending_byte(self, value):
        return self.filling_byte(value)


@mutant
class SendingGoesOnAfterByte(Device):
    def sending_byte(self, value):
        return 'nak'


@mutant
class IdleHearsItsAddress(Device):
    def unheard_byte(self, value):
        return self.opened_byte(value) if self.bus == IDLE else 'nak'


@mutant
class IdleByteDeafens(Device):
    def unheard_byte(self, value):
        self.bus = DEAF
        return 'nak'


@mutant
class UnheardAcknowledged(Device):
    def unheard_byte(self, value):
        return 'ack'


# Steps over the whole map, and the mode that says so.

@mutant
class TopBitOfCommandDropped(Device):
    """Any command that names a register is taken, but none steps over the map."""

    def command_mode(self, value):
        return IN_GROUP


@mutant
class TopBitOfCommandRefused(Device):
    """A command above 7Fh is no register's."""

    def command(self, value):
        return None if value > 0x7F else super().command(value)


@mutant
class ModeUpsideDown(Device):
    def command_mode(self, value):
        return 1 - super().command_mode(value)


@mutant
class ModeOnlySet(Device):
    """Once a command has set it, only a reset clears it."""

    def command_mode(self, value):
        return self.mode | super().command_mode(value)


@mutant
class ModeAlwaysSet(Device):
    def command_mode(self, value):
        return OVER_MAP


def refused_mode(name, mode):
    """A mutant in which a command that is not acknowledged leaves the pointer alone, but not the mode."""
    def chosen_byte(self, value):
        answer = Device.chosen_byte(self, value)
        if answer == 'nak':
            self.mode = mode(value)
        return answer
    mutant(type(name, (Device,), {'chosen_byte': chosen_byte}))


refused_mode('ModeOfRefusedCommandTaken', lambda value: value >> 7)
refused_mode('ModeClearedByRefusedCommand', lambda value: IN_GROUP)


@mutant
class ReservedAboveTakenAsNext(Device):
    """With bit 7, a reserved number stands for the next that is not."""

    def command(self, value):
        number = super().command(value)
        return self.next_over_map(value & 0x7F) if number is None and value > 0x7F else number


@mutant
class ModeClearedByStart(Device):
    def start(self):
        super().start()
        self.mode = IN_GROUP


@mutant
class ModeClearedByStop(Device):
    def stop(self):
        super().stop()
        self.mode = IN_GROUP


@mutant
class ModeClearedByReadAddress(Device):
    """A read steps in the group, whatever the command before it said."""

    def opened_byte(self, value):
        answer = super().opened_byte(value)
        if self.bus == SENDING:
            self.mode = IN_GROUP
        return answer


@mutant
class ModeClearedByLastFetch(Device):
    def after_fetch(self, acknowledged):
        super().after_fetch(acknowledged)
        if not acknowledged:
            self.mode = IN_GROUP


@mutant
class ModeClearedByLevels(Device):
    def levels(self, new):
        super().levels(new)
        self.mode = IN_GROUP


@mutant
class ModeClearedAtTop(Device):
    """A walk that comes to 00h again goes on in its group."""

    def next_over_map(self, number):
        following = super().next_over_map(number)
        if following == 0x00:
            self.mode = IN_GROUP
        return following


@mutant
class HardwareResetKeepsMode(Device):
    def step(self, kind, arg):
        mode = self.mode
        answer = super().step(kind, arg)
        if kind == RESET:
            self.mode = mode
        return answer


@mutant
class SoftwareResetKeepsMode(Device):
    def stop(self):
        mode = self.mode
        super().stop()
        self.mode = mode


@mutant
class ResetKeepsMode(Device):
    def reset_mode(self):
        return self.mode


@mutant
class ResetSetsMode(Device):
    """At power-on too."""

    def reset_mode(self):
        return OVER_MAP


@mutant
class PowerOnSetsMode(Device):
    @classmethod
    def make(cls, which, choice, levels, number=0):
        made = super().make(which, choice, levels, number)
        return made if isinstance(made, tuple) else cls(which, made.image()._replace(mode=OVER_MAP))


@mutant
class ReservedNotSkipped(Device):
    """Every number up to 7Fh is passed; a reserved one takes a byte and shows 00h."""

    def next_over_map(self, number):
        return (number + 1) % 128

    def next_number(self, number):
        return super().next_number(number) if self.map[number] or self.mode == OVER_MAP else 0x00

    def write(self, number, value):
        if self.map[number]:
            super().write(number, value)

    def byte_at(self, number):
        return super().byte_at(number) if self.map[number] else 0x00

    def settled_by_fetch(self, number, acknowledged):
        return super().settled_by_fetch(number, acknowledged) if self.map[number] else ()


@mutant
class WalkStaysInGroupOfOne(Device):
    def next_over_map(self, number):
        group = self.map[number]
        return number if group.first == group.last else super().next_over_map(number)


@mutant
class WalkOfGroupFirsts(Device):
    """From the last of a group to the next group but one."""

    def next_over_map(self, number):
        following = super().next_over_map(number)
        group = self.map[number]
        return super().next_over_map(self.map[following].last) if number == group.last and following else following


@mutant
class WalkStopsAtTop(Device):
    def next_over_map(self, number):
        return super().next_over_map(number) or number


@mutant
class TopGoesToItsGroup(Device):
    def next_over_map(self, number):
        return super().next_over_map(number) or self.map[number].first


@mutant
class TopGoesToOutputs(Device):
    """Past the registers that take no write."""

    def next_over_map(self, number):
        return super().next_over_map(number) or self.part.output


def walk_without(name, left_out):
    """A mutant whose walk leaves some groups out, as those are that it cannot write or read."""
    def next_over_map(self, number):
        for _ in range(128):
            number = Device.next_over_map(self, number)
            if self.map[number].name not in left_out:
                break
        return number
    mutant(type(name, (Device,), {'next_over_map': next_over_map}))


walk_without('WalkSkipsReadOnly', ('input port', 'interrupt status', 'input status'))
walk_without('WalkSkipsClear', ('interrupt clear',))
walk_without('WalkSkipsPortKind', ('output port kind',))


@mutant
class WalkUpwardsOnlyToHalf(Device):
    """The walk ends with the registers of the lower half."""

    def next_over_map(self, number):
        following = super().next_over_map(number)
        return 0x00 if number < 0x20 <= following else following


@mutant_on(34)
class WalkOf24(Device):
    def next_over_map(self, number):
        following = super().next_over_map(number)
        while following and PARTS[24].map[following] is None:
            following = super().next_over_map(following)
        return following


@mutant
class ReadWalksInGroup(Device):
    def after_fetch(self, acknowledged):
        before = self.pointer
        super().after_fetch(acknowledged)
        if acknowledged:
            self.pointer = self.next_in_group(before)


@mutant
class WriteWalksInGroup(Device):
    def filling_byte(self, value):
        before = self.pointer
        answer = super().filling_byte(value)
        self.pointer = self.next_in_group(before)
        return answer


@mutant
class LastFetchOfWalkSteps(Device):
    def after_fetch(self, acknowledged):
        super().after_fetch(acknowledged)
        if not acknowledged and self.mode == OVER_MAP:
            self.pointer = self.next_number(self.pointer)


@mutant
class WalkSettlesNothing(Device):
    def settled_by_fetch(self, number, acknowledged):
        return () if self.mode == OVER_MAP else super().settled_by_fetch(number, acknowledged)


@mutant
class WalkSettlesAllPorts(Device):
    """A fetch of an input port settles every pin if it steps over the map."""

    def settled_by_fetch(self, number, acknowledged):
        settled = super().settled_by_fetch(number, acknowledged)
        return range(self.part.pins) if settled and self.mode == OVER_MAP else settled


@mutant
class WalkClearsNothing(Device):
    def clear_written(self, i, new):
        if self.mode == IN_GROUP:
            super().clear_written(i, new)


@mutant
class WalkWritesOnlyFirst(Device):
    """After the first data byte of a walk the others are acknowledged and dropped."""

    begun = False

    def chosen_byte(self, value):
        self.begun = False
        return super().chosen_byte(value)

    def write(self, number, value):
        if not (self.begun and self.mode == OVER_MAP):
            super().write(number, value)
        self.begun = True


@mutant
class ModeSetByData(Device):
    """Bit 7 of a data byte is taken for a command's."""

    def filling_byte(self, value):
        answer = super().filling_byte(value)
        self.mode |= value >> 7
        return answer


@mutant
class ModeTwoPasses(Device):
    def mode_broken(self, mode):
        return mode > 2


@mutant
class ModeUnjudged(Device):
    def mode_broken(self, mode):
        return False


@mutant
class ModeOneFails(Device):
    def mode_broken(self, mode):
        return mode > 0


@mutant
class ModeJudgedByTopBit(Device):
    """As a command byte has it."""

    def mode_broken(self, mode):
        return mode & 0x7F > 1


@mutant
class ModeNotTold(Device):
    """In an image it is always 0."""

    def image(self):
        return super().image()._replace(mode=IN_GROUP)


@mutant
class ModeNotTaken(Device):
    """An image's mode is judged and dropped."""

    def __init__(self, which, image):
        super().__init__(which, image)
        if not self.broken:
            self.mode = IN_GROUP


# The Device ID: who is asked for the number, when it is told, and what stays as it was.

@mutant
class AskIsAnotherAddress(Device):
    def opened_byte(self, value):
        return super().opened_byte(TELL if value == ASK else value)


@mutant
class AskOnlyAcknowledged(Device):
    """Nobody answers what comes after it."""

    def opened_byte(self, value):
        answer = super().opened_byte(value)
        if self.bus == ASKING:
            self.bus = DEAF
        return answer


@mutant
class AskNotKnownAgain(Device):
    """After the repeated START F8h is another address."""

    def reopened_byte(self, value):
        if value == ASK:
            self.bus = DEAF
            return 'nak'
        return super().reopened_byte(value)


@mutant
class AskedAgainStaysNamed(Device):
    """F8h after the repeated START needs no name again."""

    def reopened_byte(self, value):
        answer = super().reopened_byte(value)
        if value == ASK:
            self.bus = NAMED
        return answer


@mutant
class AskedAgainStaysReopened(Device):
    def reopened_byte(self, value):
        answer = super().reopened_byte(value)
        if value == ASK:
            self.bus = REOPENED
        return answer


@mutant
class TellTakenForAsk(Device):
    """The lowest bit of the first byte is ignored."""

    def opened_byte(self, value):
        return super().opened_byte(ASK if value == TELL else value)


@mutant
class AskTakenForTell(Device):
    """The lowest bit of the byte after the repeated START is ignored."""

    def reopened_byte(self, value):
        return super().reopened_byte(TELL if value == ASK else value)


@mutant
class ToldWithoutAsking(Device):
    """F9h is acknowledged after any START."""

    def opened_byte(self, value):
        return self.reopened_byte(value) if value == TELL else super().opened_byte(value)


@mutant
class ToldWithoutName(Device):
    """F9h is acknowledged right after F8h."""

    def asking_byte(self, value):
        return self.reopened_byte(value) if value == TELL else super().asking_byte(value)


@mutant
class ToldWithoutRepeatedStart(Device):
    """F9h is acknowledged right after the name."""

    def named_byte(self, value):
        return self.reopened_byte(value) if value == TELL else super().named_byte(value)


@mutant
class NeverTold(Device):
    def reopened_byte(self, value):
        return self.opened_byte(value)


@mutant
class TellNotAcknowledged(Device):
    """But what is fetched after it is the number."""

    def reopened_byte(self, value):
        answer = super().reopened_byte(value)
        return 'nak' if value == TELL else answer


@mutant
class TellSendsRegisters(Device):
    def reopened_byte(self, value):
        answer = super().reopened_byte(value)
        if value == TELL:
            self.bus = SENDING
        return answer


def name_mutant(name, is_own):
    """A mutant that takes other bytes for its name."""
    def asking_byte(self, value):
        own = 2 * self.address() if is_own(self, value) else 0xFF
        return Device.asking_byte(self, own)
    mutant(type(name, (Device,), {'asking_byte': asking_byte}))


name_mutant('NamedToWriteOnly', lambda device, value: value == 2 * device.address())
name_mutant('NamedToReadOnly', lambda device, value: value == 2 * device.address() + 1)
name_mutant('NamedByAnyByte', lambda device, value: True)
name_mutant('NamedByAnyChoice', lambda device, value: 0x20 <= value >> 1 <= 0x23)
name_mutant('NamedByFirstChoice', lambda device, value: value >> 1 == 0x20)
name_mutant('NamedByCall', lambda device, value: value == 0x00 or value >> 1 == device.address())
name_mutant('NamedByTell', lambda device, value: value == TELL or value >> 1 == device.address())


@mutant
class NameIsAnAddress(Device):
    """After F8h a byte is what it is after START."""

    def asking_byte(self, value):
        return self.opened_byte(value)


@mutant
class NameNotAcknowledged(Device):
    def asking_byte(self, value):
        super().asking_byte(value)
        return 'nak'


@mutant
class OtherNameKeepsAsking(Device):
    def asking_byte(self, value):
        answer = super().asking_byte(value)
        if answer == 'nak':
            self.bus = ASKING
        return answer


@mutant
class OtherNameGoesIdle(Device):
    def asking_byte(self, value):
        answer = super().asking_byte(value)
        if answer == 'nak':
            self.bus = IDLE
        return answer


@mutant
class AskTwiceKeepsAsking(Device):
    def asking_byte(self, value):
        return 'ack' if value == ASK else super().asking_byte(value)


@mutant
class CallWhileAsking(Device):
    def asking_byte(self, value):
        return self.opened_byte(value) if value == 0x00 else super().asking_byte(value)


@mutant
class NamedByteIgnored(Device):
    def named_byte(self, value):
        return 'nak'


@mutant
class NamedByteAcknowledged(Device):
    def named_byte(self, value):
        super().named_byte(value)
        return 'ack'


@mutant
class NameTwiceKeepsNamed(Device):
    def named_byte(self, value):
        return 'ack' if value >> 1 == self.address() else super().named_byte(value)


@mutant
class NamedIsAskedAgain(Device):
    def named_byte(self, value):
        return self.opened_byte(value) if value == ASK else super().named_byte(value)


@mutant
class NamedTakesCommands(Device):
    """The own address has chosen the device, as it does after START."""

    def named_byte(self, value):
        return self.chosen_byte(value)


def reopened_deaf_to(name, unheard):
    """A mutant that after the repeated START does not hear some bytes that it hears after the first."""
    def reopened_byte(self, value):
        return Device.reopened_byte(self, 0xFF if unheard(self, value) else value)
    mutant(type(name, (Device,), {'reopened_byte': reopened_byte}))


reopened_deaf_to('NoWriteAfterRepeatedStart', lambda device, value: value == 2 * device.address())
reopened_deaf_to('NoReadAfterRepeatedStart', lambda device, value: value == 2 * device.address() + 1)
reopened_deaf_to('NoCallAfterRepeatedStart', lambda device, value: value == 0x00)
reopened_deaf_to('OnlyNumberAfterRepeatedStart', lambda device, value: value not in (ASK, TELL))


@mutant
class ReopenedByteIgnored(Device):
    """Another address after the repeated START leaves F9h to come."""

    def reopened_byte(self, value):
        answer = super().reopened_byte(value)
        if answer == 'nak':
            self.bus = REOPENED
        return answer


@mutant
class StartInAskingRepeats(Device):
    def start_repeats(self):
        return self.bus == ASKING or super().start_repeats()


@mutant
class StartInTellingRepeats(Device):
    def start_repeats(self):
        return self.bus == TELLING or super().start_repeats()


@mutant
class AnyRepeatedStartWillDo(Device):
    """Every START with no STOP before it is a repeated one."""

    def start_repeats(self):
        return self.bus != IDLE


@mutant
class SecondStartSpoils(Device):
    def start_repeats(self):
        return self.bus == NAMED


@mutant
class NoStartRepeats(Device):
    def start_repeats(self):
        return False


def event_kept_out(name, method, bus):
    """A mutant in which an event leaves one bus state as it is."""
    def event(self, *given):
        if self.bus == bus:
            return None
        return getattr(Device, method)(self, *given)
    mutant(type(name, (Device,), {method: event}))


event_kept_out('StartKeepsAsking', 'start', ASKING)
event_kept_out('StartKeepsNamed', 'start', NAMED)
event_kept_out('StartKeepsTelling', 'start', TELLING)
event_kept_out('StopKeepsAsking', 'stop', ASKING)
event_kept_out('StopKeepsNamed', 'stop', NAMED)
event_kept_out('StopKeepsReopened', 'stop', REOPENED)
event_kept_out('StopKeepsTelling', 'stop', TELLING)


@mutant
class StopDoesNotSpoil(Device):
    """Once named, a device waits for START and F9h over any STOP."""

    def stop(self):
        named = self.start_repeats()
        super().stop()
        if named:
            self.bus = NAMED


@mutant
class ResetKeepsInventory(Device):
    """What happens to the registers is nothing to the Device ID."""

    def reset_bus(self):
        return self.bus if self.bus in (ASKING, NAMED, REOPENED, TELLING) else super().reset_bus()


def levels_deafen(name, *states):
    """A mutant in which new levels end what goes on in these bus states."""
    def levels(self, new):
        Device.levels(self, new)
        if self.bus in states:
            self.bus = DEAF
    mutant(type(name, (Device,), {'levels': levels}))


levels_deafen('LevelsSpoil', ASKING, NAMED, REOPENED)
levels_deafen('LevelsEndTelling', TELLING)


def fetch_tells(name, bus):
    """A mutant that tells its number too early."""
    def stray_fetch(self):
        return self.number_byte(self.place) if self.bus == bus else Device.stray_fetch(self)
    mutant(type(name, (Device,), {'stray_fetch': stray_fetch}))


fetch_tells('FetchWhileAskingTells', ASKING)
fetch_tells('FetchWhileNamedTells', NAMED)
fetch_tells('FetchWhileReopenedTells', REOPENED)


@mutant
class FetchSpoils(Device):
    def stray_fetch(self):
        if self.bus in (ASKING, NAMED, REOPENED):
            self.bus = DEAF
        return super().stray_fetch()


@mutant
class TellingByteIgnored(Device):
    def telling_byte(self, value):
        return 'nak'


@mutant
class TellingByteAcknowledged(Device):
    def telling_byte(self, value):
        super().telling_byte(value)
        return 'ack'


@mutant
class TellingBeginsAgain(Device):
    """By a further F9h."""

    def telling_byte(self, value):
        return self.reopened_byte(value) if value == TELL else super().telling_byte(value)


@mutant
class TellingHearsItsAddress(Device):
    def telling_byte(self, value):
        return self.opened_byte(value)


@mutant
class LowestByteFirst(Device):
    def number_byte(self, place):
        return super().number_byte(NUMBER_BYTES - 1 - place)


@mutant
class HighestByteNotTold(Device):
    """A number of two bytes."""

    def number_byte(self, place):
        return super().number_byte(place) if place else 0x00


@mutant
class PlaceStays(Device):
    def next_place(self, place):
        return place


@mutant
class PlaceStopsAtLast(Device):
    def next_place(self, place):
        return min(place + 1, NUMBER_BYTES - 1)


@mutant
class PlaceStepsDown(Device):
    """The place counts the bytes that are left."""

    def next_place(self, place):
        return (place - 1) % NUMBER_BYTES


@mutant
class ThreeBytesEndTelling(Device):
    def after_telling(self, acknowledged):
        last = self.place == NUMBER_BYTES - 1
        super().after_telling(acknowledged)
        if last:
            self.bus = DEAF


@mutant
class LastTellKeepsTelling(Device):
    def after_telling(self, acknowledged):
        super().after_telling(acknowledged)
        self.bus = TELLING


@mutant
class LastTellSteps(Device):
    def after_telling(self, acknowledged):
        super().after_telling(acknowledged)
        if not acknowledged:
            self.place = self.next_place(self.place)


@mutant
class LastTellClearsPlace(Device):
    def after_telling(self, acknowledged):
        super().after_telling(acknowledged)
        if not acknowledged:
            self.place = 0


@mutant
class LastTellGoesIdle(Device):
    def after_telling(self, acknowledged):
        super().after_telling(acknowledged)
        if not acknowledged:
            self.bus = IDLE


@mutant
class TellingIsNotDriven(Device):
    def telling_fetch(self, acknowledged):
        return self.stray_fetch()


@mutant
class TellingShowsRegister(Device):
    def number_byte(self, place):
        return self.byte_at(self.pointer)


@mutant
class TellingStepsPointer(Device):
    def after_telling(self, acknowledged):
        super().after_telling(acknowledged)
        if acknowledged:
            self.pointer = self.next_number(self.pointer)


@mutant
class TellingSettles(Device):
    """As a fetch at the pointer does."""

    def after_telling(self, acknowledged):
        super().after_telling(acknowledged)
        self.settle_fetched(self.settled_by_fetch(self.pointer, acknowledged))


@mutant
class TellKeepsPlace(Device):
    """The number is told from where the last one to ask for it has left it."""

    def reopened_byte(self, value):
        place = self.place
        answer = super().reopened_byte(value)
        self.place = place
        return answer


@mutant
class ResetKeepsPlace(Device):
    def reset_place(self):
        return self.place


@mutant
class HardwareResetKeepsPlace(Device):
    def step(self, kind, arg):
        place = self.place
        answer = super().step(kind, arg)
        if kind == RESET:
            self.place = place
        return answer


@mutant
class SoftwareResetKeepsPlace(Device):
    def stop(self):
        place = self.place
        super().stop()
        self.place = place


@mutant
class ResetForgetsNumber(Device):
    def reset(self):
        super().reset()
        self.number = 0


@mutant
class HardwareResetForgetsNumber(Device):
    def step(self, kind, arg):
        answer = super().step(kind, arg)
        if kind == RESET:
            self.number = 0
        return answer


@mutant
class SoftwareResetForgetsNumber(Device):
    def stop(self):
        armed = self.bus == ARMED
        super().stop()
        if armed:
            self.number = 0


def set_by(name, method, **changes):
    """A mutant in which an event, or what comes of it, also sets something that it has nothing to do with."""
    def event(self, *given):
        answer = getattr(Device, method)(self, *given)
        for what, value in changes.items():
            setattr(self, what, value)
        return answer
    mutant(type(name, (Device,), {method: event}))


set_by('PlaceClearedByStart', 'start', place=0)
set_by('PlaceClearedByStop', 'stop', place=0)
set_by('PlaceClearedByLevels', 'levels', place=0)
set_by('PlaceClearedByName', 'asking_byte', place=0)
set_by('PlaceClearedByAddress', 'opened_byte', place=0)
set_by('PlaceClearedByCommand', 'chosen_byte', place=0)
set_by('PlaceClearedByTellingByte', 'telling_byte', place=0)
set_by('PlaceClearedByFetch', 'sending_fetch', place=0)
set_by('PointerClearedByName', 'asking_byte', pointer=0x00)
set_by('PointerClearedByTelling', 'telling_fetch', pointer=0x00)
set_by('ModeClearedByName', 'asking_byte', mode=IN_GROUP)
set_by('ModeClearedByTelling', 'telling_fetch', mode=IN_GROUP)


def set_by_byte(name, byte, **changes):
    """A mutant in which an acknowledged byte of the Device ID sets something beside the bus state."""
    def heard(self, value):
        before = self.bus
        answer = Device.byte(self, value)
        if value == byte and answer == 'ack' and before in (OPENED, REOPENED):
            for what, new in changes.items():
                setattr(self, what, new)
        return answer
    mutant(type(name, (Device,), {'byte': heard}))


set_by_byte('PlaceClearedByAsk', ASK, place=0)
set_by_byte('PointerClearedByAsk', ASK, pointer=0x00)
set_by_byte('PointerClearedByTell', TELL, pointer=0x00)
set_by_byte('ModeClearedByTell', TELL, mode=IN_GROUP)
# Bit 7 of a command is the mode, and both bytes have it.
set_by_byte('ModeSetByAsk', ASK, mode=OVER_MAP)
set_by_byte('ModeSetByTell', TELL, mode=OVER_MAP)


@mutant
class NumberLimitPasses(Device):
    def number_broken(self, number):
        return number > NUMBER_LIMIT


@mutant
class LargestNumberFails(Device):
    def number_broken(self, number):
        return number >= NUMBER_LIMIT - 1


@mutant
class NumberUnjudged(Device):
    def number_broken(self, number):
        return False


@mutant
class NumberJudgedByTopBit(Device):
    def number_broken(self, number):
        return number >= 1 << 31


@mutant
class PlaceThreePasses(Device):
    def place_broken(self, place):
        return place > NUMBER_BYTES


@mutant
class PlaceTwoFails(Device):
    def place_broken(self, place):
        return place >= NUMBER_BYTES - 1


@mutant
class PlaceUnjudged(Device):
    def place_broken(self, place):
        return False


@mutant
class PlaceJudgedWhileTelling(Device):
    """Where nobody fetches by it, any place passes."""

    def place_broken(self, place):
        return self.bus == TELLING and super().place_broken(place)


def not_told(name, field):
    """A mutant in whose images a field is always 0."""
    def image(self):
        return Device.image(self)._replace(**{field: 0})
    mutant(type(name, (Device,), {'image': image}))


not_told('NumberNotTold', 'number')
not_told('PlaceNotTold', 'place')


def not_taken(name, field):
    """A mutant that judges a field of an image and drops it."""
    def __init__(self, which, image):
        Device.__init__(self, which, image)
        if not self.broken:
            setattr(self, field, 0)
    mutant(type(name, (Device,), {'__init__': __init__}))


not_taken('NumberNotTaken', 'number')
not_taken('PlaceNotTaken', 'place')


# The file.

@mutant
class PortKindKeepsOneBitMore(Device):
    def kept(self, number, value):
        return value & 2 * self.part.bits[number] + 1 if number == self.part.port_kind else super().kept(number, value)


@mutant
class PortKindKeepsAll(Device):
    def kept(self, number, value):
        return value if number == self.part.port_kind else super().kept(number, value)


@mutant
class PortKindRefusesHighBits(Device):
    def store(self, number, value):
        if number != self.part.port_kind or value <= self.part.bits[number]:
            super().store(number, value)


@mutant
class EverythingIsStored(Device):
    def store(self, number, value):
        self.registers[number] = self.kept(number, value)


@mutant
class WritesIgnored(Device):
    def store(self, number, value):
        pass


@mutant
class PullSelectIgnored(Device):
    def store(self, number, value):
        if self.map[number].name != 'pull select':
            super().store(number, value)


# Refusals.

@mutant
class KindSixPasses(Device):
    def kind_unknown(self, kind):
        return kind > 6


@mutant
class KindLowByteOnly(Device):
    def kind_unknown(self, kind):
        return kind & 0xFF > 5


@mutant
class ByteLimitOneMore(Device):
    def argument_too_large(self, kind, arg):
        return super().argument_too_large(kind, arg) and not (kind == BYTE and arg == 256)


@mutant
class ByteLimitOneLess(Device):
    def argument_too_large(self, kind, arg):
        return super().argument_too_large(kind, arg) or (kind == BYTE and arg == 255)


@mutant
class FetchLimitOneMore(Device):
    def argument_too_large(self, kind, arg):
        return super().argument_too_large(kind, arg) and not (kind == FETCH and arg == 2)


@mutant
class FetchLimitOneLess(Device):
    def argument_too_large(self, kind, arg):
        return super().argument_too_large(kind, arg) or (kind == FETCH and arg == 1)


@mutant
class LevelsLimitOneMore(Device):
    def argument_too_large(self, kind, arg):
        return super().argument_too_large(kind, arg) and not (kind == LEVELS and arg == self.part.limit)


@mutant
class LevelsLimitOneLess(Device):
    def argument_too_large(self, kind, arg):
        return super().argument_too_large(kind, arg) or (kind == LEVELS and arg == self.part.limit - 1)


@mutant
class ArgumentLowWordOnly(Device):
    def argument_too_large(self, kind, arg):
        return super().argument_too_large(kind, arg & 0xFFFFFFFF)


@mutant
class StartChecksArgument(Device):
    def argument_too_large(self, kind, arg):
        return super().argument_too_large(kind, arg) or (kind == 0 and arg > 0)


@mutant
class ResetChecksArgument(Device):
    def argument_too_large(self, kind, arg):
        return super().argument_too_large(kind, arg) or (kind == 5 and arg > 255)


@mutant
class KindBeforeImage(Device):
    def refusal(self, kind, arg):
        return 1 if self.kind_unknown(kind) else super().refusal(kind, arg)


@mutant
class ArgumentBeforeImage(Device):
    def refusal(self, kind, arg):
        return 2 if self.argument_too_large(kind, arg) else super().refusal(kind, arg)


@mutant
class ReservedPointerPasses(Device):
    def pointer_broken(self, pointer):
        return pointer > 0x7F


@mutant
class LargePointerPasses(Device):
    def pointer_broken(self, pointer):
        return self.map[pointer & 0x7F] is None


@mutant
class BusStateTwelvePasses(Device):
    def bus_broken(self, bus):
        return bus > 12


@mutant
class BusStateElevenFails(Device):
    def bus_broken(self, bus):
        return bus > 10


@mutant
class BusStateEightFails(Device):
    """The states of a device without a number."""

    def bus_broken(self, bus):
        return bus > 7


@mutant
class ChoiceFourPasses(Device):
    def choice_broken(self, choice):
        return choice > 4


@mutant
class ChoiceThreeFails(Device):
    def choice_broken(self, choice):
        return choice > 2


@mutant
class PortKindOneMorePasses(Device):
    def unused_broken(self, number, value):
        return super().unused_broken(number, value) and not (
            number == self.part.port_kind and value == self.part.bits[number] + 1)


@mutant
class PortKindOfAllFails(Device):
    def unused_broken(self, number, value):
        return super().unused_broken(number, value) or (
            number == self.part.port_kind and value == self.part.bits[number])


@mutant
class ReservedEntryPasses(Device):
    def entry_broken(self, number, value):
        return self.map[number] is not None and super().entry_broken(number, value)


@mutant
class ReadOnlyEntryPasses(Device):
    def entry_broken(self, number, value):
        return self.map[number] is None and super().entry_broken(number, value)


@mutant
class ClearEntryPasses(Device):
    def entry_broken(self, number, value):
        group = self.map[number]
        return not (group and group.name == 'interrupt clear') and super().entry_broken(number, value)


@mutant
class LastEntryUnchecked(Device):
    def entry_broken(self, number, value):
        return number != 0x7F and super().entry_broken(number, value)


@mutant
class HeldWithoutLatchFails(Device):
    def pin_sets_broken(self, image):
        return super().pin_sets_broken(image) or any(
            image.held >> i & 1 and not self.latched(i) for i in range(self.part.pins))


@mutant
class MakeAcceptsAnyChoice(Device):
    @classmethod
    def make_too_large(cls, which, choice, levels, number):
        return super().make_too_large(which, 0, levels, number)


@mutant
class MakeRefusesChoiceThree(Device):
    @classmethod
    def make_too_large(cls, which, choice, levels, number):
        return choice > 2 or super().make_too_large(which, choice, levels, number)


def pin_set_mutant(name):
    """A mutant that lets one pin set with a pin past the last pass."""
    def pin_sets_broken(self, image):
        return Device.pin_sets_broken(self, image._replace(**{name: 0}))
    mutant(type('Large%sPasses' % name.title(), (Device,), {'pin_sets_broken': pin_sets_broken}))


for set_name in ('level', 'reference', 'held', 'edge'):
    pin_set_mutant(set_name)


# Views.

@mutant
class IntOfBrokenImageIsQuiet(Device):
    def told_int(self):
        return 1 if self.broken else super().told_int()


@mutant
class IntOfBrokenImageIsTold(Device):
    def int_refusal(self):
        return None


@mutant
class DrivesOfBrokenImageAreTold(Device):
    def drives_refusal(self):
        return None


@mutant
class ByteOfBrokenImageIsTold(Device):
    def byte_refusal(self, number):
        return 2 if self.number_refused(number) else None


@mutant
class ReservedNumberShowsNull(Device):
    def told_byte(self, number):
        told = super().told_byte(number)
        return 0x00 if told == ('refused', 2) and number <= 0x7F else told


@mutant
class LargeNumberShowsNull(Device):
    def told_byte(self, number):
        told = super().told_byte(number)
        return 0x00 if told == ('refused', 2) and number > 0x7F else told


@mutant
class NumberBeforeImage(Device):
    def byte_refusal(self, number):
        return 2 if self.number_refused(number) else super().byte_refusal(number)


@mutant
class NumberLowByteOnly(Device):
    def told_byte(self, number):
        return super().told_byte(number & 0xFF)


@mutant
class TopBitOfNumberDropped(Device):
    def told_byte(self, number):
        return super().told_byte(number & 0x7F if number <= 0xFF else number)


@mutant
class ByteOnlyWhileSending(Device):
    def told_byte(self, number):
        told = super().told_byte(number)
        return told if isinstance(told, tuple) or self.bus == SENDING else self.stray_fetch()


@mutant
class ByteAskedSettles(Device):
    def told_byte(self, number):
        told = super().told_byte(number)
        if not isinstance(told, tuple):
            self.settle_fetched(self.settled_by_fetch(number, False))
        return told


# Bursts.

@mutant
class BurstCountsOneTooMany(Device):
    def burst(self, data, asked, room):
        number, done, answers = super().burst(data, asked, room)
        return number, done + 1 if number == 0 and done else done, answers


@mutant
class BurstCountsRefused(Device):
    def burst(self, data, asked, room):
        number, done, answers = super().burst(data, asked, room)
        return number, done + 1 if number in (1, 2, 3) else done, answers


@mutant
class BurstCountsGiven(Device):
    def burst(self, data, asked, room):
        number, done, answers = super().burst(data, asked, room)
        return number, len(data) // EVENT_BYTES if number == 0 else done, answers


@mutant
class BurstStopsOneEarly(Device):
    def burst(self, data, asked, room):
        refused = self.burst_refused(len(data), asked, room)
        return super().burst(data, asked if refused else max(asked - 1, 0), room)


@mutant
class BurstGoesOnAfterRefusal(Device):
    def burst(self, data, asked, room):
        number, done, answers = super().burst(data, asked, room)
        if number in (1, 2):
            for place in range(done + 1, asked):
                kind, low, rest = self.words_of(data, place)
                arg = self.argument_of(low, rest)
                if self.event_refusal(kind, arg, rest) is None:
                    self.step(kind, arg)
        return number, done, answers


@mutant
class BurstAnswersRefused(Device):
    def burst(self, data, asked, room):
        number, done, answers = super().burst(data, asked, room)
        return number, done, answers + ['-'] if number in (1, 2, 3) else answers


@mutant
class BurstUndoesOnRefusal(Device):
    def burst(self, data, asked, room):
        before = self.image()
        number, done, answers = super().burst(data, asked, room)
        if number in (1, 2):
            self.__init__(self.which, before)
        return number, done, answers


@mutant
class BurstTellsNoCountOfRefused(Device):
    def burst(self, data, asked, room):
        number, done, answers = super().burst(data, asked, room)
        return number, done if number == 0 else None, answers


@mutant
class BurstClearsRoom(Device):
    def burst(self, data, asked, room):
        number, done, answers = super().burst(data, asked, room)
        return number, done, answers if done is None else answers + ['-'] * (room // 2 - done)


def rest_mutant(name, ignored):
    """A mutant that does not look at one kind's third word."""
    def rest_refused(self, kind, rest):
        return kind != ignored and rest != 0
    mutant_on(24)(type('RestOf%sIgnored' % name, (Device,), {'rest_refused': rest_refused}))


for kind_number, kind_name in enumerate(('Start', 'Stop', 'Byte', 'Fetch', 'Levels', 'Reset')):
    rest_mutant(kind_name, kind_number)


@mutant_on(24)
class RestLowByteOnly(Device):
    def rest_refused(self, kind, rest):
        return rest & 0xFF != 0


@mutant_on(24)
class RestBeforeKind(Device):
    def event_refusal(self, kind, arg, rest):
        return 2 if rest != 0 and not self.broken else super().event_refusal(kind, arg, rest)


@mutant_on(24)
class RestBeforeImage(Device):
    def event_refusal(self, kind, arg, rest):
        return 2 if rest != 0 and kind < 6 else super().event_refusal(kind, arg, rest)


@mutant_on(24)
class RestIsArgumentsUpperWord(Device):
    """The sister's rule."""

    def event_refusal(self, kind, arg, rest):
        return self.refusal(kind, arg | rest << 32)


@mutant_on(34)
class UpperHalfIgnored(Device):
    def argument_of(self, low, rest):
        return low


def upper_half_mutant(name, ignored):
    """A mutant that does not look at one kind's upper half."""
    def words_of(self, data, place):
        kind, low, rest = Device.words_of(self, data, place)
        return kind, low, 0 if kind == ignored else rest
    mutant_on(34)(type('UpperHalfOf%sIgnored' % name, (Device,), {'words_of': words_of}))


for kind_number, kind_name in ((BYTE, 'Byte'), (FETCH, 'Fetch'), (LEVELS, 'Levels')):
    upper_half_mutant(kind_name, kind_number)


@mutant_on(34)
class UpperHalfRefused(Device):
    """The 24-pin part's rule."""

    def rest_refused(self, kind, rest):
        return rest != 0


@mutant_on(34)
class UpperHalfRefusedButOfLevels(Device):
    def rest_refused(self, kind, rest):
        return rest != 0 and kind != LEVELS


@mutant_on(34)
class UpperHalfRefusedBeforeKind(Device):
    def event_refusal(self, kind, arg, rest):
        return 2 if rest > 3 and kind > 5 and not self.broken else super().event_refusal(kind, arg, rest)


@mutant_on(34)
class HalvesSwapped(Device):
    def argument_of(self, low, rest):
        return rest | low << 32


@mutant_on(34)
class UpperHalfOf16Bits(Device):
    def argument_of(self, low, rest):
        return low & 0xFFFF | rest << 16 if rest else low


@mutant
class EventWordsHighestFirst(Device):
    def words_of(self, data, place):
        return tuple(int.from_bytes(word.to_bytes(4, 'little'), 'big') for word in super().words_of(data, place))


@mutant
class EventOfEightBytes(Device):
    def words_of(self, data, place):
        event = data[8 * place:8 * place + 8]
        return int.from_bytes(event[:4], 'little'), int.from_bytes(event[4:], 'little'), 0


@mutant
class ArgumentLowHalfOnly(Device):
    def words_of(self, data, place):
        kind, arg, rest = super().words_of(data, place)
        return kind, arg & 0xFFFF if kind == BYTE else arg, rest


@mutant
class Burst513Passes(Device):
    def too_many(self, asked):
        return asked > MOST_EVENTS + 1


@mutant
class Burst512Fails(Device):
    def too_many(self, asked):
        return asked > MOST_EVENTS - 1


@mutant
class BurstGivenOver512Fails(Device):
    def burst_refused(self, given, asked, room):
        return super().burst_refused(given, asked, room) or given > EVENT_BYTES * MOST_EVENTS


@mutant
class BurstRoomOneShortPasses(Device):
    def too_small(self, asked, room):
        return room < 2 * asked - 1


@mutant
class BurstRoomForAllGiven(Device):
    def burst_refused(self, given, asked, room):
        return super().burst_refused(given, asked, room) or room < 2 * (given // EVENT_BYTES)


@mutant
class BurstPartOfEventPasses(Device):
    def burst_refused(self, given, asked, room):
        return super().burst_refused(given - given % EVENT_BYTES, asked, room)


@mutant
class BurstLessGivenPasses(Device):
    def burst(self, data, asked, room):
        given = len(data) // EVENT_BYTES
        return super().burst(data, given if given < asked <= MOST_EVENTS else asked, room)


@mutant
class BurstEightAfterThree(Device):
    def burst(self, data, asked, room):
        return (3, 0, []) if self.broken and asked > 0 else super().burst(data, asked, room)


@mutant
class BurstEightTellsNone(Device):
    def burst(self, data, asked, room):
        number, done, answers = super().burst(data, asked, room)
        return number, 0 if number == 8 else done, answers


@mutant
class BurstOfNoneOnBrokenFails(Device):
    def burst(self, data, asked, room):
        number, done, answers = super().burst(data, asked, room)
        return 3 if number == 0 and self.broken else number, done, answers


@mutant
class BurstOfNoneTellsNoCount(Device):
    def burst(self, data, asked, room):
        number, done, answers = super().burst(data, asked, room)
        return number, done if asked else None, answers


@mutant
class BurstLeavesStatus(Device):
    def burst(self, data, asked, room):
        before = self.status[:]
        told = super().burst(data, asked, room)
        self.status = before
        return told


@mutant
class BurstLeavesLine(Device):
    def burst(self, data, asked, room):
        before = self.line
        told = super().burst(data, asked, room)
        self.line = before
        return told


@mutant
class BurstLeavesMode(Device):
    """Events step as the commands before them say, but the mode after a burst is that before it."""

    def burst(self, data, asked, room):
        before = self.mode
        told = super().burst(data, asked, room)
        self.mode = before
        return told


@mutant
class BurstLeavesPlace(Device):
    """The number's bytes are told in turn, but the place after a burst is that before it."""

    def burst(self, data, asked, room):
        before = self.place
        told = super().burst(data, asked, room)
        self.place = before
        return told


# What the programs read: mutants of a log's session.

READERS = []


def reader(cls):
    READERS.append(cls)
    return cls


@reader
class SixDigitsMakeASister(Session):
    def new(self, which, choice, levels, digits):
        return super().new(which, choice, levels, 9 if (which, digits) == (34, 6) else digits)


@reader
class NineDigitsMakeADevice(Session):
    def new(self, which, choice, levels, digits):
        return super().new(which, choice, levels, 6 if (which, digits) == (24, 9) else digits)


@reader
class NineDigitsMakeASister(Session):
    """Whatever the line calls it."""

    def new(self, which, choice, levels, digits):
        return super().new({6: 24, 9: 34}.get(digits, which), choice, levels, digits)


@reader
class SixDigitsForTheSistersPins(Session):
    def event(self, kind, argument, digits):
        return super().event(kind, argument, 9 if kind == LEVELS and digits == 6 and self.is_sister() else digits)

    def is_sister(self):
        return self.device is not None and self.device.which == 34


@reader
class NineDigitsForPins(Session):
    def digits_fit(self, which, digits):
        return digits in (6, 9)

    def new(self, which, choice, levels, digits):
        return super().new(which, choice, levels, digits) if digits == PARTS[which].digits else None


@reader
class EightDigitsForTheSister(Session):
    def digits_fit(self, which, digits):
        return super().digits_fit(which, digits) or (which, digits) == (34, 8)


@reader
class TooManyPinsMakeASister(Session):
    def new(self, which, choice, levels, digits):
        return super().new(which, choice, levels % PARTS[which].limit, digits)


@reader
class TooManyPinsForTheSister(Session):
    """Those that are none are left out."""

    def event(self, kind, argument, digits):
        if kind == LEVELS and self.device is not None:
            argument %= PARTS[self.device.which].limit
        return super().event(kind, argument, digits)


@reader
class TooManyPinsGetTwo(Session):
    def levels_fit(self, which, levels):
        return True

    def event(self, kind, argument, digits):
        answer = super().event(kind, argument, digits)
        return '%s\t%d' % answer if isinstance(answer, tuple) else answer


@reader
class LaterDeviceKeepsNineDigits(Session):
    """A device line after a device34 line is the 24-pin part, but answers go on in nine digits."""

    digits = 6

    def line(self, answer):
        self.digits = max(self.digits, self.device.part.digits)
        return answer_line(answer, self.device, self.digits)


@reader
class LaterDeviceReadsNineDigits(Session):
    """Answers have six digits again, but its pins have nine."""

    widest = 24

    def event(self, kind, argument, digits):
        if self.device is not None:
            self.widest = max(self.widest, self.device.which)
        if kind == LEVELS and self.widest == 34:
            digits = {9: PARTS[self.device.which].digits}.get(digits, 0)
        return super().event(kind, argument, digits)


@reader
class LaterDeviceStaysASister(Session):
    def new(self, which, choice, levels, digits):
        if which == 24 and digits == 6 and self.device is not None and self.device.which == 34:
            which, digits = 34, 9
        return super().new(which, choice, levels, digits)


@reader
class LaterDeviceUnreadable(Session):
    """A log is of one part."""

    def new(self, which, choice, levels, digits):
        if self.device is not None and self.device.which != which:
            return None
        return super().new(which, choice, levels, digits)


@reader
class SisterAnswersInSixDigits(Session):
    def line(self, answer):
        return answer_line(answer, self.device, 6)


@reader
class SisterAnswersInTenDigits(Session):
    def line(self, answer):
        return answer_line(answer, self.device, 10 if self.device.which == 34 else None)


@reader
class UnreadableDeviceTakesDigits(Session):
    """A device line that is unreadable for its choice or its levels leaves the device, but not how many digits pins have."""

    heard = None

    def new(self, which, choice, levels, digits):
        answer = super().new(which, choice, levels, digits)
        self.heard = which if digits == PARTS[which].digits else self.heard
        return answer

    def event(self, kind, argument, digits):
        if kind == LEVELS and self.device is not None:
            if digits != PARTS[self.heard].digits:
                return None
            digits = PARTS[self.device.which].digits
        return super().event(kind, argument, digits)


@reader
class DevicesHaveANumber(Session):
    def make(self, which, choice, levels):
        return self.classes[which].make(which, choice, levels, 1)


@reader
class LaterDevicesHaveANumber(Session):
    """The devices of a log are counted."""

    def make(self, which, choice, levels):
        return self.classes[which].make(which, choice, levels, 0 if self.device is None else self.device.number + 1)


# What the line programs read: mutants of how a line of probe is read.

LINE_READERS = []
POWER_ON_FIELDS = image_fields(power_on_image(24)).encode().split(b'\t')


def older_form(name, known):
    """A reader that takes images of so many fields too, the others as at power-on."""
    def read_line(line):
        fields = line.split(b'\t')
        if len(fields) == known + len(WIDTHS) - len(IMAGE_WIDTHS):
            fields[known:known] = POWER_ON_FIELDS[known:]
        return probe_line(b'\t'.join(fields))
    read_line.__name__ = name
    LINE_READERS.append(read_line)


older_form('NumberAndPlaceLeftOut', 11)
older_form('ModeLeftOut', 10)
older_form('StatusAndLineLeftOut', 8)


# What the planner refuses, and how long a plan may be.

PLANNERS = []


def planner(cls):
    PLANNERS.append(cls)
    return cls


def planner_on(*parts):
    def marked(cls):
        cls.on = parts
        return planner(cls)
    return marked


Planner.on = tuple(PARTS)


@planner_on(34)
class SettingsOfTenBytes(Planner):
    def length_wrong(self, setting):
        return len(setting) != 10


@planner
class ShorterSettingsPass(Planner):
    def length_wrong(self, setting):
        return len(setting) > len(self.part.settings) or len(setting) < len(self.part.settings) - 1

    def refusal(self, start, goal, room):
        start, goal = (end + b'\0' if len(end) == len(self.part.settings) - 1 else end for end in (start, goal))
        return super().refusal(start, goal, room)


@planner
class LongerSettingsPass(Planner):
    def length_wrong(self, setting):
        return len(setting) < len(self.part.settings)


def without_unused(part, setting):
    """A whole setting without its unused bits."""
    if len(setting) != len(part.settings):
        return setting
    return bytes(value & part.bits[number] for value, number in zip(setting, part.settings))


@planner
class UnusedBitsOfStartPass(Planner):
    def refusal(self, start, goal, room):
        return super().refusal(without_unused(self.part, start), goal, room)


@planner
class UnusedBitsOfGoalPass(Planner):
    def refusal(self, start, goal, room):
        return super().refusal(start, without_unused(self.part, goal), room)


@planner_on(34)
class OnlyPortKindIsJudged(Planner):
    def unused_set(self, setting):
        return setting[2 * self.part.ports] & ~0x1F != 0


@planner_on(34)
class PortKindOfSettingsUpTo7(Planner):
    def unused_set(self, setting):
        return super().unused_set(setting) or setting[2 * self.part.ports] > 7


@planner_on(34)
class PortKindOfSettingsUnjudged(Planner):
    def unused_set(self, setting):
        place = 2 * self.part.ports
        return super().unused_set(setting[:place] + b'\0' + setting[place + 1:])


def setting_mutant(name, place):
    """A mutant that does not judge the unused bits of one of the sister's registers in a setting."""
    def unused_set(self, setting):
        return Planner.unused_set(self, setting[:place] + b'\0' + setting[place + 1:])
    planner_on(34)(type('Unused%sOfSettingsPasses' % name, (Planner,), {'unused_set': unused_set}))


for last_name, last_place in (('Output', 4), ('Configuration', 9), ('PinKind', 15)):
    setting_mutant(last_name, last_place)


@planner_on(34)
class RoomOf24(Planner):
    def room_small(self, room):
        return room < 32


@planner_on(24)
class RoomOf34(Planner):
    def room_small(self, room):
        return room < 52


@planner
class RoomOneShortPasses(Planner):
    def room_small(self, room):
        return super().room_small(room + 1)


@planner
class RoomOneMoreWanted(Planner):
    def room_small(self, room):
        return super().room_small(room - 1)


@planner
class RoomBeforeSettings(Planner):
    def refusal(self, start, goal, room):
        return 6 if self.room_small(room) else super().refusal(start, goal, room)


@planner
class WayBeforeRoom(Planner):
    def refusal(self, start, goal, room):
        number, with_room = super().refusal(start, goal, room), super().refusal(start, goal, 1 << 16)
        return with_room if number == 6 and with_room else number


@planner_on(34)
class PlanLengthOf24(Planner):
    def most_writes(self):
        return 16


@planner_on(24)
class PlanLengthOf34(Planner):
    def most_writes(self):
        return 26


# What the program compare finds.

COMPARERS = []


def comparer(cls):
    COMPARERS.append(cls)
    return cls


def unfinished(comparison, place):
    """Whether the line found there is the last one and has no newline."""
    offset, line = comparison.found[place]
    return offset + len(line) == len(comparison.answers)


def forgiving(name, form):
    """A mutant to which a line is what the form makes of it."""
    def differs(self, place):
        return form(self.found[place][1]) != form(self.expected[place])
    comparer(type(name, (Comparison,), {'differs': differs}))


forgiving('ReturnForgiven', lambda line: line[:-1] if line.endswith(b'\r') else line)
forgiving('SpaceForgiven', lambda line: line.rstrip(b' '))
forgiving('CapitalsForgiven', bytes.lower)
forgiving('NulEndsLine', lambda line: line.partition(b'\0')[0])
forgiving('NulForgiven', lambda line: line.replace(b'\0', b''))
forgiving('OnlyLengthsCompared', len)
forgiving('OnlyAnswersCompared', lambda line: line.partition(b'\t')[0])
forgiving('OnlyDrivesCompared', lambda line: line.partition(b'\t')[2])


@comparer
class ReturnBeforeNewlineForgiven(Comparison):
    def differs(self, place):
        line = self.found[place][1]
        forgiven = line.endswith(b'\r') and not unfinished(self, place)
        return (line[:-1] if forgiven else line) != self.expected[place]


@comparer
class BeginningOfALineAgrees(Comparison):
    def differs(self, place):
        return not self.expected[place].startswith(self.found[place][1])


@comparer
class CutLastLineAgrees(Comparison):
    """A beginning of a line, where the answers end in it."""

    def differs(self, place):
        return super().differs(place) and not (
            unfinished(self, place) and self.expected[place].startswith(self.found[place][1]))


@comparer
class LongerLineAgrees(Comparison):
    def differs(self, place):
        return not self.found[place][1].startswith(self.expected[place])


@comparer
class EmptyLineAgrees(Comparison):
    def differs(self, place):
        return self.found[place][1] != b'' and super().differs(place)


@comparer
class HeaderNotExpected(Comparison):
    """Answers without a header agree, and with one they depart."""

    def lines_expected(self):
        return super().lines_expected()[1:]


@comparer
class HeaderMayBeMissing(Comparison):
    def lines_expected(self):
        expected = super().lines_expected()
        return expected if self.answers.startswith(HEADER) else expected[1:]


@comparer
class HeaderNotCompared(Comparison):
    """Whatever line 1 is."""

    def differs(self, place):
        return place > 0 and super().differs(place)


@comparer
class LeftOverBeforeDeparts(Comparison):
    def finding(self):
        return self.left_over() if len(self.found) > len(self.expected) else super().finding()


@comparer
class MissingBeforeDeparts(Comparison):
    def finding(self):
        return self.ends_early() if len(self.found) < len(self.expected) else super().finding()


@comparer
class LastDifferenceDecides(Comparison):
    def departs(self, place):
        both = range(place, min(len(self.expected), len(self.found)))
        return super().departs(max(later for later in both if self.differs(later)))


@comparer
class DroppedLineEndsEarly(Comparison):
    """A line that is the one after the expected line is not what departs."""

    def departs(self, place):
        dropped = self.found[place][1] in self.expected[place + 1:place + 2]
        return self.ends_early() if dropped else super().departs(place)


@comparer
class DoubledLineIsLeftOver(Comparison):
    def departs(self, place):
        doubled = place > 0 and self.found[place][1] == self.found[place - 1][1]
        return self.at_line(LEFT_OVER if doubled else DEPARTS, place)


@comparer
class LinesInAnyOrder(Comparison):
    def finding(self):
        same = sorted(self.expected) == sorted(line for _, line in self.found)
        return self.agrees() if same else super().finding()


@comparer
class CutLastLineEndsEarly(Comparison):
    """A beginning of the expected line, where the answers end in it."""

    def departs(self, place):
        cut = unfinished(self, place) and self.expected[place].startswith(self.found[place][1])
        return self.ends_early() if cut else super().departs(place)


@comparer
class WholeLastLineEndsEarly(Comparison):
    """All lines are there, and the last newline is not."""

    def agrees(self):
        return super().agrees() if self.answers.endswith(b'\n') else self.at_end(ENDS_EARLY, len(self.found))


@comparer
class LastNewlineWanted(Comparison):
    """All lines are there, and the last one departs without its newline."""

    def agrees(self):
        return super().agrees() if self.answers.endswith(b'\n') else self.departs(len(self.found) - 1)


@comparer
class EmptyAnswersAgree(Comparison):
    def finding(self):
        return super().finding() if self.answers else self.agrees()


@comparer
class EmptyAnswersDepart(Comparison):
    def ends_early(self):
        return super().ends_early() if self.answers else self.at_end(DEPARTS, 1)


@comparer
class EndsEarlyAgrees(Comparison):
    def ends_early(self):
        return self.agrees()


@comparer
class EndsEarlyDeparts(Comparison):
    def ends_early(self):
        return self.at_end(DEPARTS, len(self.found) + 1)


@comparer
class LeftOverAgrees(Comparison):
    def left_over(self):
        return self.agrees()


@comparer
class LeftOverDeparts(Comparison):
    def left_over(self):
        return self.departs(len(self.expected))


@comparer
class EmptyLineLeftOverAgrees(Comparison):
    def left_over(self):
        return self.agrees() if self.answers.endswith(b'\n\n') else super().left_over()


# Which part of the answers comes back.

@comparer
class PartWithNewline(Comparison):
    def at_line(self, verdict, place):
        finding = super().at_line(verdict, place)
        return finding if unfinished(self, place) else finding._replace(length=finding.length + 1)


@comparer
class EmptyLeftOverAtTheEnd(Comparison):
    def left_over(self):
        finding = super().left_over()
        return finding if finding.length else finding._replace(offset=len(self.answers))


@comparer
class EmptyLeftOverAfterItsNewline(Comparison):
    def left_over(self):
        finding = super().left_over()
        return finding if finding.length else finding._replace(offset=finding.offset + 1)


@comparer
class EmptyDepartingAtTheEnd(Comparison):
    def departs(self, place):
        finding = super().departs(place)
        return finding if finding.length else finding._replace(offset=len(self.answers))


@comparer
class DepartingIsTheLineBefore(Comparison):
    def departs(self, place):
        return super().departs(max(0, place - 1))


@comparer
class DepartingIsTheLineAfter(Comparison):
    def departs(self, place):
        return super().departs(min(place + 1, len(self.found) - 1))


@comparer
class DepartingIsAllTheRest(Comparison):
    def departs(self, place):
        finding = super().departs(place)
        return finding._replace(length=len(self.answers) - finding.offset)


@comparer
class DepartingFromItsFirstByte(Comparison):
    """The part begins where line and expected line part."""

    def departs(self, place):
        finding, line = super().departs(place), self.found[place][1]
        same = 0
        while line[same:same + 1] == self.expected[place][same:same + 1] != b'':
            same += 1
        return finding._replace(offset=finding.offset + same, length=finding.length - same)


@comparer
class DepartingAsLongAsExpected(Comparison):
    def departs(self, place):
        finding = super().departs(place)
        return finding._replace(length=min(finding.length, len(self.expected[place])))


@comparer
class LeftOverIsAllTheRest(Comparison):
    def left_over(self):
        finding = super().left_over()
        return finding._replace(length=len(self.answers) - finding.offset)


@comparer
class LeftOverIsTheLastLine(Comparison):
    def left_over(self):
        return self.at_line(LEFT_OVER, len(self.found) - 1)


@comparer
class LeftOverIsTheLastExpected(Comparison):
    def left_over(self):
        return self.at_line(LEFT_OVER, len(self.expected) - 1)


def at_start(name, verdict):
    """A mutant that has the empty part of one verdict at the start of the answers."""
    def at_end(self, found, number):
        finding = Comparison.at_end(self, found, number)
        return finding._replace(offset=0) if found == verdict else finding
    comparer(type(name, (Comparison,), {'at_end': at_end}))


at_start('AgreesAtTheStart', AGREES)
at_start('EndsEarlyAtTheStart', ENDS_EARLY)


@comparer
class AgreesWithAllAnswers(Comparison):
    def agrees(self):
        return super().agrees()._replace(offset=0, length=len(self.answers))


@comparer
class EndsEarlyWithTheLastLine(Comparison):
    def ends_early(self):
        return self.at_line(ENDS_EARLY, len(self.found) - 1) if self.found else super().ends_early()


@comparer
class EndBeforeLastNewline(Comparison):
    def at_end(self, verdict, number):
        return super().at_end(verdict, number)._replace(offset=len(self.answers.rstrip(b'\n')))


# What a line is, of the answers and of the events.

def found_by(name, parted):
    """A mutant that parts the answers into other lines, given as their beginnings and ends."""
    def lines_found(self):
        return [(begin, self.answers[begin:end]) for begin, end in parted(self.answers)]
    comparer(type(name, (Comparison,), {'lines_found': lines_found}))


def line_ends(text):
    """Beginnings and ends of the lines that end with a newline, then of what follows the last."""
    begin = 0
    for line in text.split(b'\n'):
        yield begin, begin + len(line)
        begin += len(line) + 1


found_by('UnfinishedLineUncounted', lambda text: list(line_ends(text))[:-1])
found_by('NothingAfterNewlineCounts', line_ends)
found_by('EmptyLinesUncounted', lambda text: [(begin, end) for begin, end in line_ends(text) if begin < end])
found_by('EmptyTextIsALine', lambda text: list(line_ends(text))[:-1 if text.endswith(b'\n') else None])
found_by('ReturnsEndLines', lambda text: [
    ends for ends in line_ends(text.replace(b'\r', b'\n')) if ends[0] < len(text)])


def expected_by(name, taken):
    """A mutant that takes the events for others."""
    comparer(type(name, (Comparison,), {'lines_expected': lambda self: split_lines(run_log(taken(self.events)))}))


expected_by('UnfinishedEventUncounted', lambda events: events[:events.rfind(b'\n') + 1])
expected_by('NothingAfterNewlineIsAnEvent', lambda events: events + b'\n' if events.endswith(b'\n') else events)
expected_by('EmptyEventsUncounted', lambda events: b'\n'.join(filter(None, events.split(b'\n'))))
expected_by('ReturnsOfEventsForgiven', lambda events: events.replace(b'\r', b''))
expected_by('SistersAreDevices', lambda events: events.replace(b'device34', b'device'))


@comparer
class EmptyEventsExpectNothing(Comparison):
    def lines_expected(self):
        return super().lines_expected() if self.events else ()


@comparer
class UnreadableEventsExpectNothing(Comparison):
    def lines_expected(self):
        return [line for line in super().lines_expected() if line + b'\n' != UNREADABLE]


# What the program compare writes.

TELLERS = []


def teller(cls):
    TELLERS.append(cls)
    return cls


@teller
class EmptyPartUntold(Comparison):
    def output(self):
        return super().output().replace(b'\n\n', b'\n')


@teller
class PartTwiceEnded(Comparison):
    """The line with its newline, and a newline after it."""

    def output(self):
        told = super().output()
        return told + b'\n' if self.finding().verdict in (DEPARTS, LEFT_OVER) else told


@teller
class AgreesWithAnEmptyLine(Comparison):
    def output(self):
        return super().output() + (b'\n' if self.finding().verdict == AGREES else b'')


@teller
class PartAsItIsShown(Comparison):
    """Standard output has no more of a line than a person is shown."""

    def output(self):
        words, _, line = super().output().partition(b'\n')
        return words + b'\n' + (self.shown(line[:-1]) + b'\n' if line else b'')


@teller
class ExpectedLineTold(Comparison):
    """The line that departs is not told, but what was expected."""

    def output(self):
        finding = self.finding()
        return b'departs\n%s\n' % self.expected[finding.number - 1] if finding.verdict == DEPARTS else super().output()


@teller
class OneLinesAgree(Comparison):
    def agreement(self, finding):
        return [b'compare: %d lines agree' % finding.number]


@teller
class HeaderUncounted(Comparison):
    def agreement(self, finding):
        return super().agreement(finding._replace(number=finding.number - 1))


@teller
class NewlinesCounted(Comparison):
    """A last line without newline agrees, but is not counted."""

    def agreement(self, finding):
        return super().agreement(finding._replace(number=self.answers.count(b'\n')))


def numbered_by(name, tell, more):
    """A mutant that has another number in one of the remarks."""
    def told(self, finding):
        first, *rest = getattr(Comparison, tell)(self, finding)
        return [first.replace(b'line %d ' % finding.number, b'line %d ' % (finding.number + more)), *rest]
    teller(type(name, (Comparison,), {tell: told}))


numbered_by('DepartureFromZero', 'departure', -1)
numbered_by('AbsenceFromZero', 'absence', -1)
numbered_by('SurplusFromZero', 'surplus', -1)
numbered_by('AbsenceAfterNext', 'absence', 1)


def event_by(name, more):
    """A mutant that shows the event of another line."""
    def event(self, finding):
        number = min(max(1, finding.number + more), len(self.expected))
        return Comparison.event(self, finding._replace(number=number))
    teller(type(name, (Comparison,), {'event': event}))


event_by('EventOfTheLineBefore', -1)
event_by('EventOfTheLineAfter', 1)


@teller
class HeaderHasAnEvent(Comparison):
    """That of line 2, if there is one."""

    def event(self, finding):
        return super().event(finding._replace(number=max(2, finding.number)) if self.events else finding)


def shown_by(name, shown):
    teller(type(name, (Comparison,), {'shown': lambda self, line: shown(line)}))


shown_by('ShownWhole', lambda line: line)
shown_by('ShownOneByteMore', lambda line: line[:33] + b'...' if len(line) > SHOWN_BYTES else line)
shown_by('ShownOneByteFewer', lambda line: line[:31] + b'...' if len(line) > SHOWN_BYTES else line)
shown_by('DotsAfterWholeLine', lambda line: line[:SHOWN_BYTES] + b'...' if len(line) >= SHOWN_BYTES else line)
shown_by('DotsAfterOneByteMore', lambda line: line[:SHOWN_BYTES] + b'...' if len(line) > 33 else line)
shown_by('ShownWithoutDots', lambda line: line[:SHOWN_BYTES])
shown_by('ShownUpToNul', lambda line: Comparison.shown(None, line.partition(b'\0')[0]))
shown_by('TabsShownAsSpaces', lambda line: Comparison.shown(None, line.replace(b'\t', b' ')))


@teller
class EventShownWhole(Comparison):
    def event(self, finding):
        shown = super().event(finding)
        return split_lines(self.events)[finding.number - 2] if shown.endswith(b'...') else shown


@teller
class FoundShownWhole(Comparison):
    def was_found(self, finding):
        return b'found: ' + self.part(finding)


@teller
class AbsenceTellsFound(Comparison):
    def absence(self, finding):
        return super().absence(finding) + [self.was_found(finding)]


@teller
class SurplusTellsEvent(Comparison):
    def surplus(self, finding):
        first, *rest = super().surplus(finding)
        return [first, b'event: none', *rest]


# What a program may make of a text that it reads so many bytes at once.

BORDERERS = []


def border_mutant(name, size, taken):
    """A mutant that takes events or answers for another text."""
    def finding(self):
        return Comparison(*taken(self.events, self.answers)).finding()
    BORDERERS.append(type('%s_at_%d' % (name, size), (Comparison,), {'finding': finding, 'border': size}))


def borderer(spoil):
    """Mutants of the answers and of the events at each border; the spoil is given the text in pieces up to a border."""
    def taken(text, size):
        return b''.join(spoil([text[begin:begin + size] for begin in range(0, len(text), size)], size))

    def mutants(size):
        border_mutant('answers_' + spoil.__name__, size, lambda events, answers: (events, taken(answers, size)))
        border_mutant('events_' + spoil.__name__, size, lambda events, answers: (taken(events, size), answers))

    for size in BORDERS:
        mutants(size)
    return spoil


@borderer
def first_piece_only(pieces, size):
    return pieces[:1]


@borderer
def border_ends_line(pieces, size):
    return [piece + b'\n' if len(piece) == size and not piece.endswith(b'\n') else piece for piece in pieces]


@borderer
def newline_before_border_ends_two_lines(pieces, size):
    return [piece + b'\n' if len(piece) == size and piece.endswith(b'\n') else piece for piece in pieces]


@borderer
def newline_after_border_lost(pieces, size):
    return pieces[:1] + [piece[1:] if piece.startswith(b'\n') else piece for piece in pieces[1:]]


@borderer
def line_begun_before_border_lost(pieces, size):
    return [piece[:piece.rfind(b'\n') + 1] for piece in pieces[:-1]] + pieces[-1:]


@borderer
def unfinished_line_up_to_border_lost(pieces, size):
    """Where the text ends in it."""
    last = pieces[-1] if pieces else b''
    return pieces[:-1] + [last[:last.rfind(b'\n') + 1] if len(last) == size else last]
