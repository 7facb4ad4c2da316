"""Loss marks beside a device, as the rules state them: what sets a pin's mark, and the sign-off, which alone clears one."""

from device import ARMED, PARTS, RESET, STOP, Device

# What a sign-off answers of a pin that may not be signed off.
NOT_AT_REST = 13


class Marked(Device):
    """A device with its marks beside it: the pins that are marked, and those whose healthy level is 1.

    The device does what it does without them; but a mark set that is none is a broken image too.
    """

    def __init__(self, which, image, marks, healthy):
        super().__init__(which, image)
        self.marks, self.healthy = marks, healthy

    # New marks.

    @classmethod
    def make(cls, which, choice, levels, number, healthy):
        """A device at power-on with new marks beside it, or refusal 2."""
        device, new = Device.make(which, choice, levels, number), cls.new_marks(which, healthy)
        for made in (device, new):
            if made == ('refused', 2):
                return made
        return cls(which, device.image(), *new)

    @classmethod
    def new_marks(cls, which, healthy):
        """(marks, healthy set), or refusal 2 of a healthy set with a pin past the last."""
        if cls.healthy_too_large(which, healthy):
            return ('refused', 2)
        return cls.first_marks(which, healthy), cls.kept_healthy(which, healthy)

    @classmethod
    def renewed(cls, which, healthy, sets):
        """(refusal, both sets after) of new marks where others lie: refused, these stay as they are."""
        new = cls.new_marks(which, healthy)
        return (new[1], sets) if new[0] == 'refused' else (0, new)

    @classmethod
    def healthy_too_large(cls, which, healthy):
        return healthy >= PARTS[which].limit

    @classmethod
    def first_marks(cls, which, healthy):
        """Every pin is marked until it is signed off."""
        return PARTS[which].limit - 1

    @classmethod
    def kept_healthy(cls, which, healthy):
        return healthy

    # Refusals of a step.

    def refusal(self, kind, arg):
        """Marks are judged with the image: before the kind and the argument."""
        return 3 if self.marks_broken() else super().refusal(kind, arg)

    def marks_broken(self):
        """Refusal 3: either set with a pin past the last."""
        return self.set_broken(self.marks) or self.healthy_broken(self.healthy)

    def set_broken(self, marks):
        return marks >= self.part.limit

    def healthy_broken(self, healthy):
        return healthy >= self.part.limit

    # Events.

    def step(self, kind, arg):
        """The device's step, and the marks that it sets; refused, it sets none."""
        before, reset = self.status_seen(), self.resets(kind)
        answer = super().step(kind, arg)
        if not isinstance(answer, tuple):
            self.note(before, reset)
        return answer

    def status_seen(self):
        """The status bits as they are kept."""
        return list(self.status)

    def resets(self, kind):
        """Asked before the event: the hardware reset, or the STOP that an armed general call waits for."""
        return kind == RESET or kind == STOP and self.bus == ARMED

    def note(self, before, reset):
        """Each pin by itself; no event clears a mark."""
        after = self.status_seen()
        for i in range(self.part.pins):
            if self.rises(i, before[i], after[i]) or reset and self.lost_by_reset(i, before[i]):
                self.set_mark(i)

    def rises(self, i, before, after):
        """A status bit that was 0 and is 1."""
        return after and not before

    def lost_by_reset(self, i, before):
        """A status bit that a reset finds at 1, and ends."""
        return before

    def set_mark(self, i):
        self.marks |= 1 << i

    def is_marked(self, i):
        return self.marks >> i & 1 == 1

    # The sign-off of one pin.

    def sign_off(self, pin):
        """0, and the pin is not marked, whether it was or not; or the refusal, and the marks are as before."""
        number = self.sign_off_refusal(pin)
        if number == 0:
            self.clear_mark(pin)
        return number

    def sign_off_refusal(self, pin):
        """Image and marks first, then the pin's number, then what the pin is at; 0 if it is signed off."""
        if self.sign_off_broken():
            return 3
        if self.pin_unknown(pin):
            return 2
        if not self.at_rest(pin):
            return NOT_AT_REST
        return 0

    def sign_off_broken(self):
        return self.broken or self.marks_broken()

    def pin_unknown(self, pin):
        return pin >= self.part.pins

    def at_rest(self, pin):
        """No status bit, and the level at the pin the healthy one, marked or not."""
        return not self.status[pin] and self.seen_level(pin) == self.healthy_level(pin)

    def seen_level(self, pin):
        """As it is at the pin: polarity inverts what a fetch shows, not this."""
        return self.pins[pin].level

    def healthy_level(self, pin):
        return self.healthy >> pin & 1 == 1

    def clear_mark(self, pin):
        self.marks &= ~(1 << pin)
