"""What a host asks: a register's byte, INT and the drives of one state image for each line of standard input."""

from device import Device
from probe import IMAGE_WIDTHS, line_form, main, read_fields
from trace import UNREADABLE, split_lines

# An image, register number.
WIDTHS = IMAGE_WIDTHS + (8,)
LINE = line_form(WIDTHS)


def read_line(line):
    """(image, register number), None if unreadable."""
    return read_fields(LINE, line)


def show(told, form):
    """What was told in its form, a refusal in its place."""
    if isinstance(told, tuple) and told[0] == 'refused':
        return 'refused\t%d' % told[1]
    return form % told


def answer_to(which, read, device_class=Device):
    """The answer line to a line read; the byte is asked first, so that the rest shows if asking changed something."""
    if read is None:
        return UNREADABLE
    image, number = read
    device = device_class(which, image)
    return '\t'.join((show(device.told_byte(number), '%02x'), show(device.told_int(), '%d'),
                      show(device.told_drives(), '%0{0}x\t%0{0}x'.format(device.part.digits)))).encode() + b'\n'


def run_lines(which, lines, device_class=Device):
    return b''.join(answer_to(which, read_line(line), device_class) for line in split_lines(lines))


if __name__ == '__main__':
    main(run_lines)
