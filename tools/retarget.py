"""The proved module for another processor: retarget.py MODULE.ll HEADER.ll >OUT.ll

MODULE.ll is the module that the kit hands to its compiler for x86-64. HEADER.ll is what that compiler makes of include/ghixramel.h
for the other processor: its data layout, its triple, and how C there passes each argument and result. These three are put into the
module; its code stays as it is, but for two forms. That keeps its meaning only in a module whose code says nothing of a pointer's width,
so every line has to be of a form listed here: addresses are counted in bytes, memory holds integers and pointers, constant tables hold
integers. A pair with an address in it is read half by half, each where x86-64 has it, and an address that is taken for a number is widened.
Any other line, and any call that C sees otherwise than the module has it, stops the program."""

import re
import sys

INTEGER = r'i(?:1|8|16|32|64)'
SCALAR = rf'(?:{INTEGER}|ptr)'
# Two integers or addresses, as functions of the module return them to one another; and two integers, which memory holds alike everywhere.
PAIR = rf'\{{ {SCALAR}, {SCALAR} \}}'
INTEGERS_TWO = rf'\{{ {INTEGER}, {INTEGER} \}}'
NAME = r'[@%](?:[\w.]+|"[^"]+")'
FUNCTION = r'@(?:[\w.]+|"[^"]+")'
VALUE = rf'(?:{NAME}|-?\d+|true|false)'
EXTENSION = r'(?:signext|zeroext)'
FLAGS = r'(?:(?:inbounds|nuw) )*'
ARGUMENT = rf'{SCALAR}(?: noundef| {EXTENSION})*'
RESULT = rf'(?:noundef |{EXTENSION} )*(?:{SCALAR}|{PAIR}|void)'
PASSED = rf'(?:{ARGUMENT} {VALUE}(?:, {ARGUMENT} {VALUE})*)?'
WHERE = r'label %[\w.]+'

# What x86-64 alone knows of a function: its processor, and how it looks for the end of the stack.
OF_X86_64 = re.compile(r' "(?:target-cpu|target-features|tune-cpu|probe-stack|stack-probe-size)"="[^"]*"')
# Copies and fills, which a compiler does itself or asks of the C library that every program has.
INTRINSIC = r'@llvm\.(?:memmove\.p0\.p0\.i64|memset\.p0\.i64)'

# Integers in arrays and packed structs, whose bytes are the same on every processor with the lowest byte first.
INTEGERS = r'(?:i(?:8|16|32|64)\b|-?\b\d+\b|x\b|c"[^"]*"|zeroinitializer\b|<\{|\}>|[\[\], ])+'
TABLE = rf'{NAME} = (?:private |internal )(?:local_unnamed_addr |unnamed_addr )?constant {INTEGERS}, align \d+'
EXPORT = rf'define (?:dso_local )?({RESULT}) @(\w+)\(({PASSED})\) (#\d+) \{{'

FORMS = [re.compile(form) for form in (
    # the module
    r'',
    r'source_filename = "rattle"',
    r'target (?:datalayout|triple) = "[^"]*"',
    TABLE,
    EXPORT,
    rf'define internal {RESULT} {FUNCTION}\({PASSED}\) #\d+ \{{',
    rf'declare void {INTRINSIC}\([\w ,()]*\) #\d+',
    r'attributes #\d+ = \{(?: [a-z]+(?:\([\w:, ]*\))?| "[a-z-]+"="[\w-]*")* \}',
    r'!(?:\d+|llvm\.ident) = !\{.*\}',
    r'\}',
    # memory
    rf'{NAME} = alloca (?:{SCALAR}|\[\d+ x i8\]), align \d+',
    rf'{NAME} = load (?:{SCALAR}|{PAIR}), ptr {VALUE}, align \d+',
    rf'store {SCALAR} {VALUE}, ptr {VALUE}, align \d+',
    rf'{NAME} = getelementptr {FLAGS}i8, ptr {VALUE}, i64 {VALUE}',
    # whether C passed an address at all: none is zero on each processor
    rf'{NAME} = icmp eq ptr %a\d+, null',
    # numbers
    rf'{NAME} = (?:add|sub|mul|udiv|urem|and|or|xor|shl|lshr) {FLAGS}{INTEGER} {VALUE}, {VALUE}',
    rf'{NAME} = icmp (?:eq|ne|ult|ule) {INTEGER} {VALUE}, {VALUE}',
    rf'{NAME} = (?:zext|trunc) {FLAGS}{INTEGER} {VALUE} to {INTEGER}',
    rf'{NAME} = ptrtoaddr ptr {VALUE} to i64',
    rf'{NAME} = extractvalue {PAIR} {NAME}, [01]',
    # the way through a function
    r'[\w.]+:',
    rf'br {WHERE}',
    rf'br i1 {VALUE}, {WHERE}, {WHERE}',
    rf'switch {INTEGER} {VALUE}, {WHERE} \[',
    rf'{INTEGER} -?\d+, {WHERE}',
    r'\]',
    rf'(?:{NAME} = )?call {RESULT} {FUNCTION}\({PASSED}\)',
    rf'ret (?:void|(?:{SCALAR}|{PAIR}) {VALUE})',
    r'unreachable',
)]


def stop(message):
    sys.exit('retarget: ' + message)


def plain(line):
    """The line without its comment and without what it promises of a value that it reads."""
    line = re.sub(r'\s*;[^"]*$', '', line.strip())
    return re.sub(r'(?:, !(?:noundef|range) !\d+)+$', '', line)


def check_forms(module):
    for number, line in enumerate(module.split('\n'), 1):
        if not any(form.fullmatch(plain(line)) for form in FORMS):
            stop('line %d has a form that is not known to mean the same on another processor: %s' % (number, line.strip()))


def only_line(text, start):
    found = re.findall(r'^%s.*$' % re.escape(start), text, re.M)
    if len(found) != 1:
        stop('%d lines begin with %r, not 1' % (len(found), start))
    return found[0]


def read_by_halves(line):
    """A pair with an address in it: an address is eight bytes there and its second half at the eighth, as the module has stored them."""
    found = re.fullmatch(rf'({NAME}) = load (\{{ ({SCALAR}), ({SCALAR}) \}}), ptr ({VALUE}), align (\d+)', plain(line))
    if not found or re.fullmatch(INTEGERS_TWO, found[2]):
        return line
    name, pair, low, high, place, align = found.groups()
    return '\n'.join((
        f'  {name}.low = load {low}, ptr {place}, align {align}',
        f'  {name}.place = getelementptr i8, ptr {place}, i64 8',
        f'  {name}.high = load {high}, ptr {name}.place, align {align}',
        f'  {name}.half = insertvalue {pair} poison, {low} {name}.low, 0',
        f'  {name} = insertvalue {pair} {name}.half, {high} {name}.high, 1'))


def address_of(line, bits):
    """An address as a number of 64 bits, on a processor whose addresses have so many."""
    found = re.fullmatch(rf'({NAME}) = ptrtoaddr ptr ({VALUE}) to i64', plain(line))
    if not found or bits == 64:
        return line
    return f'  {found[1]}.own = ptrtoaddr ptr {found[2]} to i{bits}\n  {found[1]} = zext i{bits} {found[1]}.own to i64'


def check_pairs(module, header):
    """The second number of a pair stands in memory at the same place: one of 64 bits at a multiple of eight bytes."""
    for text in (module, header):
        if re.search(INTEGERS_TWO, module) and not re.search(r'-i64:64\b', only_line(text, 'target datalayout')):
            stop('numbers of 64 bits are not at multiples of eight bytes')


def passed(slot):
    """An argument's or a result's type, and the target's extension of it, if any."""
    words = [word for word in slot.split() if not word.startswith('%') and word not in ('noundef', 'dso_local')]
    kind = [word for word in words if not re.fullmatch(EXTENSION, word)]
    if len(kind) != 1 or not re.fullmatch('ptr|i32|i64', kind[0]):
        stop('passed in a way that is not known: %r' % slot)
    return kind[0], [word for word in words if word not in kind]


def signature(result, arguments):
    return [passed(result)] + [passed(slot) for slot in arguments.split(', ') if slot]


def declared(header):
    """Name to signature, as C on the target calls the functions of the header."""
    calls = re.findall(r'^declare ([^@]*)@(\w+)\((.*)\)', header, re.M)
    return {name: signature(result, arguments) for result, name, arguments in calls}


def defined(module):
    exports = re.finditer(r'^%s$' % EXPORT, module, re.M)
    return {found[2]: (found, signature(found[1], found[3])) for found in exports}


def as_declared(export, wanted):
    """The first line of an exported function, its result and arguments extended as C on the target does it."""
    (result, extended), *arguments = wanted
    names = re.findall(r'%[\w.]+', export[3])
    slots = [' '.join([kind, 'noundef'] + extension + [name]) for (kind, extension), name in zip(arguments, names)]
    return 'define %s @%s(%s) %s {' % (' '.join(['noundef'] + extended + [result]), export[2], ', '.join(slots), export[4])


def retarget(module, header):
    check_forms(module)
    check_pairs(module, header)
    wanted, exports = declared(header), defined(module)
    if set(wanted) != set(exports):
        stop('not both declared and exported: ' + ' '.join(sorted(set(wanted) ^ set(exports))))
    for name, (export, ours) in exports.items():
        if [kind for kind, _ in ours] != [kind for kind, _ in wanted[name]]:
            stop('%s: the module has it as %s, C as %s' % (name, *(' '.join(k for k, _ in s) for s in (ours, wanted[name]))))
        module = module.replace(export[0] + '\n', as_declared(export, wanted[name]) + '\n')
    addresses = re.search(r'-p:(\d+):', only_line(header, 'target datalayout'))
    bits = int(addresses[1]) if addresses else 64
    module = '\n'.join(address_of(read_by_halves(line), bits) for line in module.split('\n'))
    for start in ('target datalayout', 'target triple'):
        module = module.replace(only_line(module, start), only_line(header, start))
    return OF_X86_64.sub('', module)


def main(module_name, header_name):
    texts = []
    for name in (module_name, header_name):
        with open(name, encoding='utf-8') as file:
            texts.append(file.read())
    sys.stdout.write(retarget(*texts))


if __name__ == '__main__':
    if len(sys.argv) != 3:
        sys.exit(__doc__)
    main(*sys.argv[1:])
