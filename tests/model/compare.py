"""A program under test against the model: python3 compare.py WHAT COMMAND... [--seed N] [--count N] [--one-in N].

WHAT is trace or watch (logs of both parts in turns), trace24, watch24, trace34 or watch34 (of one alone, for programs
that know no other), or probe, plan, views, burst, marked-bursts, sign-offs or new-marks for the 24-pin part and probe34,
plan34 and so on for its sister; marked_bursts.py, sign_offs.py and new_marks.py say what the lines of the last three are.
Or logs for the program compare, which is given two file names, or log-pairs for a program that reads as many events and
answers as there are from its input: their lengths in decimal, a space between and a newline after, then the bytes of both.
For each it prints a line of verdict, offset and length, a space between. With --one-in, one in so many of all cases is tried,
for a program that an emulator runs.
"""

import os
import random
import subprocess
import sys
import tempfile
import threading
import time
from collections import namedtuple

import bursts
import generate
import generate_marks
import marked_bursts
import new_marks
import probe
import sign_offs
import trace
import views
import watch
from device import PARTS
from judge import Planner
from logs import Comparison
from trace import split_lines

COUNTS = {'trace': 1000, 'watch': 1000, 'probe': 20000, 'plan': 3000, 'views': 3000, 'burst': 3000, 'marked-bursts': 3000,
          'sign-offs': 3000, 'new-marks': 1000, 'logs': 400, 'log-pairs': 4000}
ALONE = 20
LONG_LOGS, LONG_LINES = 5, 4000
# One pair in so many is read from pipes too, which are filled by so many bytes at most; no run takes so many seconds.
PIPED, PIECE, PATIENCE = 16, 37, 60


def unreadable_plans(digits):
    """Lines that the planner's program cannot read, a setting being so many digits; the answer to each is refusal 7."""
    whole = b'0' * digits
    return (b'', b'plan', b'00', whole, whole[1:] + b'\t' + whole, whole + b'\t' + whole + b'0', whole + b' ' + whole,
            whole + b'\t' + whole[1:] + b'g', whole + b'\t' + whole + b'\t', whole + b'\t' + whole + b'\t' + whole,
            whole + b'\t' + whole + b'\r', b'\xff' * digits + b'\t' + whole)


def run(command, given):
    """What the program answers; its remarks for a person are shown only if it fails."""
    done = subprocess.run(command, input=given, stdout=subprocess.PIPE, stderr=subprocess.PIPE, check=False)
    if done.returncode != 0:
        print('exit status %d: %s' % (done.returncode, done.stderr[-500:].decode('latin-1')))
    return done.stdout


def kept(data):
    """The name of a new temporary file that holds the data."""
    with tempfile.NamedTemporaryFile(prefix='compare-', suffix='.txt', delete=False) as file:
        file.write(data)
    return file.name


def first_difference(wanted, got):
    """The number of the first line that differs, counted from 0, None if there is none."""
    if wanted == got:
        return None
    a, b = wanted.split(b'\n'), got.split(b'\n')
    for n, (left, right) in enumerate(zip(a, b)):
        if left != right:
            return n
    return min(len(a), len(b))


def line_of(lines, n):
    return lines[n] if 0 <= n < len(lines) else None


def report(what, given, wanted, got, header):
    """Print the first differing line with its input line."""
    n = first_difference(wanted, got)
    print('%s: line %d, input %r' % (what, n + 1, line_of(split_lines(given), n - header)))
    print('  model   %r' % line_of(wanted.split(b'\n'), n))
    print('  program %r' % line_of(got.split(b'\n'), n))
    print('  input kept in %s' % kept(given))


# A program that answers logs: what it answers, a line that makes a device with these levels, logs, long ones, some edges.
Logs = namedtuple('Logs', 'run_log device_line log long_log edges')
TRACE = Logs(trace.run_log, generate.device_line, generate.trace_log, generate.long_log, ())
WATCH = Logs(watch.run_log, lambda which, choice, levels: generate_marks.watch_device_line(which, choice, levels, levels),
             generate_marks.watch_log, generate_marks.long_watch,
             (b'sign\t00', b'sign\t18\nsign\tff\n', b'device\t2\t000000\nsign\t00\n'))


def compare_log_answers(program, parts, command, rng, count, one_in):
    """Some logs by themselves, the others one after another in one run; each begins with its own device.

    The parts take turns; where there are two, a log may have devices of both.
    """
    run_log = program.run_log

    def log(number, **options):
        return program.log(rng, parts[number % len(parts)], others=len(parts) > 1, **options)

    edges = [b'', b'\n', b'start', b'x' * 33, *program.edges]
    edges += [program.device_line(which, 2, 0).encode() for which in parts]
    edges += [b'x' * 33 + b'\n%s\n' % program.device_line(which, 0, PARTS[which].limit - 1).encode() for which in parts]
    alone = (edges + [log(number, alone=True) for number in range(len(edges), ALONE)])[::one_in]
    for number, one in enumerate(alone):
        wanted, got = run_log(one), run(command, one)
        if wanted != got:
            report('log %d by itself' % number, one, wanted, got, 1)
            return False, len(alone)
    logs = [log(number) for number in range(count)]
    logs += [program.long_log(rng, parts[number % len(parts)], LONG_LINES) for number in range(0, LONG_LOGS, one_in)]
    joined = b''.join(logs)
    wanted, got = run_log(joined), run(command, joined)
    if wanted == got:
        return True, len(alone) + len(logs)
    # The first answer is the header, so the lines of the log come one later.
    left = first_difference(wanted, got) - 1
    for number, one in enumerate(logs):
        lines = one.count(b'\n')
        if left < lines:
            break
        left -= lines
    by_itself = run(command, one)
    if run_log(one) != by_itself:
        report('log %d of those joined' % number, one, run_log(one), by_itself, 1)
    else:
        report('log %d, only when joined' % number, joined, wanted, got, 1)
    return False, len(alone) + len(logs)


def lines_of(what, line, run_lines):
    """A comparison of a program that answers each line by itself, on that many lines: all in one run, the last without its newline."""
    def compare(which, command, rng, count, _one_in):
        given = b''.join(line(rng, which) for _ in range(count))[:-1]
        wanted, got = run_lines(which, given), run(command, given)
        if wanted != got:
            report(what, given, wanted, got, 0)
        return wanted == got, count
    return compare


def compare_plan(which, command, rng, count, one_in):
    """All starts and goals in one run; each answer is judged, none compared."""
    planner, unreadable = Planner(which), unreadable_plans(2 * len(PARTS[which].settings))
    pairs = [generate.setting_pair(rng, which) for _ in range(count)]
    pairs += [generate.malformed_pair(rng, which) for _ in range(count // 10)]
    pairs += list(generate.one_pin_pairs(which))[::one_in]
    rng.shuffle(pairs)
    lines = [b'%s\t%s' % (start.hex().encode(), goal.hex().encode()) for start, goal in pairs]
    got = run(command, b'\n'.join(lines + list(unreadable)) + b'\n').decode('latin-1').split('\n')
    if len(got) != len(lines) + len(unreadable) + 1 or got[-1] != '':
        print('plans: %d lines asked, %d answers' % (len(lines) + len(unreadable), len(got) - 1))
        return False, len(pairs)
    for (start, goal), line, answer in zip(pairs, lines, got):
        wrong = planner.judge(start, goal, answer)
        if wrong:
            print('plan of %r: %s\n  answer %r\n  input kept in %s' % (line, wrong, answer, kept(line + b'\n')))
            return False, len(pairs)
    for line, answer in zip(unreadable, got[len(lines):]):
        if answer != 'refused\t7':
            print('plan of %r: not refused with 7\n  answer %r' % (line, answer))
            return False, len(pairs)
    return True, len(pairs)


def log_pairs(rng, count, one_in):
    return [generate.log_pair(rng, number) for number in range(count)] + list(generate.further_log_pairs(rng))[::one_in]


def report_pair(what, pair, wanted, got):
    """Print where the first difference is, the beginnings of both, and where events and answers are."""
    print('%s: other from byte %d on' % (what, len(os.path.commonprefix((wanted, got)))))
    print('  model   %.300r\n  program %.300r' % (wanted, got))
    print('  events kept in %s, answers in %s' % tuple(map(kept, pair)))


def run_on(command, names, descriptors=()):
    """Standard output and standard error of the program on two files; its exit status says nothing, a signal does."""
    done = subprocess.run(command + names, stdin=subprocess.DEVNULL, stdout=subprocess.PIPE, stderr=subprocess.PIPE,
                          check=False, pass_fds=descriptors, timeout=PATIENCE)
    return (done.stdout, done.stderr) if done.returncode >= 0 else (b'ended by signal %d' % -done.returncode, b'')


def on_files(command, room, pair):
    names = [os.path.join(room, name) for name in ('events', 'answers')]
    for name, data in zip(names, pair):
        with open(name, 'wb') as file:
            file.write(data)
    return run_on(command, names)


def fill(descriptor, pieces):
    """The pieces one by one into a pipe, as far as somebody reads them."""
    with open(descriptor, 'wb', buffering=0) as pipe:
        try:
            for piece in pieces:
                pipe.write(piece)
        except BrokenPipeError:
            pass


def in_pieces(rng, data):
    """The data in small pieces of sizes by chance."""
    begin, pieces = 0, []
    while begin < len(data):
        pieces.append(data[begin:begin + rng.randint(1, PIECE)])
        begin += len(pieces[-1])
    return pieces


def on_pipes(command, rng, pair):
    """So a program is told that seeks, that reads twice, or that takes a short read for the last one."""
    # Of such a pipe a read gives one piece, however much it asks for; it must ask for a whole one.
    pipes = [os.pipe2(os.O_DIRECT | os.O_CLOEXEC) for _ in pair]
    reading = [ends[0] for ends in pipes]
    writers = [threading.Thread(target=fill, args=(ends[1], in_pieces(rng, data))) for ends, data in zip(pipes, pair)]
    for writer in writers:
        writer.start()
    try:
        return run_on(command, ['/dev/fd/%d' % end for end in reading], reading)
    finally:
        # A writer that still waits for a reader ends with this.
        for end in reading:
            os.close(end)
        for writer in writers:
            writer.join()


def compare_logs(command, rng, count, one_in):
    """Each pair of events and answers in a run of its own, from files; some from pipes too."""
    pairs = log_pairs(rng, count, one_in)
    with tempfile.TemporaryDirectory(prefix='compare-') as room:
        for number, pair in enumerate(pairs):
            model = Comparison(*pair)
            wanted = model.output(), model.remarks()
            runs = [('files', on_files(command, room, pair))]
            if number % PIPED == 0:
                runs.append(('pipes', on_pipes(command, rng, pair)))
            for way, got in runs:
                for stream, want, have in zip(('output', 'error'), wanted, got):
                    if want != have:
                        report_pair('pair %d from %s, standard %s' % (number, way, stream), pair, want, have)
                        return False, len(pairs)
    return True, len(pairs)


def compare_log_pairs(command, rng, count, one_in):
    """All pairs of events and answers in one run."""
    pairs = log_pairs(rng, count, one_in)
    given = b''.join(b'%d %d\n%s%s' % (len(events), len(answers), events, answers) for events, answers in pairs)
    got = run(command, given).split(b'\n')
    if len(got) != len(pairs) + 1 or got[-1] != b'':
        print('pairs: %d asked, %d answers' % (len(pairs), len(got) - 1))
        return False, len(pairs)
    for number, (pair, line) in enumerate(zip(pairs, got)):
        wanted = b'%d %d %d' % Comparison(*pair).finding()[:3]
        if line != wanted:
            report_pair('pair %d' % number, pair, wanted, line)
            return False, len(pairs)
    return True, len(pairs)


def options(words):
    """The command without the options that may follow it."""
    chosen = {'--seed': 1, '--count': None, '--one-in': 1}
    while len(words) >= 2 and words[-2] in chosen:
        chosen[words[-2]] = int(words[-1])
        words = words[:-2]
    return words, *chosen.values()


COMPARED = {
    'plan': compare_plan,
    'probe': lines_of('image lines', generate.image_line, probe.run_lines),
    'views': lines_of('view lines', generate.view_line, views.run_lines),
    'burst': lines_of('burst lines', generate.burst_line, bursts.run_lines),
    'marked-bursts': lines_of('marked burst lines', generate_marks.marked_burst_line, marked_bursts.run_lines),
    'sign-offs': lines_of('sign-off lines', generate_marks.sign_off_line, sign_offs.run_lines),
    'new-marks': lines_of('new marks lines', generate_marks.new_marks_line, new_marks.run_lines),
}
# Those that have logs, of one part or of both.
COMPARED_BY_LOGS = {'trace': TRACE, 'watch': WATCH}
# Those that have both parts in one case.
COMPARED_TOGETHER = {'logs': compare_logs, 'log-pairs': compare_log_pairs}


def comparison(what):
    """The name of what is compared without its part, and the comparison; None for one that is unknown."""
    if what in COMPARED_TOGETHER:
        return what, COMPARED_TOGETHER[what]
    name, which = (what[:-2], int(what[-2:])) if what[-2:] in ('24', '34') else (what, None)
    if name in COMPARED_BY_LOGS:
        parts = (which,) if which else tuple(PARTS)
        return name, lambda *given: compare_log_answers(COMPARED_BY_LOGS[name], parts, *given)
    return name, COMPARED.get(name) and (lambda *given: COMPARED[name](which or 24, *given))


def main(words):
    command, seed, count, one_in = options(words[1:])
    name, compare = comparison(words[0] if words else '')
    if not compare or not command:
        print(__doc__)
        return 2
    began = time.monotonic()
    agree, done = compare(command, random.Random(seed), (COUNTS[name] if count is None else count) // one_in, one_in)
    print('%s: seed %d, %d cases, %s, %.1f s' % (
        words[0], seed, done, 'all agree' if agree else 'DIFFERENT', time.monotonic() - began))
    return 0 if agree else 1


if __name__ == '__main__':
    sys.exit(main(sys.argv[1:]))
