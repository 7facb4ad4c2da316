"""Whether the standard corpus tells each one-rule mutant from the model: python3 try_mutants.py [seed] [--all].

A mutant of the device is tried on each part by itself, on cases of that part. One that only images can show is tried on
images alone, one that only views or only bursts can show on those alone, unless --all has the logs, for views and bursts
the images too, run through it. Mutants of a log's reader are tried on logs of both parts, those of an image line's reader
on such lines of each, those of the planner on plans, those of the program compare on events with answers.

Mutants of a device with marks are tried on each part too, on all the places by which they say that they are told: logs of
watch, marked bursts, sign-offs, new marks. Those of the program watch are tried on logs of both parts.
"""

import random
import sys
import time

import bursts
import generate
import generate_marks
import marked_bursts
import new_marks
import probe
import sign_offs
import views
import watch
from device import PARTS, Device
from judge import Planner
from logs import Comparison
from mark_mutants import BURSTS, MARKED, NEW_MARKS, PLACES, SIGN_OFFS, WATCHERS, WATCHES
from marks import Marked
from mutants import (BORDERERS, COMPARERS, LINE_READERS, MUTANTS, ONLY_BY_BURSTS, ONLY_BY_IMAGES, ONLY_BY_VIEWS, PLANNERS,
                     READERS, SURVIVORS, TELLERS)
from trace import MODEL, Session, answers, read_log

# Of each part.
TRACES = 340
FURTHER_TRACES = 750
IMAGE_LINES = 6000
VIEW_LINES = 3000
BURST_LINES = 3000
PLANS = 3000
WATCH_LOGS = 300
MARKED_BURST_LINES = 2000
SIGN_OFF_LINES = 2000
NEW_MARKS_LINES = 300
# Of both in turns.
READER_TRACES = 900
WATCHER_LOGS = 400
# Of both together, as many as compare.py has run by a program.
LOG_PAIRS = 400


class Cases:
    """Inputs read once, each with the model's answers; both are made only as far as some mutant asks for them."""

    def __init__(self, inputs, run, model):
        self.inputs, self.run, self.model = iter(inputs), run, model
        self.made = []

    def each(self):
        """(input, answers) of those made before, then of the others."""
        yield from list(self.made)
        for given in self.inputs:
            self.made.append((given, list(self.run(given, self.model))))
            yield self.made[-1]

    def tell(self, mutant):
        """Whether some case tells the mutant from the model; a mutant that breaks down is told too."""
        for place, (given, wanted) in enumerate(self.each()):
            try:
                told = any(got != want for got, want in zip(self.run(given, mutant), wanted))
            except (IndexError, TypeError, AttributeError, ValueError, KeyError):
                told = True
            if told:
                # What tells one mutant tells others: it comes first from now on.
                self.made.insert(0, self.made.pop(place))
                return True
        return False


def trace_cases(rng, which, count):
    """Logs that begin with a device of the part, the model's answers line by line."""
    logs = [generate.trace_log(rng, which, alone=n % 10 == 9) for n in range(count)]
    return Cases(map(read_log, logs), lambda log, cls: answers(log, Session({**MODEL, which: cls})), Device)


def reader_cases(rng, count):
    """Logs of both parts in turns, by whole sessions."""
    logs = (generate.trace_log(rng, list(PARTS)[n % len(PARTS)], alone=n % 10 == 9) for n in range(count))
    return Cases(map(read_log, logs), lambda log, session: answers(log, session()), Session)


def line_cases(rng, which, count, line, module, model=Device):
    """Lines of one of the line programs, each with its one answer."""
    lines = (line(rng, which)[:-1] for _ in range(count))
    return Cases(map(module.read_line, lines), lambda read, cls: [module.answer_to(which, read, cls)], model)


def watch_cases(rng, which, count):
    """Logs of watch that begin with a device of the part, the model's answers line by line."""
    logs = (generate_marks.watch_log(rng, which, alone=n % 10 == 9) for n in range(count))
    return Cases(map(watch.read_log, logs), lambda log, cls: answers(log, watch.Watch({**watch.MODEL, which: cls})), Marked)


def watcher_cases(rng, count):
    """Logs of watch of both parts in turns, by whole sessions, each with all that is written."""
    logs = (generate_marks.watch_log(rng, list(PARTS)[n % len(PARTS)], alone=n % 4 != 3) for n in range(count))
    return Cases(logs, lambda log, session: [b''.join(session().texts(log))], watch.Watch)


def line_reader_cases(rng, which, count):
    """Image lines, each with what is read of it."""
    lines = (generate.image_line(rng, which)[:-1] for _ in range(count))
    return Cases(lines, lambda line, read: [read(line)], probe.read_line)


def plan_case(rng, which):
    """(start, goal, room, answer): what is refused, and whether the answer passes."""
    if rng.random() < 0.1:
        start, goal, answer = generate.padded_plan(rng, which)
        return start, goal, 2 * PARTS[which].most_writes, answer
    pair = generate.malformed_pair if rng.random() < 0.4 else generate.setting_pair
    return *pair(rng, which), generate.plan_room(rng, which), 'refused\t0'


def plan_cases(rng, which, count):
    def run(case, cls):
        start, goal, room, answer = case
        return cls(which).refusal(start, goal, room), cls(which).judge(start, goal, answer, room)
    return Cases((plan_case(rng, which) for _ in range(count)), run, Planner)


def found(comparison):
    """What a host of the library is told."""
    return comparison.finding()[:3]


def written(comparison):
    return comparison.output(), comparison.remarks()


def pair_cases(pairs, told):
    """Events and answers, with what is told of them."""
    return Cases(pairs, lambda pair, cls: told(cls(*pair)), Comparison)


class Corpus:
    """What the mutants of one part are tried on."""

    def __init__(self, seed, which):
        rng = random.Random('%d pins %d' % (which, seed))
        self.seed, self.which = seed, which
        self.logs = trace_cases(rng, which, TRACES)
        # Of seeds of their own, so that what is asked of one does not move the others.
        self.images, self.views, self.bursts = (
            line_cases(random.Random('%s %d pins %d' % (name, which, seed)), which, count, line, module)
            for name, count, line, module in (('images', IMAGE_LINES, generate.image_line, probe),
                                              ('views', VIEW_LINES, generate.view_line, views),
                                              ('bursts', BURST_LINES, generate.burst_line, bursts)))
        self.lines = line_reader_cases(random.Random('lines %d pins %d' % (which, seed)), which, IMAGE_LINES)
        self.plans = plan_cases(random.Random('plans %d pins %d' % (which, seed)), which, PLANS)

    def further_logs(self):
        return trace_cases(random.Random('further %d pins %d' % (self.which, self.seed)), self.which, FURTHER_TRACES)


def mark_corpus(seed, which):
    """What the mutants of one part with marks are tried on."""
    def named(place):
        return random.Random('%s %d pins %d' % (place, which, seed))
    return {
        WATCHES: watch_cases(named(WATCHES), which, WATCH_LOGS),
        **{place: line_cases(named(place), which, count, line, module, Marked) for place, count, line, module in (
            (BURSTS, MARKED_BURST_LINES, generate_marks.marked_burst_line, marked_bursts),
            (SIGN_OFFS, SIGN_OFF_LINES, generate_marks.sign_off_line, sign_offs),
            (NEW_MARKS, NEW_MARKS_LINES, generate_marks.new_marks_line, new_marks))}}


class Verdicts:
    """What told each mutant; one with marks is alive where a place that it says does not tell it."""

    def __init__(self, everything):
        self.everything = everything
        self.by = {place: [] for place in ('traces', 'images', 'views', 'bursts', 'readers', 'lines', 'plans', 'pairs',
                                           'marked', 'watchers', *PLACES)}
        self.alive, self.wrong = [], []

    def put(self, place, name, told):
        (self.by[place] if told else self.alive).append(name)

    def try_device(self, cls, corpus):
        name, listed = '%s of %d' % (cls.__name__, corpus.which), cls.__name__
        for place, only, cases in (('views', ONLY_BY_VIEWS, corpus.views), ('bursts', ONLY_BY_BURSTS, corpus.bursts)):
            if listed in only:
                self.put(place, name, cases.tell(cls))
                if self.everything and (corpus.logs.tell(cls) or corpus.images.tell(cls)):
                    self.wrong.append('%s: not only %s tell it' % (name, place))
                return
        by_image = listed in ONLY_BY_IMAGES
        traced = (self.everything or not by_image) and corpus.logs.tell(cls)
        imaged = (by_image or not traced) and corpus.images.tell(cls)
        self.put('traces' if traced else 'images', name, traced or imaged)
        if by_image and not imaged:
            self.wrong.append('%s: no image tells it' % name)
        # One log in a hundred tells the rarest of the others, so that one seed in six asks for more logs than these.
        if imaged and not by_image and not corpus.further_logs().tell(cls):
            self.wrong.append('%s: no log tells it' % name)

    def try_marked(self, cls, which, corpus):
        name = '%s of %d' % (cls.__name__, which)
        told = {place: corpus[place].tell(cls) for place in cls.places}
        for place in told:
            self.put(place, '%s by %s' % (name, place), told[place])
        if all(told.values()):
            self.by['marked'].append(name)
        if self.everything:
            self.wrong += ['%s: %s tell it too' % (name, place) for place in PLACES
                           if place not in cls.places and corpus[place].tell(cls)]

    def try_comparisons(self, seed):
        rng = random.Random('pairs %d' % seed)
        pairs = [generate.log_pair(rng, number) for number in range(LOG_PAIRS)]
        for mutants, told in ((COMPARERS, found), (TELLERS, written)):
            cases = pair_cases(pairs, told)
            for cls in mutants:
                self.put('pairs', cls.__name__, cases.tell(cls))
        borders = {border: pair_cases(generate.border_pairs(border), found) for border in generate.BORDERS}
        for cls in BORDERERS:
            self.put('pairs', cls.__name__, borders[cls.border].tell(cls))


def main(seed, everything):
    began = time.monotonic()
    names = [cls.__name__ for cls in MUTANTS]
    assert ONLY_BY_IMAGES | ONLY_BY_VIEWS | ONLY_BY_BURSTS | set(SURVIVORS) <= set(names)
    trials = [(cls.__name__, which) for cls in MUTANTS + PLANNERS for which in cls.on]
    assert len(set(trials)) == len(trials)
    comparisons = [cls.__name__ for cls in COMPARERS + TELLERS + BORDERERS]
    assert len(set(comparisons)) == len(comparisons)
    marked = [(cls.__name__, which) for cls in MARKED for which in cls.on]
    assert len(set(marked)) == len(marked) and all(cls.places for cls in MARKED)
    watchers = [cls.__name__ for cls in WATCHERS]
    assert len(set(watchers)) == len(watchers)
    count = len(trials) + len(READERS) + len(LINE_READERS) * len(PARTS) + len(comparisons) + len(marked) + len(watchers)
    verdicts = Verdicts(everything)
    for which in PARTS:
        corpus = Corpus(seed, which)
        for cls in MUTANTS:
            if which in cls.on:
                verdicts.try_device(cls, corpus)
        for cls in PLANNERS:
            if which in cls.on:
                verdicts.put('plans', '%s of %d' % (cls.__name__, which), corpus.plans.tell(cls))
        for read in LINE_READERS:
            verdicts.put('lines', '%s of %d' % (read.__name__, which), corpus.lines.tell(read))
        with_marks = mark_corpus(seed, which)
        for cls in MARKED:
            if which in cls.on:
                verdicts.try_marked(cls, which, with_marks)
    logs = reader_cases(random.Random('readers %d' % seed), READER_TRACES)
    for cls in READERS:
        verdicts.put('readers', cls.__name__, logs.tell(cls))
    verdicts.try_comparisons(seed)
    logs = watcher_cases(random.Random('watchers %d' % seed), WATCHER_LOGS)
    for cls in WATCHERS:
        verdicts.put('watchers', cls.__name__, logs.tell(cls))
    by = verdicts.by
    print('seed %d: %d mutants, %d caught by traces, %d of readers by traces, %d by lines, only by images %d, by views %d, '
          'by bursts %d, by plans %d, by pairs %d, with marks %d, of watch %d, %d survive, %.1f s' % (
              seed, count, len(by['traces']), len(by['readers']), len(by['lines']), len(by['images']), len(by['views']),
              len(by['bursts']), len(by['plans']), len(by['pairs']), len(by['marked']), len(by['watchers']),
              len(verdicts.alive), time.monotonic() - began))
    print('with marks, by each that can show them: %s' % ', '.join(
        '%d by %s' % (len(by[place]), place) for place in PLACES))
    for name in verdicts.alive:
        print('survives: %s: %s' % (name, SURVIVORS.get(name, 'not expected')))
    for line in verdicts.wrong:
        print(line)
    if everything:
        for place in ('images', 'views', 'bursts'):
            print('only by %s: %s' % (place, ' '.join(by[place])))
    return 1 if verdicts.wrong or any(name not in SURVIVORS for name in verdicts.alive) else 0


if __name__ == '__main__':
    words = [word for word in sys.argv[1:] if word != '--all']
    sys.exit(main(int(words[0]) if words else 1, '--all' in sys.argv[1:]))
