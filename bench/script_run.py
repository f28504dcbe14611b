#!/usr/bin/env python3
"""script_run.py [--runs N] [--seconds T] [PROGRAM..]: runs each script of examples/ and of the rows in tests/ on threads, and compares what that comes to.
script_run.py --self-test: alters an answer in each place, and reads each statement wrong; each has to be found. It runs no program.

Each script that `ompteam run` accepts is run N times (20) on threads, with its own words and, in turn, with those of each other row
beside them: so its team has other sizes, and its loops other schedules. `threads`, `total` and `taken`, or the refusal, have to be those
of turns on one thread (script_turns.py), as have the status and the names of the words that are ignored; and what the script's row says
has to be that too. If these differ by the order of the turns, the script depends on the schedule, and DEPENDS has to name it with the
reason; with those words its totals are not compared.

Of several programs each runs every script in its turn. After T seconds (45) no run begins any more, and one has 10 s, so it ends within
a minute; all scripts have to have been run once by then. PROGRAM is that which `./ompteam --prove` has built, if none is named. For each
fault a line says in which script it was found, and with which words; the last line is 'N passed, M failed', of scripts. The status is 1
if any failed."""

import argparse
import concurrent.futures
import glob
import importlib.machinery
import importlib.util
import os
import re
import subprocess
import sys
import time

sys.dont_write_bytecode = True      # the folder stays as it is

from script_turns import BLOCKS, Stuck, outcomes, parsed, team_size, variables

ROOT = os.path.dirname(os.path.dirname(os.path.abspath(__file__)))
PROGRAM = os.path.join(ROOT, 'crates', 'gomp_runner', 'out', 'ompteam')
SECONDS = 10            # for one run
LONGEST = 1000          # bytes of a script of a row of `check`, which may be for a text and not for a region
# Statements that are read wrong: each but a taskwait and a point, which change no total.
READ_WRONG = (*BLOCKS, 'barrier', 'cancel', 'add')
# Scripts that come to something else in other orders of turns, by the name of their row, and why.
DEPENDS = {}


class Script:
    """A script, with the words of its row and what the row says that it comes to, None if it says nothing of that."""

    def __init__(self, name, text, words, answer=None):
        self.name, self.text, self.words, self.answer = name, text, words, answer
        self.asked, self.statements = parsed(text)
        self.known = {}         # what it comes to, by what it reads of the control variables

    def comes_to(self, words):
        """What the turns come to, each outcome once, and what is said of words."""
        values, ignored = variables(words)
        key = (team_size(self.asked, values), b'cancel ' in self.text and values['OMP_CANCELLATION'],
               b'parallel ' in self.text and (values['OMP_MAX_ACTIVE_LEVELS'], values['OMP_THREAD_LIMIT']),
               b' runtime ' in self.text and values['OMP_SCHEDULE'])
        if key not in self.known:
            self.known[key] = outcomes(self.asked, self.statements, values)
        return self.known[key], ''.join(f'ignored {name}\n' for name in ignored)

    def is_wrong_without(self, word):
        """Whether the turns in one order come to something else than the row says, or to no end, if they pass over these statements."""
        try:
            return self.answer is not None and outcomes(self.asked, self.statements, variables(self.words)[0], 1, word) != {self.answer[:2]}
        except Stuck:
            return True


# ---- the scripts

def rows_reader():
    """.ci/processes, which reads the rows."""
    path = os.path.join(ROOT, '.ci', 'processes')
    loader = importlib.machinery.SourceFileLoader('processes', path)
    module = importlib.util.module_from_spec(importlib.util.spec_from_loader('processes', loader))
    loader.exec_module(module)
    return module


def scripts():
    """Each script that `run` accepts: of the rows that run one, and of those that call a text one."""
    reader, found = rows_reader(), []
    written = [row for path in sorted(glob.glob(os.path.join(ROOT, 'tests', '*.rows'))) for row in reader.rows_of_file(path)]
    for row in [*written, *reader.example_rows()]:
        command, *words = row.words or [None]
        if command == 'run' and re.match(rb'threads |refused ', row.out):
            found.append(Script(row.name, row.text, words, (row.out.decode(), row.status, row.err.decode())))
        elif command == 'check' and re.match(rb'script ', row.out) and len(row.text) <= LONGEST:
            found.append(Script(row.name, row.text, []))
    if not found:
        sys.exit('there are no scripts in tests/ and examples/')
    return found


def words_of(found):
    """The words of all rows, each once: they are tried with each script."""
    return list(dict.fromkeys(tuple(script.words) for script in found))


# ---- what is compared

def difference(wanted, notes, answer):
    """How the answer of a run (its output, status and standard error) differs from what the turns come to; None if it does not."""
    out, status, err = answer
    if (out, status) not in wanted:
        return f'it answers {out!r}, status {status}, and the turns {sorted(wanted)}'
    return None if err == notes else f'standard error is {err!r}, not {notes!r}'


def reading_fault(script):
    """What the turns come to otherwise than the row says, or by their order though nobody has said why; None if nothing."""
    wanted, notes = script.comes_to(script.words)
    if len(wanted) > 1 and script.name not in DEPENDS:
        return f'it depends on the order of the turns: {sorted(wanted)}'
    if len(wanted) == 1 and script.name in DEPENDS:
        return f'it does not depend on the order of the turns, though that is named: {DEPENDS[script.name]}'
    return difference(wanted, notes, script.answer) if script.answer and len(wanted) == 1 else None


def answer_of(program, script, words):
    try:
        run = subprocess.run(['ompteam', 'run', *words], executable=program, input=script.text, capture_output=True, timeout=SECONDS)
    except subprocess.TimeoutExpired:
        return f'none after {SECONDS} s', None, ''
    return run.stdout.decode(errors='replace'), run.returncode, run.stderr.decode(errors='replace')


class Runs:
    """The runs of all scripts: how many there were, and the faults by the name of the script."""

    def __init__(self, programs, found, until):
        self.programs, self.found, self.until = programs, found, until
        self.words = words_of(found)
        self.made = self.left_out = 0
        self.ran, self.faults = set(), {}

    def round(self, number, workers):
        """Runs each script once, if time is left: whether all were run."""
        program = self.programs[number % len(self.programs)]
        runs = [(script, program, self.words_in(script, number, place)) for place, script in enumerate(self.found)]
        for (script, program, words), answer in zip(runs, workers.map(self.answer, runs)):
            if answer is None:
                return False
            wanted, notes = script.comes_to(words)
            self.made += 1
            self.ran.add(script.name)
            self.left_out += len(wanted) > 1
            fault = difference(wanted, notes, answer)
            if fault:
                self.faults.setdefault(script.name, f'{os.path.basename(program)} run {" ".join(words)}: {fault}')
        return True

    def words_in(self, script, number, place):
        """With each program at first the script's own words, then others behind them, in turn."""
        others = [words for words in self.words if list(words) != script.words]
        return script.words + list(others[(number + place) % len(others)] if number >= len(self.programs) else ())

    def answer(self, run):
        script, program, words = run
        return answer_of(program, script, words) if time.monotonic() < self.until else None


def main_run(programs, runs, seconds):
    found = scripts()
    made = Runs(programs, found, time.monotonic() + seconds)
    for script in found:
        fault = reading_fault(script)
        if fault:
            made.faults[script.name] = fault
    rounds = 0
    with concurrent.futures.ThreadPoolExecutor(len(os.sched_getaffinity(0))) as workers:
        while rounds < runs and made.round(rounds, workers):
            rounds += 1
    for name, fault in made.faults.items():
        print(f'{name}: {fault}')
    for name, reason in DEPENDS.items():
        print(f'{name} depends on the schedule: {reason}')
    print(f'{made.made} runs of {len(found)} scripts, {rounds} of each, with {len(made.words)} lists of words; '
          f'{made.left_out} whose totals are not compared')
    if rounds == 0:
        print(f'not each script was run once in {seconds} s')
    failed = len(made.faults) + (rounds == 0)
    print(f'{len(made.ran - set(made.faults))} passed, {failed} failed')
    return 1 if failed else 0


# ---- alterations

def numbers_off(answer):
    """The answer with one of its numbers changed, each in its turn and in three ways."""
    out, status, err = answer
    for place in re.finditer(r'-?\d+', out):
        value = int(place[0])
        for other in (value + 1, value - 1, -value if value else 7):
            yield f'{other} for {value}', (out[:place.start()] + str(other) + out[place.end():], status, err)


def lines_off(answer):
    """The answer with a line left out, doubled, or before the one above it, and with a letter of it changed."""
    out, status, err = answer
    lines = out.splitlines(keepends=True)
    for at, line in enumerate(lines):
        yield f'without {line!r}', (''.join(lines[:at] + lines[at + 1:]), status, err)
        yield f'{line!r} twice', (''.join(lines[:at] + [line] + lines[at:]), status, err)
        yield f'{line!r} with another letter', (out.replace(line, 'x' + line[1:], 1), status, err)
        if at:
            yield f'{line!r} too early', (''.join(lines[:at - 1] + [line, lines[at - 1]] + lines[at + 1:]), status, err)
    yield 'without its last line feed', (out[:-1], status, err)


def ends_off(answer):
    """The answer with another status, and with a line on standard error, or one less."""
    out, status, err = answer
    for other in range(4):
        if other != status:
            yield f'status {other}', (out, other, err)
    yield 'a word is ignored', (out, status, err + 'ignored OMP_STACKSIZE\n')
    if err:
        yield 'an ignored word is not named', (out, status, ''.join(err.splitlines(keepends=True)[1:]))


def self_test():
    """Tries each alteration of each answer, and each wrong reading; the status of the program."""
    found, lost = scripts(), 0
    tried = {edit: [0, 0] for edit in (numbers_off, lines_off, ends_off)}
    for script in found:
        wanted, notes = script.comes_to(script.words)
        for edit, counts in tried.items():
            for name, altered in edit((*min(wanted), notes)):
                counts[0] += 1
                if difference(wanted, notes, altered):
                    counts[1] += 1
                else:
                    print(f'{script.name}: {name}: NOT FOUND')
    for edit, (count, seen) in tried.items():
        print(f'{edit.__doc__.splitlines()[0]} {seen} of {count} found')
        lost += count - seen
    for word in READ_WRONG:
        where = sum(script.is_wrong_without(word) for script in found)
        print(f'`{word}` passed over: ' + (f'found by {where} scripts' if where else 'NOT FOUND'))
        lost += not where
    faults = [f'{script.name}: {fault}' for script in found for fault in [reading_fault(script)] if fault]
    print(*faults, sep='\n', end='\n' * bool(faults))
    failed = lost + len(faults)
    print(f'{len(found) - len(faults)} scripts come to what their rows say, {len(faults)} do not; {lost} alterations were not found')
    return 1 if failed else 0


def main():
    parser = argparse.ArgumentParser(description=__doc__.split('\n')[0])
    parser.add_argument('--runs', type=int, default=20)
    parser.add_argument('--seconds', type=float, default=45)
    parser.add_argument('--self-test', action='store_true')
    parser.add_argument('programs', nargs='*', metavar='PROGRAM')
    args = parser.parse_args()
    if args.self_test:
        return self_test()
    return main_run(args.programs or [PROGRAM], args.runs, args.seconds)


if __name__ == '__main__':
    sys.exit(main())
