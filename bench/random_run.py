#!/usr/bin/env python3
"""random_run.py [--steps N | --seconds T] [--seed S] [--members M] [PROGRAM..]: runs ompteam on random texts, and knows none of the replies.

A contract that allows want of memory or a fault of a stream also allows to claim one, at some size or value. So each call, construct
and range of values is met here with ample memory, and nothing of that kind may come:

- no reply is a refusal for want of memory (E37), and no process ends with `no memory`, an input or an output fault;
- the status is 0, standard error has the names of the ignored words alone, and a text whose line is bad has `bad line N:` and status 1;
- `steps` answers the lines of a text as `live` has, `trace` writes JSON of it, and `check` counts its lines.

Of several programs the first is asked. Each other one is then run on the same words and texts, also on what was said to `live`, and may
write nothing else to its output and standard error, nor end with another status.

Texts are made by random_team.py, which asks `live` and chooses the next calls by the replies, in teams of every size, some of them
cancelled; by random_long.py, which knows no replies, for very long ones; and by random_words.py, as are scripts and words NAME=VALUE. A
run of any length has the long texts and a team of each size; then it makes N random steps (1,000,000). The same seed gives the same run.
With --seconds it has short texts alone, and no more once so many seconds have passed. With --members no team is larger than M, of 1 to 64.

PROGRAM is that which `./ompteam --prove` has built, if none is named. For each fault a line says in which text it was found, and where
that text is kept; the last line is 'N texts, S steps, M faults'. The status is 1 if there is a fault."""

import argparse
import itertools
import json
import os
import random
import select
import subprocess
import sys
import tempfile
import time
from collections import deque
from concurrent.futures import ProcessPoolExecutor

sys.dont_write_bytecode = True      # the folder stays as it is

from random_long import LIMIT, long_answers, many_calls, many_events, padded, script
from random_team import Team
from random_words import any_text, bad_step, chance, comment, settings, size

ROOT = os.path.dirname(os.path.dirname(os.path.abspath(__file__)))
PROGRAM = os.path.join(ROOT, 'crates', 'gomp_runner', 'out', 'ompteam')
MOST_MEMBERS = 64
MOST_FAULTS = 10
MOST_LINES, MOST_LINES_SHORT = 16_383, 255    # about so many lines a text; the other number if the time is given
LONG_TEXTS = 4
LONG_TALK = 2 ** 25
WHOLE_JSON = 2 ** 22    # bytes of a trace that is read as a whole; of a longer one some lines are read
SECONDS = 600
NEWLINE = b'\n'


class Fault(Exception):
    """What a program did and may not do."""


def need(holds, what):
    if not holds:
        raise Fault(what)


def shown(value):
    return repr(value if len(value) < 200 else value[:100] + b' .. ' + value[-90:])


def as_text(lines):
    return ''.join(line + '\n' for line in lines).encode('latin-1')


def bytes_of(words):
    return [word if isinstance(word, bytes) else word.encode() for word in words]


# ---- processes

def run_of(program, command, words, text):
    return subprocess.run([program, command, *bytes_of(words)], input=text, capture_output=True, timeout=SECONDS)


def ended(programs, command, words, text, notes, status=0):
    """Standard output of a run that has to end with this status and these notes on standard error, by each of these programs."""
    run = run_of(programs[0], command, words, text)
    lacks = run.stdout.find(b'refused E37')
    need(lacks < 0, f'reply {run.stdout.count(NEWLINE, 0, lacks) + 1} of {command} is a refusal for want of memory')
    err = notes.encode()
    need(run.stderr == err, f'{command} says {shown(run.stderr)}, not {shown(err)}, and its status is {run.returncode}')
    need(run.returncode == status, f'{command} ends with status {run.returncode}, not {status}: {shown(run.stdout)}')
    for program in programs[1:]:
        same(program, command, words, text, (run.stdout, err, status))
    return run.stdout


def same(program, command, words, text, wanted):
    """The program writes the output and the notes that the first one wrote, and ends with its status."""
    run = run_of(program, command, words, text)
    out, err, status = wanted
    name = f'{command} of {os.path.basename(program)}'
    need((run.stderr, run.returncode) == (err, status),
         f'{name} says {shown(run.stderr)} and ends with status {run.returncode}, and the first program {shown(err)} and {status}')
    if run.stdout != out:
        lines = itertools.zip_longest(run.stdout.split(NEWLINE), out.split(NEWLINE), fillvalue=b'')
        number, (one, other) = next(line for line in enumerate(lines, 1) if line[1][0] != line[1][1])
        raise Fault(f'line {number} of {name} is {shown(one)}, and {shown(other)} of the first program')


class Talk:
    """A run of `ompteam live`, the lines that were sent to it, and its answers."""

    def __init__(self, program, words):
        self.run = subprocess.Popen([program, 'live', *bytes_of(words)], stdin=subprocess.PIPE, stdout=subprocess.PIPE,
                                    stderr=subprocess.PIPE)
        self.lines, self.answers, self.unread = [], [], b''

    def say(self, lines, count):
        """Sends lines, of which so many have an answer; these answers."""
        self.lines += lines
        try:
            os.write(self.run.stdin.fileno(), as_text(lines))
        except BrokenPipeError:
            pass
        while self.unread.count(b'\n') < count:
            ready, _, _ = select.select([self.run.stdout], [], [], SECONDS)
            need(ready, f'no answer to {lines} in {SECONDS} seconds')
            heard = os.read(self.run.stdout.fileno(), 65_536)
            if not heard:
                err = self.run.stderr.read()
                raise Fault(f'the talk ends at {lines}, with status {self.run.wait()}, and says {shown(err)}')
            self.unread += heard
        *answers, rest = self.unread.decode().split('\n')
        need(len(answers) == count and not rest, f'{len(answers)} answers to {lines}')
        self.unread = b''
        self.answers += answers
        for line, answer in zip(lines[-count:], answers):
            need(not answer.startswith('refused E37'), f'live answers {answer} to {line!r}')
        return answers

    def close(self, notes):
        """Ends the input; nothing more may be said than these notes."""
        out, err = self.run.communicate(timeout=SECONDS)
        need((out, err, self.run.returncode) == (b'', notes.encode(), 0),
             f'the talk ends with status {self.run.returncode} and says {shown(out)} and {shown(err)}, not {shown(notes.encode())}')

    def kill(self):
        self.run.kill()
        self.run.communicate()


# ---- texts

class Text:
    """The text of this number: it is made, checked as it is made, and depends on the seed and the number alone."""

    def __init__(self, programs, seed, members, place, most):
        self.programs, self.place, self.most = programs, place, most
        self.rng = random.Random(f'{seed} {place}')
        self.sizes = list(range(1, members + 1))
        random.Random(seed).shuffle(self.sizes)
        self.kept = b''     # what is checked now

    def made(self):
        """How many steps the text had, and its fault, or None."""
        make = self.kind()
        try:
            return make(), None
        except (Fault, subprocess.TimeoutExpired) as fault:
            with tempfile.NamedTemporaryFile(prefix='random_run-', delete=False) as file:
                file.write(self.kept)
            return 1, f'text {self.place}: {fault} ({file.name})'

    def kind(self):
        """What makes the text: the first ones are the long ones, and a region for each size of a team."""
        rng, kind = self.rng, self.rng.random()
        if self.place < LONG_TEXTS:
            return (lambda: self.long(many_events(rng)), lambda: self.long(many_calls(rng, rng.randint(12_000, 25_000))),
                    lambda: self.long(long_answers(rng)), lambda: self.script(script(rng, rng.randint(160_000, 250_000))))[self.place]
        if kind < 0.9 or self.place < LONG_TEXTS + MOST_MEMBERS:
            return lambda: self.region(20 + size(rng, self.most))
        if kind < 0.94:
            return lambda: self.script(script(rng, size(rng, self.most // 2)))
        return self.words if kind < 0.97 else lambda: self.bad(1 + size(rng, 255))

    def play(self, talk, members, lines, cancellation):
        """A team's region in a talk: its lines, and the answers to those that are not skipped."""
        rng, first = self.rng, len(talk.lines)
        team = Team(rng, members, lines, cancellation)
        replies = talk.say([f'team {members}'], 1)
        need(replies == ['ok'], f'{replies} to team {members}')
        while asked := team.batch():
            said = [self.written(f'{member.number} {member.call()}') for member in asked] + team.strange()
            answers = talk.say(team.skipped() + said, len(said))
            replies += answers
            for member, answer in zip(asked, answers):
                need(not answer.startswith('bad line'), f'{answer} to {said}')
                team.heard(member, answer)
        return talk.lines[first:], replies

    def written(self, line):
        """A line as it may also be written."""
        if not chance(self.rng, 0.01):
            return line
        return self.rng.choice((' ' + line, '00' + line, line.replace(' ', '  '), line + ' '))

    def region(self, lines):
        """A region, asked line by line and then as a text; then other teams in the same talk."""
        cancellation = chance(self.rng, 0.6)
        words, notes = settings(self.rng, cancellation)
        talk = Talk(self.programs[0], words)
        try:
            said, replies = self.play(talk, self.sizes[self.place % len(self.sizes)], lines, cancellation)
            steps = len(replies) - 1
            while chance(self.rng, 0.4):
                self.disturb(talk)
                steps += len(self.play(talk, self.rng.randint(1, len(self.sizes)), size(self.rng, lines), cancellation)[1]) - 1
            self.kept = as_text(talk.lines)
            talk.close(notes)
            for program in self.programs[1:]:
                same(program, 'live', words, self.kept, (as_text(talk.answers), notes.encode(), 0))
        finally:
            self.kept = as_text(talk.lines)
            talk.kill()
        self.text(said, replies[1:], words, notes)
        return steps

    def disturb(self, talk):
        """Lines of a talk that are bad, or name a team that no one may have; each leaves the team that stands."""
        for _ in range(self.rng.randint(0, 3)):
            line = bad_step(self.rng)
            answers = talk.say([line], 1)
            need(answers[0].startswith(f'bad line {len(talk.lines)}: '), f'{answers} to {line!r}, line {len(talk.lines)}')
        if chance(self.rng, 0.2):
            answers = talk.say([f'team {self.rng.choice((0, 65, 4_294_967_295))}'], 1)
            need(answers == ['refused E38 BadTeam'], f'{answers} to a bad team')

    def text(self, lines, replies, words=(), notes=''):
        """A text of steps, to which these are the replies: so `steps` answers, `check` counts its lines, and `trace` writes JSON."""
        self.kept = text = as_text(lines)[:-1 if chance(self.rng, 0.1) else None]
        out = ended(self.programs, 'steps', words, text, notes)
        need(out == as_text(replies), f'steps answers {shown(out)}, and live {shown(as_text(replies))}')
        counted = ended(self.programs, 'check', words, text, notes)
        need(counted == b'steps %d\n' % len(replies), f'check says {shown(counted)} of {len(replies)} steps')
        traced = ended(self.programs, 'trace', words, text, notes)
        self.read_trace(traced)
        if self.most == MOST_LINES and (self.place == LONG_TEXTS or chance(self.rng, 0.01)):
            self.pad(lines, out, traced, words, notes)

    def read_trace(self, traced):
        head, tail = b'{"traceEvents":[\n', b'\n]}\n'
        need(traced.startswith(head) and traced.endswith(tail), f'trace writes {shown(traced)}')
        try:
            if len(traced) <= WHOLE_JSON:
                json.loads(traced)
                return
            for _ in range(5_000):
                begin = traced.rfind(NEWLINE, 0, self.rng.randrange(len(head), len(traced) - len(tail))) + 1
                json.loads(traced[begin:traced.find(NEWLINE, begin)].removesuffix(b','))
        except ValueError as error:
            raise Fault(f'trace writes no JSON: {error}') from error

    def pad(self, lines, out, traced, words, notes):
        """The same with comments, as long as a text may be, or nearly; and as a talk longer than that."""
        room = LIMIT - len(as_text(lines)) - self.rng.choice((0, 1, size(self.rng, 100_000)))
        self.kept = text = as_text(padded(self.rng, lines, room))
        for command, wanted in (('steps', out), ('trace', traced)):
            need(ended(self.programs, command, words, text, notes) == wanted, f'{command} differs with comments')
        longer = as_text(padded(self.rng, lines, LONG_TALK + size(self.rng, LIMIT)))
        need(ended(self.programs, 'live', words, longer, notes) == b'ok\n' + out, f'live differs in {len(longer)} bytes')

    def long(self, lines):
        """A long text, of steps alone."""
        self.kept = text = as_text(lines)
        need(len(text) <= LIMIT, f'a long text of {len(text)} bytes')
        words, notes = settings(self.rng, True)
        out = ended(self.programs, 'live', words, text, notes).decode().split('\n')
        need(out[0] == 'ok' and len(out) == len(lines) + 1, f'live answers {len(out) - 1} of {len(lines)} lines')
        self.text(lines, out[1:-1], words, notes)
        return len(lines)

    def bad(self, lines):
        """A text of a bad line, or of a team that no one may have."""
        words, notes = settings(self.rng, True)
        said = ['team 3'] + ['0 barrier', comment(self.rng)] * lines
        team = self.rng.choice((0, 65, 4_294_967_295))
        if chance(self.rng, 0.3):
            self.kept = text = as_text([f'team {team}', *said[1:]])
            for command in ('steps', 'trace'):
                out = ended(self.programs, command, words, text, notes, 2)
                need(out == b'refused E38 BadTeam\n', f'{command} says {shown(out)} of a team of {team}')
            return lines
        at = self.rng.randint(1, len(said) - 1)
        said[at] = bad_step(self.rng)
        self.kept = text = as_text(said)
        outs = {ended(self.programs, command, words, text, notes, 1) for command in ('steps', 'check', 'trace')}
        need(len(outs) == 1 and outs.pop().startswith(b'bad line %d: ' % (at + 1)), f'bad line {at + 1} is said otherwise')
        return lines

    def script(self, lines):
        """A script of these lines, and comments in it; at times its last block is open. A long one is as long as a text may be."""
        words, notes = settings(self.rng, True)
        wanted, status = b'script %d\n' % (len(lines) - 1), 0
        room = LIMIT - len(as_text(lines)) if self.place < LONG_TEXTS else size(self.rng, 5_000)
        lines = padded(self.rng, lines, room - size(self.rng, 100) - len('group '))
        if chance(self.rng, 0.1):
            lines.append('group')
            wanted, status = b'bad line %d: block not closed\n' % len(lines), 1
        self.kept = text = as_text(lines)
        out = ended(self.programs, 'check', words, text, notes, status)
        need(out == wanted, f'check says {shown(out)}, not {shown(wanted)}')
        return len(lines)

    def words(self):
        """A word that is not NAME=VALUE, or is not UTF-8, among others that are."""
        words, _ = settings(self.rng, True)
        word = any_text(self.rng, 1 + size(self.rng, 300)) or 'x'
        fault = f"error: the word '{word}' is not NAME=VALUE\n"
        if chance(self.rng, 0.2):
            word, fault = word.encode() + b'\xff=1', 'error: a word of the command line is not UTF-8\n'
        words.insert(self.rng.randint(0, len(words)), word)
        self.kept = repr(words).encode()
        command = self.rng.choice(('steps', 'live', 'check', 'trace'))
        out = ended(self.programs, command, words, b'team 1\n', fault, 1)
        need(out == b'', f'{command} says {shown(out)}')
        return 1


# ---- all of them

def made(*text):
    return Text(*text).made()


def results(programs, seed, members, first, most):
    """Of each text from the first on, in its order, its steps and its fault; one has about this many lines at most. Some are made at
    the same time, each by a process of its own."""
    jobs = os.cpu_count() or 1
    with ProcessPoolExecutor(jobs) as pool:
        pending = deque()
        try:
            for place in itertools.count(first):
                pending.append(pool.submit(made, programs, seed, members, place, most))
                if len(pending) > 4 * jobs:
                    yield pending.popleft().result()
        finally:
            for text in pending:
                text.cancel()


def checked(programs, seed, members, steps, seconds):
    """How many texts and steps there were until so many random steps were made, or so many seconds had passed, and how many faults, of
    which each is printed."""
    texts = done = faults = random_steps = 0
    end = time.perf_counter() + seconds if seconds else None
    first, most = (LONG_TEXTS, MOST_LINES_SHORT) if seconds else (0, MOST_LINES)
    for made_steps, fault in results(programs, seed, members, first, most):
        texts, done = texts + 1, done + made_steps
        if first + texts > LONG_TEXTS:
            random_steps += made_steps
        if fault:
            faults += 1
            print(fault, flush=True)
        if end:
            over = time.perf_counter() > end
        else:
            over = texts >= LONG_TEXTS + MOST_MEMBERS and random_steps >= steps
        if over or faults == MOST_FAULTS:
            return texts, done, faults


def main():
    words = argparse.ArgumentParser(description=__doc__.split('\n')[0])
    words.add_argument('--steps', type=int, default=1_000_000)
    words.add_argument('--seconds', type=float)
    words.add_argument('--seed', type=int, default=random.SystemRandom().getrandbits(32))
    words.add_argument('--members', type=int, choices=range(1, MOST_MEMBERS + 1), metavar='M', default=MOST_MEMBERS)
    words.add_argument('programs', metavar='PROGRAM', nargs='*', default=[PROGRAM])
    given = words.parse_args()
    for program in given.programs:
        if not os.path.exists(program):
            sys.exit(f'{program} is not there: `./ompteam --prove` builds it')
    print(f'seed {given.seed}', flush=True)
    began = time.perf_counter()
    texts, done, faults = checked(given.programs, given.seed, given.members, given.steps, given.seconds)
    print(f'{texts} texts, {done} steps, {faults} faults ({time.perf_counter() - began:.0f} s)')
    return 1 if faults else 0


if __name__ == '__main__':
    sys.exit(main())
