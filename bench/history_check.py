#!/usr/bin/env python3
"""Reads the regions that the program of soak/ prints, and says what in them docs/ does not allow.

history_check.py [FILE]         reads the file, or standard input; the last line is 'R regions, E events, F faults'
history_check.py --self-test FILE    alters the regions of the file in many ways, one at a time; each has to be found

It is written from docs/RULES.md, docs/FORMATS.md and docs/PROMISES.md alone. Of each region there is the size, the calls of each member
with their replies, and the history. A clock that all members share ticks before each call and after it; so what one member did
before another is known, whatever the history says. Three things are checked: the history by itself (history_laws.py), that it has just
the events that the calls of each member give, in an order that the clock allows (here), and the replies by themselves
(reply_laws.py)."""

import random
import re
import sys

from history_laws import History
from reply_laws import check_replies

TOKEN = re.compile(r"[A-Za-z_]\w*|-?\d+|[{}()\[\],:]")
ARRIVALS = {"Barrier": "Barrier", "LoopEnd": "ShareEnd", "LoopEndCancel": "ShareEnd", "SectionsEnd": "ShareEnd",
            "SectionsEndCancel": "ShareEnd", "RegionEnd": "RegionEnd"}
WAITS = {**ARRIVALS, "Taskwait": "children", "GroupEnd": "group", "TaskCreate": "creation"}
STARTS = ("LoopStart", "SectionsStart", "SingleStart", "SingleCopyStart")


def read_debug(text):
    """A value that Rust's Debug printed: numbers, booleans, lists, and pairs of a name and its fields, which are a dict or a list."""
    tokens = TOKEN.findall(text)
    value, _ = value_at(tokens, 0)
    return value


def value_at(tokens, at):
    token = tokens[at]
    if token == "[":
        return items_at(tokens, at + 1, "]")
    if token[0].isdigit() or token[0] == "-":
        return int(token), at + 1
    if token in ("true", "false"):
        return token == "true", at + 1
    opens = tokens[at + 1] if at + 1 < len(tokens) else ""
    if opens == "(":
        fields, at = items_at(tokens, at + 2, ")")
        return (token, fields), at
    if opens == "{":
        fields, at = {}, at + 2
        while tokens[at] != "}":
            fields[tokens[at]], at = value_at(tokens, at + 2)
            at += tokens[at] == ","
        return (token, fields), at + 1
    return (token, []), at + 1


def items_at(tokens, at, end):
    items = []
    while tokens[at] != end:
        item, at = value_at(tokens, at)
        items.append(item)
        at += tokens[at] == ","
    return items, at + 1


class Call:
    """A call of a member, or a mark that it left while it held a name or a lock."""

    def __init__(self, line):
        _, member, before, after, text = line.split(" ", 4)
        self.member, self.before, self.after = int(member), int(before), int(after)
        call, reply = text.split(" => ")
        (self.name, self.fields), (self.reply, self.answer) = read_debug(call), read_debug(reply)
        self.share = None       # the number of its share, of a call that starts one or is made in one
        self.task = 0           # the task in which it was made, 0 for the implicit one
        self.waited = None      # for what it waited, if it was answered `Passed`
        self.next_place = None  # where the history has the next event of its member


class Event:
    """An event of a history, at its place there, with the call that gave it."""

    def __init__(self, line, place):
        self.name, self.fields = read_debug(line.split(" ", 1)[1])
        self.place, self.member, self.call = place, self.fields.get("member"), None

    def __getitem__(self, field):
        return self.fields[field]


class Region:
    """A region as it was printed, and its faults."""

    def __init__(self, lines):
        _, number, size, cancellation = lines[0].split()
        self.number, self.size, self.cancellation = int(number), int(size), cancellation == "true"
        self.faults, self.parts, self.part = [], set(), "text"     # the parts of the check that have found a fault
        self.calls = [[] for _ in range(self.size)]
        self.events = []
        for line in lines[1:]:
            kind = line.split(" ", 1)[0]
            if kind == "said":
                call = Call(line)
                self.calls[call.member].append(call)
            elif kind == "event":
                self.events.append(Event(line, len(self.events)))
            elif kind not in ("plan", "over"):
                self.fault(line)
        if lines[-1] != "over":
            self.fault("the region has no end")

    def each_call(self):
        """The calls of all members, of each in its order."""
        return (call for calls in self.calls for call in calls)

    def fault(self, text):
        self.parts.add(self.part)
        self.faults.append(f"region {self.number}: {text}")

    def check(self):
        if self.faults:     # no history to look at: the first refusal is the cause
            refused = sorted((call.before, call.member, call.name, call.answer) for call in self.each_call() if call.reply == "Refused")
            self.fault(f"the first refusal is {refused[:1]}")
            return self.faults
        history = History(self)
        for self.part, check in (("calls", self.check_calls), ("history", history.check), ("replies", lambda: check_replies(self, history))):
            try:
                check()
            except (AttributeError, KeyError, IndexError, TypeError, ValueError) as error:
                self.fault(f"what is printed cannot be followed: {error!r}")
        return self.faults

    def check_calls(self):
        for member in range(self.size):
            Follower(self, member).follow()
        self.check_clock()

    def check_clock(self):
        """No event stands behind one of a call that began only after its own call had ended."""
        latest = -1
        for event in self.events:
            if event.name == "Discard" and event.place:
                event.call = self.events[event.place - 1].call
            if event.call is None:
                self.fault(f"no call gives event {event.place}, {event.name} {event.fields}")
                continue
            if event.call.after < latest:
                self.fault(f"event {event.place}, {event.name} {event.fields}, stands behind one of a later call")
            latest = max(latest, event.call.before)


class Follower:
    """Goes along the calls of a member, and gives each of its events the call that gave it."""

    def __init__(self, region, member):
        self.region, self.member = region, member
        self.events = [event for event in region.events if event.member == member and event.name != "Discard"]
        self.at, self.shares = 0, 0
        self.inside = 0         # 1 if a wait for the words of a single was cut short: it may be inside that, or not
        self.open = None        # the wait that the next call resumes
        self.frames = []        # the tasks that the member executes, each with the wait at which it was started

    def fault(self, text):
        self.region.fault(f"member {self.member}: {text}")

    def follow(self):
        for call in self.region.calls[self.member]:
            if call.name != "Mark":
                call.task = self.frames[-1][0] if self.frames else 0
                self.step(call)
            call.next_place = self.events[self.at].place if self.at < len(self.events) else None
        for event in self.events[self.at:]:
            self.fault(f"no call gives event {event.place}, {event.name} {event.fields}")
        if self.frames or self.open:
            self.fault("a task was not ended")

    def step(self, call):
        if (call.name == "Resume") != (self.open is not None):
            self.fault(f"{call.name} does not follow from the reply before it")
        if call.name in STARTS:
            call.share, self.shares = self.shares, self.shares + 1
        elif not self.frames and self.shares:
            call.share = self.shares - 1
        wait, self.open = (self.open if call.name == "Resume" else WAITS.get(call.name)), None
        self.begin(call)
        getattr(self, "on_" + call.reply.lower(), self.on_other)(call, wait)

    def begin(self, call):
        """The events that come before those of the reply."""
        if call.name in ARRIVALS:
            kind = ARRIVALS[call.name]
            arrival = self.given(call, "Arrive", lambda event: event["tag"][1]["kind"][0] == kind, call.reply == "Cancelled")
            if arrival and arrival["tag"][1]["shares"] not in (self.shares, self.shares + self.inside):
                self.fault(f"it arrived with {arrival['tag'][1]['shares']} shares, and had started {self.shares}")
        if call.name == "TaskCreate":
            desc = call.fields[0]
            self.given(call, "Create", lambda event: event["desc"] == desc, call.reply == "Dropped")
        if call.name == "GroupStart":
            self.given(call, "Group")
        if call.name == "SingleCopyEnd":
            self.given(call, "Put", lambda event: event["payload"] == call.fields[0] and event["share"] == call.share)

    def given(self, call, name, fits=lambda event: True, may_lack=False):
        """The member's next event, which has to be one of this name that fits."""
        event = self.events[self.at] if self.at < len(self.events) else None
        if event and event.name == name and fits(event):
            event.call, self.at = call, self.at + 1
            return event
        if not may_lack:
            self.fault(f"{call.name}, answered {call.reply}, at {call.before} has no event {name}")
        return None

    def on_run(self, call, wait):
        run = call.answer
        if wait is None:
            self.fault(f"{call.name} was answered by a task")
        self.given(call, "Start", lambda event: event["task"] == run["task"])
        self.frames.append((run["task"], None if run["own"] else wait))

    def on_taskdone(self, call, _):
        task, wait = self.frames.pop() if self.frames else (None, None)
        if (task, wait is not None) != (call.answer["task"], call.answer["waiting"]):
            self.fault(f"the end of task {task} was answered {call.answer}")
        self.given(call, "Done", lambda event: event["task"] == call.answer["task"])
        self.open = wait

    def on_passed(self, call, wait):
        if wait in ARRIVALS.values():
            self.given(call, "Pass")
        elif wait == "group":
            self.given(call, "GroupEnd")
        call.waited = wait

    def on_copied(self, call, _):
        payload = call.answer[0]
        self.given(call, "Got", lambda event: event["payload"] == payload and event["share"] == call.share)

    def on_created(self, call, _):
        event = self.events[self.at - 1] if self.at else None
        if event is None or event.name != "Create" or event["task"] != call.answer[0]:
            self.fault(f"task {call.answer[0]} was not created then")

    def on_cancelling(self, call, _):
        if call.name == "Cancel" and call.fields["clause"] and call.answer[0]:
            scope = {"Parallel": "Region", "Taskgroup": "OneGroup"}.get(call.fields["kind"][0])
            self.given(call, "Cancel", lambda event: event["scope"][0] == scope, True)

    def on_cancelled(self, call, _):
        if call.name in STARTS:     # it would have waited, and has not started its share, unless that is one whose words it waits for inside
            call.share, self.shares = None, self.shares - 1
            self.inside = int(call.name == "SingleCopyStart")

    def on_refused(self, call, _):
        self.fault(f"{call.name} {call.fields} was refused: {call.answer}")

    on_wait = on_stopped = on_refused

    def on_other(self, call, wait):
        if wait and not (wait == "creation" and call.reply == "Dropped") and call.reply != "Cancelled":
            self.fault(f"{call.name} was answered {call.reply} while it waited")


def regions_of(text):
    """The lines of each region."""
    lines = []
    for line in text.splitlines():
        if line.startswith("region ") and lines:
            yield lines
            lines = []
        lines.append(line)
    if lines:
        yield lines


def check_lines(lines):
    """The events and faults of a region, and which parts of the check have found one."""
    try:
        region = Region(lines)
    except (KeyError, IndexError, ValueError) as error:
        return 0, [f"{lines[0]}: cannot be read: {error!r}"], {"text"}
    return len(region.events), region.check(), region.parts


def check_text(text):
    """The regions, events and faults of a text."""
    regions, events, faults = 0, 0, []
    for lines in regions_of(text):
        more, found, _ = check_lines(lines)
        regions, events, faults = regions + 1, events + more, faults + found
    return regions, events, faults


def main():
    if sys.argv[1:2] == ["--self-test"]:
        from history_edits import self_test
        with open(sys.argv[2]) as file:
            sys.exit(self_test(list(regions_of(file.read())), lambda lines: check_lines(lines)[2], random.Random(1)))
    text = open(sys.argv[1]).read() if len(sys.argv) > 1 else sys.stdin.read()
    regions, events, faults = check_text(text)
    for fault in faults:
        print(fault)
    print(f"{regions} regions, {events} events, {len(faults)} faults")
    sys.exit(1 if faults else 0)


if __name__ == "__main__":
    main()
