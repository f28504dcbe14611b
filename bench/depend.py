#!/usr/bin/env python3
"""depend.py [GRAPHS [FIRST]]: random graphs of tasks with depend clauses, through `ompteam live`.

Each graph, by its number the seed (from FIRST, 1), has up to 200 tasks in a team of one to four members. Member 0 creates it, some
of it in nested tasks, with items of all five kinds on a few addresses; some tasks are undeferred or final, and some taskwaits have
items. Members ask in random order: who waits asks again, who is given a task executes it. A relation of this program's own, by the
writers and the readers of each address so far, says which tasks one waits for. Checked of each reply:

run          the task was created and not begun, and those that it waits for have ended; it descends from each task that the member
             executes, of its implicit one unless it waits at the region's end; the task of an undeferred creation is `own`, and no other
wait         there is nothing else: what it waits for is not met, and no task may be begun
passed       it is met: the children that a taskwait names, or all, have ended; at the region's end all tasks
task_done    `free` for an undeferred task, `waiting` for others
refused      E28, to a clause with 17 items, and nothing else

At the end each task was executed once. Then the same with a relation that is wrong, one kind read as another, for each of them: each
has to be found. DILLBEAM_ENGINE names another program than that of `./ompteam --prove`. The status is 1 if a check failed."""

import os
import random
import subprocess
import sys
import time

ROOT = os.path.dirname(os.path.dirname(os.path.abspath(__file__)))
ENGINE = os.environ.get("DILLBEAM_ENGINE") or os.path.join(ROOT, "crates", "gomp_runner", "out", "ompteam")
KINDS = ("in", "out", "inout", "inoutset", "mutexinoutset")
SHARED = ("in", "inoutset")     # tasks of one of these kinds do not wait for each other
MOST_TASKS, MOST_ITEMS, MOST_DEPTH = 200, 16, 4
PLANT_GRAPHS = 100
# A kind, and what a wrong relation takes it for.
PLANTS = [("in", "inout"), ("in", "inoutset"), ("out", "in"), ("inout", "inoutset"), ("inoutset", "out"), ("inoutset", "in"),
          ("mutexinoutset", "inoutset"), ("mutexinoutset", "in")]


class Wrong(Exception):
    """A reply that cannot be."""


class Order:
    """Of the children of one task: whom a new one waits for. Each address has its last tasks, which are one writer or a set of
    one kind, and those before these."""

    def __init__(self, read_as):
        self.read_as = read_as
        self.last = {}          # by address: the kind, and the two lists

    def kinds_of(self, items):
        """Each address with its kind; one that is named in two kinds is written."""
        kinds = {}
        for kind, address in items:
            kind = self.read_as.get(kind, kind)
            kinds[address] = kind if kinds.get(address, kind) == kind else "out"
        return kinds

    def named(self, items):
        """The tasks that items wait for at once; whom these wait for have ended before they begin."""
        found = set()
        for address, kind in self.kinds_of(items).items():
            last, tasks, before = self.last.get(address, (None, [], []))
            found.update(before if kind == last and kind in SHARED else tasks)
        return found

    def add(self, task, items):
        for address, kind in self.kinds_of(items).items():
            last, tasks, before = self.last.get(address, (None, [], []))
            if kind == last and kind in SHARED:
                tasks.append(task)
            else:
                self.last[address] = (kind, [task], tasks)


class Task:
    """A task, implicit or not: what it has left to do, and what is known of it."""

    def __init__(self, plan, parent, read_as, number=0):
        self.plan, self.parent, self.number = plan, parent, number
        self.todo = list(reversed(plan.get("body", ())))
        self.order, self.children = Order(read_as), []
        self.is_final = plan.get("final", False) or (parent is not None and parent.is_final)
        self.is_undeferred = plan.get("if0", False) or (parent is not None and parent.is_final)
        self.waits_for = set()
        self.begun = self.ended = False

    def is_free(self):
        return all(task.ended for task in self.waits_for)

    def descends_from(self, other):
        task = self
        while task is not None and task is not other:
            task = task.parent
        return task is other


class Member:
    def __init__(self, implicit):
        self.stack = [implicit]
        self.waits = []         # the calls that are open, the last one at the top; None over it is not at one
        self.is_asked = False   # it was answered `wait`, and nothing has moved since
        self.has_passed = False
        self.beneath = []       # the open calls at which it began its tasks


# ---- graphs

def items_of(rng, addresses, most):
    return [(rng.choice(KINDS), rng.randint(1, addresses)) for _ in range(rng.randint(0, most))]


def body_of(rng, left, addresses, depth):
    """The calls of a task: creations, with a body each, and taskwaits. `left` has the number of tasks that may still be planned."""
    body = []
    for _ in range(rng.randint(2, 60) if depth == 0 else rng.randint(0, 12)):
        if left[0] == 0:
            break
        if rng.random() < 0.06:
            body.append({"call": "taskwait", "items": items_of(rng, addresses, 3)})
            continue
        if rng.random() < 0.01:
            body.append({"call": "many", "items": [(rng.choice(KINDS), k) for k in range(MOST_ITEMS + 1)]})
        left[0] -= 1
        plan = {"call": "task", "items": items_of(rng, addresses, rng.choice((1, 3, 3, MOST_ITEMS))), "if0": rng.random() < 0.08,
                "final": rng.random() < 0.04, "body": []}
        body.append(plan)
        if depth < MOST_DEPTH and rng.random() < 0.15:
            plan["body"] = body_of(rng, left, addresses, depth + 1)
    return body


def words_of(items):
    return "".join(f" {kind} {address}" for kind, address in items)


# ---- one run

class Run:
    def __init__(self, engine, seed, read_as):
        self.engine, self.rng, self.read_as = engine, random.Random(seed), read_as
        self.size = self.rng.randint(1, 4)
        self.tasks, self.unbegun = [], []
        self.arrived = 0
        left = [self.rng.randint(1, MOST_TASKS)]
        plan = {"body": body_of(self.rng, left, self.rng.randint(1, 6), 0)}
        while left[0] > 0 and len(plan["body"]) < 150:
            plan["body"] += body_of(self.rng, left, self.rng.randint(1, 6), 0)
        implicit = [Task(plan if number == 0 else {}, None, read_as) for number in range(self.size)]
        self.members = [Member(task) for task in implicit]
        self.lines = 0

    def say(self, line):
        self.lines += 1
        self.engine.stdin.write(line.encode() + b"\n")
        self.engine.stdin.flush()
        return self.engine.stdout.readline().decode().rstrip("\n")

    def go(self):
        self.expect(self.say(f"team {self.size}"), "ok")
        while True:
            able = [number for number, member in enumerate(self.members) if not member.has_passed and not member.is_asked]
            if not able:
                break
            self.move(self.rng.choice(able))
        self.need(all(member.has_passed for member in self.members), "all members wait")
        self.need(all(task.ended for task in self.tasks), "a task was not executed")

    def move(self, number):
        member = self.members[number]
        if member.waits:
            self.answered(number, member, self.say(f"{number} resume"))
            return
        task = member.stack[-1]
        if task.todo:
            self.call(number, member, task, task.todo.pop())
        elif len(member.stack) > 1:
            self.end(number, member, task)
        else:
            self.arrived += 1
            member.waits.append(("region_end", None))
            self.answered(number, member, self.say(f"{number} region_end"))

    def call(self, number, member, task, plan):
        items = plan["items"]
        if plan["call"] == "many":
            line = self.rng.choice((f"task 1 2{words_of(items)}", f"taskwait{words_of(items)}"))
            self.expect(self.say(f"{number} {line}"), "refused E28 TooManyDepends")
        elif plan["call"] == "taskwait":
            named = task.order.named(items) if items else set(task.children)
            member.waits.append(("taskwait", named))
            self.answered(number, member, self.say(f"{number} taskwait{words_of(items)}"))
        else:
            self.create(number, member, task, plan)

    def create(self, number, member, parent, plan):
        task = Task(plan, parent, self.read_as, len(self.tasks) + 1)
        task.waits_for = parent.order.named(plan["items"])
        parent.order.add(task, plan["items"])
        parent.children.append(task)
        self.tasks.append(task)
        options = " if0" * plan["if0"] + " final" * plan["final"]
        reply = self.say(f"{number} task {task.number * 3} {task.number * 5}{options}{words_of(plan['items'])}")
        if task.is_undeferred:
            member.waits.append(("own", task))
            self.answered(number, member, reply)
        else:
            self.unbegun.append(task)
            self.expect(reply, f"created {task.number}")
            self.moved()

    def end(self, number, member, task):
        member.stack.pop()
        task.ended = True
        self.expect(self.say(f"{number} task_end"), f"task_done {task.number} {'free' if task.is_undeferred else 'waiting'}")
        if not task.is_undeferred:
            member.waits = member.beneath.pop()
        self.moved()

    def answered(self, number, member, reply):
        """The reply to a call that may wait."""
        kind, what = member.waits[-1]
        if reply == "wait":
            self.need(not self.is_met(kind, what), f"member {number} waits at {kind}, though it is met")
            could = [task.number for task in self.unbegun if task.is_free() and self.may_begin(member, task)]
            self.need(not could, f"member {number} waits at {kind}, though it may begin task {could and could[0]}")
            member.is_asked = True
            return
        self.moved()
        if reply == "passed":
            self.need(kind != "own" and self.is_met(kind, what), f"member {number} has passed {kind}, which is not met")
            member.waits.pop()
            member.has_passed = kind == "region_end"
        else:
            self.begin(member, kind, what, reply)

    def begin(self, member, kind, what, reply):
        words = reply.split()
        self.need(words[:1] == ["run"] and len(words) > 1 and words[1].isdigit() and 0 < int(words[1]) <= len(self.tasks), f"'{reply}'")
        task = self.tasks[int(words[1]) - 1]
        is_own = task is what
        self.expect(reply, f"run {task.number} {task.number * 3} {task.number * 5}{' own' if is_own else ''}")
        self.need(not task.begun, f"task {task.number} is begun twice")
        self.need(is_own or not task.is_undeferred, f"task {task.number} is undeferred, and another call's")
        for other in task.waits_for:
            self.need(other.ended, f"task {task.number} is begun before task {other.number}, for which it waits, has ended")
        self.need(is_own or self.may_begin(member, task), f"task {task.number} does not descend from what the member executes")
        task.begun = True
        if is_own:
            member.waits.pop()
        else:
            self.unbegun.remove(task)
            member.beneath.append(member.waits)
            member.waits = []
        member.stack.append(task)

    def is_met(self, kind, what):
        if kind == "own":
            return what.is_free()
        if kind == "taskwait":
            return all(task.ended for task in what)
        return self.arrived == self.size and all(task.ended for task in self.tasks)

    @staticmethod
    def may_begin(member, task):
        """Every task that the member executes is an ancestor; so is its implicit task, unless the member waits at the region's end."""
        at_end = any(kind == "region_end" for calls in [member.waits, *member.beneath] for kind, what in calls)
        return all(task.descends_from(begun) for begun in member.stack[1 if at_end else 0:])

    def moved(self):
        for member in self.members:
            member.is_asked = False

    def expect(self, reply, wanted):
        self.need(reply == wanted, f"the reply is '{reply}', not '{wanted}'")

    @staticmethod
    def need(holds, what):
        if not holds:
            raise Wrong(what)


def started():
    return subprocess.Popen([ENGINE, "live"], stdin=subprocess.PIPE, stdout=subprocess.PIPE)


def stopped(engine):
    engine.stdin.close()
    engine.wait()


def found_by(plant):
    """The first graph whose check fails with a wrong relation, and how; None if there is none."""
    for seed in range(1, PLANT_GRAPHS + 1):
        engine = started()
        try:
            Run(engine, seed, dict([plant])).go()
        except Wrong as wrong:
            return seed, wrong
        finally:
            stopped(engine)
    return None


def main():
    graphs, first = (int(word) for word in (sys.argv[1:] + ["1000", "1"][len(sys.argv) - 1:]))
    began = time.perf_counter()
    engine = started()
    tasks = waiting = lines = failed = 0
    for seed in range(first, first + graphs):
        run = Run(engine, seed, {})
        try:
            run.go()
        except Wrong as wrong:
            print(f"graph {seed}, line {run.lines}: {wrong}")
            failed += 1
            stopped(engine)
            engine = started()
        tasks += len(run.tasks)
        waiting += sum(bool(task.waits_for) for task in run.tasks)
        lines += run.lines
    stopped(engine)
    print(f"{graphs} graphs, {tasks} tasks, {waiting} of them wait for others, {lines} lines, {time.perf_counter() - began:.1f} s, {failed} failed")
    for plant in PLANTS:
        found = found_by(plant)
        print(f"{plant[0]} read as {plant[1]}: " + (f"found in graph {found[0]}: {found[1]}" if found else "not found"))
        failed += found is None
    return failed > 0


if __name__ == "__main__":
    sys.exit(main())
