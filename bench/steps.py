#!/usr/bin/env python3
"""steps.py [--ratio [PROGRAM PLAIN]]: times `ompteam steps` on texts of its own making (steps a second and peak memory), and compares
what a step costs over the ring with what it costs over the plain shares.

Each text is a team that runs loops of one schedule, or sections constructs, ten lines for each member: a start, eight
calls for the next chunk or section, and the end. There are eight pieces or sections for each member; in a static loop
without a chunk one piece, and in a guided loop about eight, save that a member alone has one. A member without a piece
left is refused, which is a step as well. A member of an ordered loop hands its piece on as it asks for the next: the
members ask in turn, which is the order of their pieces, so none waits.

A second table has one member with many critical names or locks: each name is entered and left, or all are entered before
the first is left; each lock is made, set and unset. Its time should grow with the lines alone.

A third table has the instructions of a step, counted by callgrind, of `ompteam` (its shares on the ring) and of the plain program on the
same texts, and the ratio: a step is the difference of two texts of which one has 10,000 steps more, so the start of the program does not
count. The status is 1 if a ratio is above 1.05. With --ratio it makes this table alone, of the two programs that are named, if any are."""

import os
import re
import shutil
import subprocess
import sys
import tempfile
import time

ROOT = os.path.dirname(os.path.dirname(os.path.abspath(__file__)))
PROGRAM = os.path.join(ROOT, "crates", "gomp_runner", "out", "ompteam")
PLAIN = os.path.join(ROOT, "crates", "gomp_plain_runner", "out", "gomp_plain_runner")
MOST = 1.05


def loop(schedule, iterations, option=""):
    """The calls of a member in a loop with so many iterations for each member."""
    return lambda members: [f"loop {schedule} 0 {iterations * members} 1 nowait{option}"] + ["next"] * 8 + ["end_nowait"]


def sections(count):
    """The calls of a member in a sections construct with so many sections for each member."""
    return lambda members: [f"sections {count * members} nowait"] + ["section_next"] * 8 + ["sections_end_nowait"]


# Loops by schedule and chunk, one of them ordered, each with as many iterations as make about eight pieces for a member,
# and sections.
CONSTRUCTS = [
    ("dynamic 1", loop("dynamic 1", 8)),
    ("static 1", loop("static 1", 8)),
    ("static 0", loop("static 0", 8)),
    ("guided 1", loop("guided 1", 1100)),
    ("dynamic 1 ordered", loop("dynamic 1", 8, " ordered")),
    ("sections", sections(8)),
]


def one_by_one(members):
    """The calls of a member in a run of singles."""
    return ["single"] * 10


def cancelled(members):
    """The calls of a member in a loop that its members cancel, and leave by that."""
    return [f"loop dynamic 1 0 {8 * members} 1 cancellable", "next", "point loop", "next", "point loop", "cancel loop 1", "end_cancel", "resume"]


# What the programs are compared on beside them.
MORE_CONSTRUCTS = [("single", one_by_one), ("cancelled", cancelled)]


def text_of(calls_of, members, lines):
    """A text of about so many lines for a team of so many members."""
    text = [f"team {members}"]
    calls = calls_of(members)
    while len(text) < lines:
        for call in calls:
            text.extend(f"{member} {call}" for member in range(members))
    return "\n".join(text[:lines]) + "\n"


def names(count):
    """Each of so many critical names is entered and left."""
    return [f"0 {call} name{number}" for number in range(count) for call in ("critical", "critical_end")]


def nested_names(count):
    """So many critical names are entered, then left, the last first."""
    return [f"0 critical name{number}" for number in range(count)] + [f"0 critical_end name{number}" for number in reversed(range(count))]


def locks(count):
    """So many simple locks are made, then each is set, and then each is unset."""
    return ["0 lock_init"] * count + [f"0 {call} {number}" for call in ("set", "unset") for number in range(count)]


def nested_locks(count):
    """So many nestable locks are made, then each is set twice and unset twice."""
    calls = ("set_nest", "set_nest", "unset_nest", "unset_nest")
    return ["0 nest_init"] * count + [f"0 {call} {number}" for number in range(count) for call in calls]


HOLDS = [("names", names), ("names, nested", nested_names), ("locks", locks), ("nestable locks", nested_locks)]


def run(path):
    """Seconds and peak memory (bytes) of one run. The memory is the process's own, read when it begins to write: its answer is whole then."""
    began = time.perf_counter()
    with open(path, "rb") as text, subprocess.Popen([PROGRAM, "steps"], stdin=text, stdout=subprocess.PIPE) as child:
        child.stdout.read(1)
        with open(f"/proc/{child.pid}/status", encoding="ascii") as status:
            peak = int(re.search(r"VmHWM:\s+(\d+) kB", status.read())[1]) * 1024
        while child.stdout.read(1 << 20):
            pass
    seconds = time.perf_counter() - began
    if child.returncode != 0:
        sys.exit(f"ompteam ended with {child.returncode}")
    return seconds, peak


def stripped(program, folder, name):
    """A copy of a program without its symbols: callgrind cannot read those that the toolchain's linker writes."""
    copy = os.path.join(folder, name)
    shutil.copy(program, copy)
    subprocess.run(["strip", copy], check=True)
    return copy


def instructions(program, path):
    """How many instructions a run of the program on this text takes, and what it writes."""
    with open(path, "rb") as text:
        run = subprocess.run(["valgrind", "--tool=callgrind", "--callgrind-out-file=/dev/null", program, "steps",
                              "OMP_CANCELLATION=true"], stdin=text, stdout=subprocess.PIPE, stderr=subprocess.PIPE)
    counted = re.search(rb"Collected : (\d+)", run.stderr)
    if run.returncode != 0 or not counted:
        sys.exit(f"callgrind ended with {run.returncode}: {run.stderr.decode(errors='replace')}")
    return int(counted[1]), run.stdout


def compared(program, plain):
    """Prints what a step costs over both programs; the largest ratio."""
    print("construct         members   instructions a step over the ring    plain    ratio")
    largest = 0
    with tempfile.TemporaryDirectory() as folder:
        programs = stripped(program, folder, "ring"), stripped(plain, folder, "plain")
        path = os.path.join(folder, "text.steps")
        for name, calls_of in CONSTRUCTS + MORE_CONSTRUCTS:
            for members in (1, 8, 64):
                costs = [0, 0]
                for lines, sign in ((1_000, -1), (11_000, 1)):
                    with open(path, "w") as text:
                        text.write(text_of(calls_of, members, lines))
                    counts = [instructions(one, path) for one in programs]
                    if counts[0][1] != counts[1][1]:
                        sys.exit(f"{name}, {members} members: the programs' replies differ")
                    costs = [cost + sign * count for cost, (count, _) in zip(costs, counts)]
                largest = max(largest, costs[0] / costs[1])
                print(f"{name:17} {members:7} {costs[0] / 10_000:36.0f} {costs[1] / 10_000:8.0f} {costs[0] / costs[1]:8.3f}")
    print(f"the largest ratio is {largest:.3f}, and at most {MOST} is wanted")
    return largest


def main():
    words = sys.argv[1:]
    if words[:1] == ["--ratio"] and len(words) == 3:
        sys.exit(compared(*words[1:]) > MOST)
    if words not in ([], ["--ratio"]):
        sys.exit(__doc__)
    subprocess.run([os.path.join(ROOT, "ompteam"), "--prove"], check=True)
    subprocess.run(["rt", "run", "--", "--version"], cwd=os.path.dirname(os.path.dirname(PLAIN)), stdin=subprocess.DEVNULL, check=True)
    if not words:
        times()
    sys.exit(compared(PROGRAM, PLAIN) > MOST)


def times():
    """Prints the tables of times and memory."""
    print("construct         members    lines   seconds  steps/s  ns/step   memory/text")
    for name, calls_of in CONSTRUCTS:
        for members in (1, 8, 64):
            for lines in (10_000, 100_000, 900_000):
                row(name, members, text_of(calls_of, members, lines))
    print("names or locks    in all    lines   seconds  steps/s  ns/step   memory/text")
    for name, calls_of in HOLDS:
        for count in (1_000, 10_000, 100_000):
            row(name, count, "team 1\n" + "\n".join(calls_of(count)) + "\n")


def row(name, count, text):
    """Prints the best of three runs."""
    lines = text.count("\n")
    with tempfile.NamedTemporaryFile(suffix=".steps") as file:
        file.write(text.encode())
        file.flush()
        seconds, memory = min(run(file.name) for _ in range(3))
    print(f"{name:17} {count:7} {lines:8} {seconds:9.4f} {lines / seconds:8.0f} {seconds / lines * 1e9:8.0f} {memory / len(text):13.1f}")


if __name__ == "__main__":
    main()
