#!/usr/bin/env python3
"""Times the board alone: nanoseconds a step, and bytes a task.

It makes a folder outside the repository with copies of gomp_board and the crates below it and with one program, whose
text is board/main.rt.txt, has it proved and built there by `rt run`, and runs it:

tasks      one member creates so many tasks, and four members execute them at a barrier
in         the same, each with one `depend` item `in` on one address
own        each with one item `out` on an address of its own
chain      each with one item `inout` on one address, so that they run in the order of creation
tree       a tree of so many tasks, each of which creates two children at most, waits for them and ends
cancel     one member creates so many tasks with an item on an address of their own in a group, and cancels that: all are discarded
turn       one member makes so many tasks one after another, at most 100 of them open at once
barriers   four members meet at so many barriers, and no task is created

It fails if a step of 100,000 tasks takes more than twice as long as one of 1,000, or if after 1,000,000 tasks in turn more than a
tenth more memory is in use than after 10,000, the two largest blocks aside, which hold the stored events and for each task the place
of its creation among them (board/live.c counts what malloc has given out). A step is one operation that the board answers, be it with a wait. The instructions and the memory are less those of a
run with no task. `requested` is what was asked of malloc at the peak, with memory that is taken ahead; `resident` are the
pages that the program has written at the end, when nothing is given back yet. Instructions and `requested` are valgrind's,
and are left out without it, and for more than 100,000, where it takes long.

With one word, the path of a program that was built, it runs that one; with `--keep FOLDER` it builds in a folder that stays."""

import os
import re
import shutil
import subprocess
import sys
import tempfile

BENCH = os.path.dirname(os.path.abspath(__file__))
ROOT = os.path.dirname(BENCH)
SIZES = (1_000, 10_000, 100_000)
KINDS = [(kind, SIZES) for kind in ("tasks", "in", "own", "chain", "tree", "cancel", "turn")]
KINDS.append(("barriers", (10_000, 100_000, 1_000_000)))
IN_TURN = (10_000, 1_000_000)
RUNS = 5
MOST_COUNTED = 100_000
SOURCES = ("src", "specs", "proofs")


def crates_below(name):
    """This crate of the repository and those that it stands on, with their lines of crates.txt."""
    with open(os.path.join(ROOT, "crates.txt")) as file:
        lines = {line.split()[0].rstrip(":"): line for line in file if ":" in line and not line.startswith("#")}
    found, wanted = {}, [name]
    while wanted:
        crate = wanted.pop()
        if crate in lines and crate not in found:
            found[crate] = lines[crate]
            wanted += lines[crate].split(":")[1].split()
    return found


def copy_below(names, folder):
    """Copies these crates of the repository and those that they stand on to a folder that has nothing yet."""
    crates = {}
    for name in names:
        crates.update(crates_below(name))
    for crate in crates:
        for part in SOURCES:
            source = os.path.join(ROOT, "crates", crate, part)
            if os.path.isdir(source):
                shutil.copytree(source, os.path.join(folder, "crates", crate, part))
    with open(os.path.join(folder, "crates.txt"), "w") as file:
        file.writelines(crates.values())
    subprocess.run(["git", "init", "-q", folder], check=True)


def copy_crates(name, folder):
    """The same of one crate; where it lies there."""
    copy_below([name], folder)
    return os.path.join(folder, "crates", name)


def copy_program(name, below, texts, folder):
    """Copies the program whose files are bench/TEXTS/*.rt.txt to such a folder, with these crates and those below them; where it lies."""
    copy_below(below, folder)
    own = os.path.join(folder, "crates", name)
    os.makedirs(os.path.join(own, "src"))
    for file in os.listdir(os.path.join(BENCH, texts)):
        if file.endswith(".rt.txt"):
            shutil.copy(os.path.join(BENCH, texts, file), os.path.join(own, "src", file.removesuffix(".txt")))
    with open(os.path.join(folder, "crates.txt"), "a") as file:
        file.write(f"{name}: {' '.join(below)}\n")
    shutil.copy(os.path.join(ROOT, "HANDLES"), folder)
    return own


def build(folder):
    """Proves and builds the program in this folder, which has nothing yet; where it lies."""
    copy_crates("gomp_board", folder)
    own = os.path.join(folder, "crates", "board_work")
    os.makedirs(os.path.join(own, "src"))
    shutil.copy(os.path.join(BENCH, "board", "main.rt.txt"), os.path.join(own, "src", "main.rt"))
    with open(os.path.join(folder, "crates.txt"), "a") as file:
        file.write("board_work: gomp_types gomp_events gomp_board\n")
    done = subprocess.run(["rt", "run", "--", "tasks", "0"], cwd=own, stdin=subprocess.DEVNULL, capture_output=True, text=True)
    if done.returncode != 0:
        sys.exit(done.stdout + done.stderr)
    return os.path.join(own, "out", "board_work")


def run(program, kind, size):
    """Nanoseconds, steps, and the bytes of memory that the program has written at the end of one run."""
    with subprocess.Popen([program, kind, str(size)], stdin=subprocess.PIPE, stdout=subprocess.PIPE, text=True) as child:
        steps, ended, passes, spent = map(int, child.stdout.readline().split())
        with open(f"/proc/{child.pid}/status") as file:
            written = int(re.search(r"RssAnon:\s+(\d+) kB", file.read())[1]) * 1024
        child.stdin.close()
    expected = {"barriers": (0, 4 * size), "cancel": (1 if size else 0, 4)}.get(kind, (size, 4))
    if child.returncode != 0 or (ended, passes) != expected:
        sys.exit(f"{kind} {size}: {ended} tasks ended, {passes} barriers passed, status {child.returncode}")
    return spent, steps, written


def counted(program, kind, size):
    """Instructions, and bytes asked of malloc at the peak, as valgrind counts them."""
    with tempfile.NamedTemporaryFile("r") as file:
        for tool, pattern in (("callgrind", r"^summary: (\d+)"), ("massif", r"^mem_heap_B=(\d+)")):
            command = ["valgrind", f"--tool={tool}", f"--{tool}-out-file={file.name}", program, kind, str(size)]
            subprocess.run(command, stdin=subprocess.DEVNULL, capture_output=True, check=True)
            with open(file.name) as found:
                yield max(map(int, re.findall(pattern, found.read(), re.M)))


def row(program, kind, size, none):
    """Prints the best of some runs; `none` is what a run with no task has."""
    spent, steps, written = (min(each) for each in zip(*(run(program, kind, size) for _ in range(RUNS))))
    line = f"{kind:9} {size:8} {steps:8} {spent / steps:8.0f} {(written - none[0]) / size:9.0f}"
    if len(none) > 1 and size <= MOST_COUNTED:
        instructions, asked = counted(program, kind, size)
        line += f" {(asked - none[2]) / size:10.0f} {(instructions - none[1]) / steps:13.0f}"
    print(line, flush=True)
    return spent / steps


def in_use(program, folder):
    """Bytes that malloc has given out after tasks in turn, without the two largest blocks, for each number of them."""
    counter = os.path.join(folder, "live.so")
    subprocess.run(["cc", "-O2", "-shared", "-fPIC", "-o", counter, os.path.join(BENCH, "board", "live.c"), "-ldl"], check=True)
    for size in IN_TURN:
        done = subprocess.run([program, "turn", str(size)], env={**os.environ, "LD_PRELOAD": counter}, stdin=subprocess.DEVNULL,
                              capture_output=True, text=True, check=True)
        total, events, places = map(int, re.search(r"^live (\d+) (\d+) (\d+)$", done.stderr, re.M).groups())
        rest = total - events - places
        print(f"in use after {size:,} tasks in turn: {rest:,} bytes, and {events:,} of stored events and {places:,} of tasks' places there")
        yield rest


def measure(program):
    none = [min(run(program, "tasks", 0)[2] for _ in range(RUNS))]
    if shutil.which("valgrind"):
        none += counted(program, "tasks", 0)
    print("work          size    steps  ns/step  resident  requested  instr./step")
    faults = []
    for kind, sizes in KINDS:
        times = [row(program, kind, size, none) for size in sizes]
        if sizes == SIZES and times[-1] > 2 * times[0]:
            faults.append(f"{kind}: a step of 100,000 takes {times[-1] / times[0]:.2f} times as long as one of 1,000")
    with tempfile.TemporaryDirectory() as folder:
        few, many = in_use(program, folder)
    if many > 1.1 * few:
        faults.append(f"turn: {many / few:.2f} times as much memory in use after 1,000,000 tasks as after 10,000")
    if faults:
        sys.exit("\n".join(faults))


def main():
    if len(sys.argv) > 2 and sys.argv[1] == "--keep":
        measure(build(sys.argv[2]))
    elif len(sys.argv) > 1:
        measure(sys.argv[1])
    else:
        with tempfile.TemporaryDirectory() as folder:
            measure(build(folder))


if __name__ == "__main__":
    main()
