#!/usr/bin/env python3
"""Times a claim of gomp_ring from C, beside a bare atomic addition and libgomp, and looks at its machine code.

It makes a folder outside the repository with copies of gomp_claim and the crates below it, has the static library proved and built
there by `rt lib`, and links ring/ring.c with it. Then it

  looks at `claim_next` and `claim_single` in the program: one locked instruction on the shortest way to an answer, no division there, and
  no call; else the status is 1;
  has a loop of 10^7 iterations claimed by 1, 2 and 4 threads, each of which has to be taken once; else the status is 1;
  times claims, additions and libgomp in turn, each in a process of its own, and prints the least of many runs.

The threads begin together, and only runs count in which they had a processor for nine tenths of the time: else they did not run at once,
which is faster, and tells nothing of several. It runs on until enough count, for a minute at most; `-` stands where none does, as it may
on a machine with other work.

With one word, the path of a library that was built (libgomp_claim.a), it links that one; with `--keep FOLDER` it builds in a folder
that stays. It needs rt, gcc with OpenMP, and objdump."""

import os
import re
import shutil
import subprocess
import sys
import tempfile
import time

import board

BENCH = os.path.dirname(os.path.abspath(__file__))
KINDS = ("claim", "add", "libgomp")
THREADS = (1, 2, 4)
CHUNKS = (1, 3, 7)
ROUNDS = 12
RUNS = 3  # of a round, in one process
LEAST_BUSY = 90  # percent of the time that the threads had a processor, in a run that counts
ENOUGH = 8  # runs of each kind that count
MOST_SECONDS = 60  # for so many threads
CYCLES = 20
# The calls whose machine code is looked at, and their locked instructions.
LOOKS = {"claim_next": ["lock xadd"], "claim_single": ["lock cmpxchg", "lock cmpxchg", "lock xadd"]}
MOST_STEPS = 60


def build(folder):
    """Proves and builds the static library in this folder, which has nothing yet; where it lies."""
    own = board.copy_crates("gomp_claim", folder)
    done = subprocess.run(["rt", "lib"], cwd=own, stdin=subprocess.DEVNULL, capture_output=True, text=True)
    library = os.path.join(own, "out", "libgomp_claim.a")
    if done.returncode != 0 or not os.path.exists(library):
        sys.exit(done.stdout + done.stderr)
    return library


def link(library, folder):
    """The C program with this library, in this folder; the kit has malloc under the names that Rattle calls."""
    kit = os.path.dirname(os.path.dirname(os.path.realpath(shutil.which("rt"))))
    heap = os.environ.get("RATTLE_HEAP") or os.path.join(kit, "c", "liblibc_c.a")
    program = os.path.join(folder, "ring")
    source = os.path.join(BENCH, "ring", "ring.c")
    subprocess.run(["gcc", "-O2", "-Wall", "-Wextra", "-fopenmp", "-o", program, source, library, heap], check=True)
    return program


# The machine code


def instructions(program, name):
    """The instructions of a function, by their addresses: the mnemonic with its prefix, and the operands."""
    shown = subprocess.run(["objdump", "-d", "--no-show-raw-insn", program], capture_output=True, text=True, check=True).stdout
    found = re.search(rf"^[0-9a-f]+ <{name}>:\n((?:.+\n)*)", shown, re.M)
    if not found:
        sys.exit(f"{name} is not in {program}")
    lines = re.findall(r"^ *([0-9a-f]+):\t((?:lock |rep |repz )?\S+) *(.*)$", found[1], re.M)
    return {int(at, 16): (what, operands) for at, what, operands in lines}


def is_locked(what, operands):
    return what.startswith("lock ") or what.startswith("xchg") and "(" in operands


def shortest_claim(code):
    """The instructions of the shortest way from the beginning through the locked one to a return, on which nothing is called."""
    places = sorted(code)
    behind = dict(zip(places, places[1:]))
    ways = [((places[0], False), ())]
    seen = set()
    while ways:
        (at, claimed), way = ways.pop(0)
        if at not in code or (at, claimed) in seen or len(way) > MOST_STEPS:
            continue
        seen.add((at, claimed))
        what, operands = code[at]
        way += (f"{what} {operands}".strip(),)
        claimed = claimed or is_locked(what, operands)
        if what.startswith("call"):
            continue
        if what.startswith("ret"):
            if claimed:
                return way
            continue
        to = re.match(r"([0-9a-f]+) <", operands)
        if what.startswith("j") and to:
            ways.append(((int(to[1], 16), claimed), way))
        if what != "jmp":
            ways.append(((behind.get(at), claimed), way))
    return ()


def look(program, name, locks):
    """Prints what is wrong with the machine code of a call, which has these locked instructions; whether nothing is."""
    code = instructions(program, name)
    locked = [f"{what} {operands}" for what, operands in code.values() if is_locked(what, operands)]
    divisions = [what for what, _ in code.values() if re.match(r"i?div", what)]
    way = shortest_claim(code)
    on_way = [step for step in way if is_locked(*(step.rsplit(" ", 1) + [""])[:2])]
    stores = [step for step in way if re.match(r"(mov|add|sub|inc)\S* .*,?\S*\(%\w+[^)]*\)$", step)]
    faults = []
    if sorted(" ".join(step.split()[:2]) for step in locked) != sorted(locks):
        faults.append(f"locked instructions: {', '.join(locked) or 'none'}")
    if divisions:
        faults.append(f"divisions: {', '.join(divisions)}")
    if not way or len(on_way) != 1:
        faults.append("no way through one locked instruction to an answer without a call")
    print(f"{name}: {len(way)} instructions with one {' '.join(on_way[0].split()[:2])}, {len(stores)} stores, no division and no call on the way"
          if not faults else f"{name}: {'; '.join(faults)}", flush=True)
    return not faults


# Runs


def output(program, *words):
    done = subprocess.run([program, *map(str, words)], capture_output=True, text=True)
    if done.returncode != 0:
        sys.exit(f"{program} {' '.join(map(str, words))}: status {done.returncode}\n{done.stdout}{done.stderr}")
    return done.stdout


def least_of_runs(program, threads):
    """The least ns an iteration of each kind, of the runs that count."""
    found = {kind: [] for kind in KINDS}
    begun, rounds = time.monotonic(), 0
    while rounds < ROUNDS or min(map(len, found.values())) < ENOUGH and time.monotonic() - begun < MOST_SECONDS:
        rounds += 1
        for kind in KINDS:
            for line in output(program, kind, threads, RUNS).splitlines():
                spent, busy = map(float, line.split())
                if busy >= LEAST_BUSY:
                    found[kind].append(spent)
    return {kind: min(runs, default=None) for kind, runs in found.items()}


def shown(number, form="7.2f"):
    return f"{'-':>{form.split('.')[0]}}" if number is None else format(number, form)


def ratio(one, other):
    return None if one is None or other is None else one / other


def measure(program):
    for threads in THREADS:
        for chunk in CHUNKS if threads > 1 else CHUNKS[:1]:
            print(output(program, "check", threads, chunk), end="", flush=True)
    print("\nns an iteration of a dynamic loop in chunks of 1")
    print("threads   claim     add  libgomp  claim/add  claim/libgomp")
    for threads in THREADS:
        least = least_of_runs(program, threads)
        claim, add, libgomp = (least[kind] for kind in KINDS)
        print(f"{threads:7} {shown(claim)} {shown(add)} {shown(libgomp, '8.2f')} {shown(ratio(claim, add), '10.2f')} "
              f"{shown(ratio(claim, libgomp), '14.2f')}", flush=True)
    print("\nns from opening a work-share of one piece to leaving it, one thread")
    print("work     claim  libgomp   ratio")
    for work in ("loop", "single"):
        ours, libgomp = (min(float(output(program, "cycle", f"{kind}_{work}")) for _ in range(CYCLES)) for kind in ("claim", "libgomp"))
        print(f"{work:6} {ours:7.1f} {libgomp:8.1f} {ours / libgomp:7.2f}", flush=True)
    print(f"load at the end: {os.getloadavg()[0]:.1f} on {os.cpu_count()} processors")


def bench(folder, library=None):
    program = link(library or build(folder), folder)
    fine = [look(program, name, locks) for name, locks in LOOKS.items()]
    measure(program)
    return 0 if all(fine) else 1


def main():
    if len(sys.argv) > 2 and sys.argv[1] == "--keep":
        os.makedirs(sys.argv[2], exist_ok=True)
        sys.exit(bench(os.path.abspath(sys.argv[2])))
    with tempfile.TemporaryDirectory() as folder:
        sys.exit(bench(folder, sys.argv[1] if len(sys.argv) > 1 else None))


if __name__ == "__main__":
    main()
