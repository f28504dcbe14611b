#!/usr/bin/env python3
"""Times the work-shares of a team whose members are on threads of their own, beside libgomp and libomp.

shares.py [--program FILE] [--keep FILE] [--rounds N] [WORK..]

The program, shares/*.rt.txt, is in no crate of crates.txt: it is copied with the crates below it to a folder outside the repository, and
`rt run` proves and builds it there; over libraries that `rt ci` has just proved that takes some minutes. FILE is one that was built before;
--keep keeps it there. Each member is a `Member` of gomp_team and calls as a thread of a C program would: a loop's start and end, its next
chunks by `claim_next`, and so on (shares/work.rt.txt). shares/shares.c is the same for gcc with libgomp, and for clang with libomp.

Of each WORK, all if none is named, and teams of 1, 2 and 4 it prints the nanoseconds an iteration or a construct, the least of N processes
of each program in turn (12), under `chrt -f 50` where that is allowed. Its status is 1 if a run gave other than as many pieces as asked for."""

import argparse
import os
import shutil
import subprocess
import sys
import tempfile

from board import BENCH, copy_program
from regions import first

NAME = "gomp_share_times"
BELOW = ("gomp_types", "gomp_icv", "gomp_seat_calls", "gomp_locks", "gomp_ompt", "gomp_team_board", "gomp_team_book", "gomp_team", "gomp_team_region", "gomp_course")
# What two of its functions' proofs need, by the functions' folders.
INVARIANTS = {
    "make_runs": "make_runs.antt.txt",
    os.path.join("work", "claim_rest"): "claim_rest.antt.txt",
    os.path.join("work", "take_sections"): "take_sections.antt.txt",
}
MEMBERS = (1, 2, 4)
RUNS = 5  # of a process
# How many constructs, or iterations, a run has; how many pieces each gives; and what is timed.
WORKS = {
    "dynamic": (1_000_000, 1, "an iteration of a loop by dynamic, 1"),
    "ordered": (200_000, 1, "an iteration of an ordered loop by dynamic, 1"),
    "nowait": (20_000, 64, "a nowait loop of 64 iterations by dynamic, 1"),
    "guided": (20_000, 1_000, "a nowait loop of 1,000 iterations by guided, 1"),
    "sections": (100_000, 4, "four sections, nowait"),
    "single": (20_000, 1, "a single with its barrier"),
    "barrier": (20_000, 0, "a barrier"),
}


def build(tree, program):
    """Proves and builds the program in this folder, and copies it to this path."""
    own = copy_program(NAME, BELOW, "shares", tree)
    for function, text in INVARIANTS.items():
        os.makedirs(os.path.join(own, "proofs", function))
        shutil.copy(os.path.join(BENCH, "shares", text), os.path.join(own, "proofs", function, "Invariants.antt"))
    done = subprocess.run(["rt", "run", "--", "dynamic", "1", "10", "1"], cwd=own, stdin=subprocess.DEVNULL, capture_output=True, text=True)
    if done.returncode != 0:
        sys.exit(done.stdout + done.stderr)
    shutil.copy(os.path.join(own, "out", NAME), program)


def compiled(compiler, target):
    """The same works by this compiler; none without it."""
    if not shutil.which(compiler):
        return None
    source = os.path.join(BENCH, "shares", "shares.c")
    done = subprocess.run([compiler, "-O2", "-Wall", "-Wextra", "-fopenmp", "-o", target, source], capture_output=True, text=True)
    return target if done.returncode == 0 else None


def runs(command, work, members):
    """The nanoseconds that each run takes; the program has to give all pieces."""
    count, each, _ = WORKS[work]
    words = [*command, work, str(members), str(count), str(RUNS)]
    done = subprocess.run(words, stdin=subprocess.DEVNULL, capture_output=True, text=True)
    lines = [line.split() for line in done.stdout.splitlines()]
    if done.returncode != 0 or [int(pieces) for pieces, _ in lines] != [count * each] * RUNS:
        sys.exit(f"{' '.join(words)}: status {done.returncode}\n{done.stdout}{done.stderr}")
    return [int(spent) / count for _, spent in lines]


def row(programs, ahead, rounds, work, members):
    """Prints what one construct takes by each program, in a team of so many."""
    found = [[] for _ in programs]
    for _ in range(rounds):
        for program, spent in zip(programs, found):
            spent += runs([*ahead, program], work, members) if program else []
    least = [min(spent) if spent else None for spent in found]
    ratios = [f"{least[0] / other:8.2f}" if other else "       -" for other in least[1:]]
    print(f"{work:9} {members:7} " + " ".join(f"{time:9.1f}" if time else "        -" for time in least) + " ".join(ratios), flush=True)


def main():
    words = argparse.ArgumentParser()
    words.add_argument("--program")
    words.add_argument("--keep")
    words.add_argument("--rounds", type=int, default=12)
    words.add_argument("works", nargs="*", metavar="WORK")
    asked = words.parse_args()
    with tempfile.TemporaryDirectory() as folder:
        program = asked.program or asked.keep or os.path.join(folder, NAME)
        if not asked.program:
            build(os.path.join(folder, "tree"), program)
        programs = (program, compiled("gcc", os.path.join(folder, "libgomp")), compiled("clang", os.path.join(folder, "libomp")))
        ahead = first()
        print(f"ns each, least of {asked.rounds * RUNS} runs{', ' + ' '.join(ahead) if ahead else ''}; load {os.getloadavg()[0]:.1f} on {os.cpu_count()} processors")
        print("work      members      here   libgomp    libomp by libgomp by libomp")
        for work in asked.works or WORKS:
            for members in MEMBERS:
                row(programs, ahead, asked.rounds, work, members)


if __name__ == "__main__":
    main()
