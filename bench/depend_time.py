#!/usr/bin/env python3
"""depend_time.py [PROGRAM]: the time of tasks with `depend` items, by how many are open.

One member creates 1,000, 10,000 and 100,000 tasks, which are open together, and then executes them all at a barrier: without items,
with one item `in` on one address, with one `out` on an address of their own, and a chain of `inout` on one address, whose tasks run in
the order of creation. It prints, for each, microseconds a task (its creation, start and end, from their lines to their replies; the
least of five runs) and fails if a run gives another number of tasks than was created, a chain in another order, or if 100,000 tasks
take more than twice as long each as 1,000. PROGRAM is the proved program (default: crates/gomp_runner/out/gomp_runner)."""
import os
import subprocess
import sys
import time

ROOT = os.path.dirname(os.path.dirname(os.path.abspath(__file__)))
COUNTS = [1_000, 10_000, 100_000]
ITEMS = {
    "no item": lambda task: "",
    "in, one address": lambda task: " in 9",
    "out, own addresses": lambda task: f" out {64 * task}",
    "chain of inout": lambda task: " inout 9",
}


def text(count, item):
    """The steps of one member: so many creations, a barrier, and the end of each task with the wait that goes on."""
    creations = [f"0 task 1 {task}{item(task)}" for task in range(count)]
    ends = ["0 task_end", "0 resume"] * count
    return "\n".join(["team 1", *creations, "0 barrier", *ends, ""]).encode()


def run(program, steps):
    """The least time of five runs, in seconds, and the tasks in the order in which they were executed."""
    best = None
    for _ in range(5):
        begin = time.monotonic()
        answer = subprocess.run([program, "steps"], input=steps, capture_output=True, check=True).stdout
        spent = time.monotonic() - begin
        best = spent if best is None else min(best, spent)
    lines = answer.decode().splitlines()
    return best, [int(line.split()[1]) for line in lines if line.startswith("run ")], lines[-1]


def main():
    program = sys.argv[1] if len(sys.argv) > 1 else os.path.join(ROOT, "crates/gomp_runner/out/gomp_runner")
    faults = 0
    for name, item in ITEMS.items():
        times = []
        for count in COUNTS:
            spent, tasks, last = run(program, text(count, item))
            times.append(spent / count)
            in_order = name != "chain of inout" or tasks == list(range(1, count + 1))
            if sorted(tasks) != list(range(1, count + 1)) or last != "passed" or not in_order:
                print(f"depend_time: {name}, {count}: the tasks were not executed, each once")
                faults += 1
        print(f"{name}: " + ", ".join(f"{1e6 * each:.2f}" for each in times) + " us a task at 10^3, 10^4, 10^5")
        if times[-1] > 2 * times[0]:
            print(f"depend_time: {name}: 10^5 tasks take more than twice as long each as 10^3")
            faults += 1
    return 1 if faults else 0


sys.exit(main())
