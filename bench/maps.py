#!/usr/bin/env python3
"""maps.py [--keep FOLDER]: the two maps that gomp_depend could find its lines by, side by side.

It proves and builds a program of its own, maps/main.rt.txt, in a folder outside the repository, by `rt run`, and prints for a BTreeMap
and for a HashMap with its fixed hasher the nanoseconds of an insertion, a look-up and a removal, the least of seven runs: of addresses
64 apart, and of addresses whose hashes end alike in what the map takes of them, which a program could choose to slow the map down. It
fails if a run does not find each key."""
import os
import shutil
import subprocess
import sys
import tempfile

BENCH = os.path.dirname(os.path.abspath(__file__))
COUNTS = {"apart": (1_000, 10_000, 100_000), "alike": (1_000, 4_000, 16_000)}
RUNS = 7


def build(folder):
    """Proves and builds the program in this folder, which has nothing yet; where it lies."""
    own = os.path.join(folder, "crates", "maps_work")
    os.makedirs(os.path.join(own, "src"))
    shutil.copy(os.path.join(BENCH, "maps", "main.rt.txt"), os.path.join(own, "src", "main.rt"))
    with open(os.path.join(folder, "crates.txt"), "w") as file:
        file.write("maps_work:\n")
    subprocess.run(["git", "init", "-q", folder], check=True)
    done = subprocess.run(["rt", "run", "--", "tree", "apart", "1"], cwd=own, stdin=subprocess.DEVNULL, capture_output=True, text=True)
    if done.returncode != 0:
        sys.exit(done.stdout + done.stderr)
    return os.path.join(own, "out", "maps_work")


def measure(program):
    print("addresses    keys  map   insertion  look-up  removal   (ns each)")
    for kind, counts in COUNTS.items():
        for count in counts:
            for name in ("tree", "hash"):
                runs = []
                for _ in range(RUNS):
                    done = subprocess.run([program, name, kind, str(count)], stdin=subprocess.DEVNULL, capture_output=True, text=True, check=True)
                    *spent, found = map(int, done.stdout.split())
                    if found != count:
                        sys.exit(f"maps: {name}, {kind}: {found} of {count} keys were found")
                    runs.append(spent)
                best = [min(each) / count for each in zip(*runs)]
                print(f"{kind:9} {count:7}  {name}  {best[0]:9.0f}  {best[1]:7.0f}  {best[2]:7.0f}", flush=True)


def main():
    if len(sys.argv) > 2 and sys.argv[1] == "--keep":
        measure(build(sys.argv[2]))
    else:
        with tempfile.TemporaryDirectory() as folder:
            measure(build(folder))


if __name__ == "__main__":
    main()
