#!/usr/bin/env python3
"""Times empty regions on kept threads, beside libgomp, counts their instructions, and looks at what they leave.

The program is that of gomp_region_times, which `rt ci` proves and builds, or `rt ci gomp_region_times` alone. In an empty region each
member asks for nothing but the region's end. It builds regions/region.c with gcc, has regions/crew.rt.txt proved and built by `rt run` in a
folder outside the repository, over a copy of gomp_crew, and prints

  of teams of 1, 2 and 4 members the nanoseconds a region takes, here and by libgomp, in turn, each in a process of its own, the least of
  many runs and the one in their middle, under `chrt -f 50` where that is allowed; those of a barrier more in it; and how many blocks of
  memory a region takes (board/live.c);
  of a team of one the instructions of a region, here and by libgomp, and those of its parts, each with all that it calls, by callgrind
  (left out without valgrind): the difference of runs of 1,000 and 11,000 regions;
  of teams of 2 and 4 members the nanoseconds of the parts of a region, on the thread that forks it: the shares of functions in the
  samples of `perf record` (left out without it), of the time that a region took at the least;
  the nanoseconds to hand out jobs that do nothing and to get their outcomes, by a crew (gomp_crew, regions/crew.rt.txt) and by three
  models in C (regions/hand.c), of jobs of one word and of as many as an outcome of gomp_runtime has;
  after 10^3 and after 10^5 regions of 1, 2, 3 and 4 members in turn how many bytes are in use, and how many threads there are.

Its status is 1 if not as many bytes are in use after 10^5 as after 10^3, if there are more than four threads, or if a region gives no
report.

With `--live PROGRAM..` it looks at that alone, of each of these programs. With other words, the paths of programs that were built (of
regions, then of a crew with jobs of one word, and of more), it runs these."""

import os
import re
import shutil
import statistics
import subprocess
import sys
import tempfile

import board

BENCH = os.path.dirname(os.path.abspath(__file__))
PROGRAM = os.path.join(board.ROOT, "crates", "gomp_region_times", "out", "gomp_region_times")
MEMBERS = (1, 2, 4)
REGIONS = 1_000  # of a run
RUNS = 20  # of a process
ROUNDS = 15  # processes of each program
CHANGING = (1_000, 100_000)
BARRIERS = 10
WORDS = (1, 34)  # of a job of a crew: the least, and an outcome of gomp_runtime
MODELS = ("queue", "slot", "place")
MOST_THREADS = 4
COUNTED = (1_000, 11_000)
# The parts of a region, by functions that the compiler leaves whole; the rest of `on_crew` makes the team, its members and lists.
PARTS = (
    ("the member's program", r"gomp_fork::region::fn::on_crew::new\+Fn::call\b"),
    ("  its call, by the team", r"gomp_team::team::SharedTeam::answer\b"),
    ("jobs from members", r"gomp_fork::returned::jobs_of\b"),
    ("outcomes taken apart", r"gomp_fork::returned::take_apart\b"),
    ("members taken back", r"gomp_team_region::returned::take_back\b"),
    ("the team closed", r"gomp_team::team::SharedTeam::close\b"),
    ("malloc", r"rattle_alloc\b"),
    ("free", r"rattle_dealloc\b"),
    ("memset", r"__memset"),
    ("memcpy", r"__mem(cpy|move)"),
)


# The same of the time of a region, by the functions that the compiler leaves whole, each alone: what a region of two members and of four has besides.
TIMED = (
    ("member 0's call: its answer, and the wait for the others", r"gomp_team::(member|team)::(?!SharedTeam::close)|gomp_(team_board|board|barrier|scheduler|history|ready|member|waits)::|core::sync::Mutex"),
    ("jobs handed out, outcomes fetched", r"gomp_crew::"),
    ("the team made and taken back, with its lists: `on_crew`", r"gomp_(fork|team_region|levels|runtime|seats|ring|slots)::|gomp_team::team::SharedTeam::close"),
    ("malloc and free", r"_int_malloc|malloc|_int_free|cfree|unlink_chunk|rattle_(de)?alloc"),
    ("memset and memcpy", r"__mem(set|cpy|move)"),
)
SAMPLED = 60_000  # regions


def build_crew(tree, words):
    """Proves and builds the program of a crew whose jobs have so many words, in this tree; where it lies."""
    name = f"crew_work_{words}"
    own = os.path.join(tree, "crates", name)
    os.makedirs(os.path.join(own, "src"))
    with open(os.path.join(BENCH, "regions", "crew.rt.txt")) as file, open(os.path.join(own, "src", "main.rt"), "w") as made:
        made.write(file.read().replace("WORDS: usize = 1;", f"WORDS: usize = {words};"))
    with open(os.path.join(tree, "crates.txt"), "a") as file:
        file.write(f"{name}: gomp_crew\n")
    done = subprocess.run(["rt", "run", "--", "1", "1", "1", "0"], cwd=own, stdin=subprocess.DEVNULL, capture_output=True, text=True)
    if done.returncode != 0:
        sys.exit(done.stdout + done.stderr)
    return os.path.join(own, "out", name)


def build_crews(tree):
    """Proves and builds the program of a crew for each number of words, in this folder, which has nothing yet."""
    board.copy_crates("gomp_crew", tree)
    shutil.copy(os.path.join(board.ROOT, "HANDLES"), tree)
    return {words: build_crew(tree, words) for words in WORDS}


def compiled(source, target, *words):
    subprocess.run(["gcc", "-O2", "-Wall", "-Wextra", "-o", target, os.path.join(BENCH, source), *words], check=True)
    return target


def first():
    """What a program is started by, to come before all others on its processors, where that is allowed."""
    words = ["chrt", "-f", "50"]
    return words if shutil.which("chrt") and subprocess.run([*words, "true"], capture_output=True).returncode == 0 else []


def runs(command, members, barriers=None):
    """The nanoseconds a region takes in each run of a program, which has to give them all."""
    words = [*command, str(members), str(REGIONS), str(RUNS), *([] if barriers is None else [str(barriers)])]
    done = subprocess.run(words, stdin=subprocess.DEVNULL, capture_output=True, text=True)
    lines = [line.split() for line in done.stdout.splitlines()]
    if done.returncode != 0 or [int(met) for met, _ in lines] != [members * REGIONS] * RUNS:
        sys.exit(f"{' '.join(words)}: status {done.returncode}\n{done.stdout}{done.stderr}")
    return [int(spent) / REGIONS for _, spent in lines]


def looked_at(program, counter, members, regions):
    """Bytes in use, and blocks taken so far, once all regions have ended; and how many threads there are then."""
    words = [program, str(members), f"{regions:08}", "1", "0"]
    with subprocess.Popen(words, env={**os.environ, "LD_PRELOAD": counter}, stdin=subprocess.PIPE, stdout=subprocess.PIPE,
                          stderr=subprocess.PIPE, text=True) as child:
        met = int(child.stdout.readline().split()[0])
        threads = len(os.listdir(f"/proc/{child.pid}/task"))
        child.stdin.close()
        told = child.stderr.read()
    if child.returncode != 0 or met != (members * regions if members else regions * 5 // 2):
        sys.exit(f"{' '.join(words)}: status {child.returncode}, {met} members\n{told}")
    return int(re.search(r"^live (\d+)", told, re.M)[1]), int(re.search(r"^taken (\d+)$", told, re.M)[1]), threads


def blocks(program, counter, members):
    """How many blocks of memory a region takes."""
    few, many = (looked_at(program, counter, members, regions)[1] for regions in COUNTED)
    return (many - few) / (COUNTED[1] - COUNTED[0])


def instructions(program, regions):
    """Of so many regions of a team of one the instructions of each function, with all that it calls."""
    with tempfile.TemporaryDirectory() as folder:
        out = os.path.join(folder, "out")
        command = ["valgrind", "--tool=callgrind", f"--callgrind-out-file={out}", program, "1", str(regions), "1", "0"]
        subprocess.run(command, stdin=subprocess.DEVNULL, capture_output=True, check=True)
        command = ["callgrind_annotate", "--inclusive=yes", "--threshold=100", "--show-percs=no", out]
        shown = subprocess.run(command, capture_output=True, text=True, check=True).stdout
    found = {}
    for count, name in re.findall(r"^ *([\d,]+) +(PROGRAM|[^:\s]+:.*?)(?: TOTALS| \[[^\]]*\])?$", shown, re.M):
        name = name.split(":", 1)[-1]
        found[name] = max(found.get(name, 0), int(count.replace(",", "")))
    return found


def parts(program, other):
    """Prints the instructions of a region of a team of one, and of its parts."""
    spread = COUNTED[1] - COUNTED[0]
    few, many = (instructions(program, regions) for regions in COUNTED)
    theirs = [instructions(other, regions)["PROGRAM"] for regions in COUNTED]
    print(f"\ninstructions a region, one member: {(many['PROGRAM'] - few['PROGRAM']) / spread:.0f}; libgomp {(theirs[1] - theirs[0]) / spread:.0f}")
    for part, name in PARTS:
        # (a function within a call of itself counts as its own with a quote behind the name)
        counts = [sum(count for found, count in table.items() if re.match(name, found) and not re.search(r"'\d+$", found)) for table in (few, many)]
        print(f"  {part:25} {(counts[1] - counts[0]) / spread:7.0f}")


def samples(program, ahead, members):
    """The shares of the functions, in per cent, of the samples of the thread that forks regions of so many members."""
    with tempfile.TemporaryDirectory() as folder:
        out = os.path.join(folder, "out")
        command = ["perf", "record", "-q", "-F", "9999", "-o", out, *ahead, program, str(members), str(SAMPLED), "1", "0"]
        subprocess.run(command, stdin=subprocess.DEVNULL, capture_output=True, check=True)
        command = ["perf", "report", "-i", out, "--stdio", "--sort", "pid,symbol"]
        shown = subprocess.run(command, stdin=subprocess.DEVNULL, capture_output=True, text=True, check=True).stdout
    found = re.findall(r"^ *([\d.]+)% +(\d+):.*? \[[.k]\] (.+?) *$", shown, re.M)
    first_thread = min(int(thread) for _, thread, _ in found)
    return [(float(share), name) for share, thread, name in found if int(thread) == first_thread]


def timed_parts(program, ahead, members, spent):
    """Prints the nanoseconds of the parts of a region of so many members, which takes so many in all."""
    found = samples(program, ahead, members)
    whole = sum(share for share, _ in found)
    print(f"\nns of a region of {members} members: {spent:.0f}")
    left = whole
    for part, function in TIMED:
        share = sum(share for share, name in found if re.match(function, name))
        left -= share
        print(f"  {part:60} {share / whole * spent:7.0f}")
    print(f"  {'all else, the kernel in it':60} {left / whole * spent:7.0f}")


def times(programs, ahead, members, barriers):
    """Of each program the nanoseconds of a region with so many barriers: the least of its runs, and the one in their middle."""
    found = [[] for _ in programs]
    for _ in range(ROUNDS):
        for program, spent in zip(programs, found):
            spent += runs([*ahead, program], members, barriers)
    return [(min(spent), statistics.median(spent)) for spent in found]


def row(program, other, counter, ahead, members):
    """Prints what a region of so many members takes, and answers its nanoseconds."""
    (ours, our_middle), (theirs, their_middle) = times((program, other), ahead, members, 0)
    more = [(met[0] - none) / BARRIERS for met, none in zip(times((program, other), ahead, members, BARRIERS), (ours, theirs))]
    print(f"{members:7} {ours:6.0f} {theirs:8.0f} {ours / theirs:6.2f}   {our_middle:6.0f} {their_middle:8.0f} {our_middle / their_middle:6.2f}   "
          f"{more[0]:6.0f} {more[1]:8.0f} {more[0] / more[1]:6.2f} {blocks(program, counter, members):7.2f}", flush=True)
    return ours


def hand_over(crews, folder, ahead):
    """Prints what it takes to hand out jobs that do nothing, and to get the outcomes: by a crew, and by each model of regions/hand.c."""
    print("\nns to hand out jobs that do nothing\nwords  members  " + "  ".join(["crew", *MODELS]))
    for words in WORDS:
        hand = compiled("regions/hand.c", os.path.join(folder, f"hand_{words}"), f"-DWORDS={words}", "-pthread")
        for members in MEMBERS[1:]:
            found = [[] for _ in range(len(MODELS) + 1)]
            for _ in range(ROUNDS):
                commands = [[*ahead, crews[words]] if words in crews else None, *([*ahead, hand, model] for model in MODELS)]
                for command, spent in zip(commands, found):
                    spent += runs(command, members) if command else []
            print(f"{words:5} {members:8}  " + "  ".join(f"{min(spent):5.0f}" if spent else "    -" for spent in found), flush=True)


def measure(program, crews, folder):
    other = compiled("regions/region.c", os.path.join(folder, "region"), "-fopenmp")
    counter = compiled("board/live.c", os.path.join(folder, "live.so"), "-shared", "-fPIC", "-ldl")
    ahead = first()
    print(f"ns an empty region{', ' + ' '.join(ahead) if ahead else ''}; load {os.getloadavg()[0]:.1f} on {os.cpu_count()} processors")
    print("        the least of its runs     in their middle           a barrier more")
    print("members   here  libgomp  ratio     here  libgomp  ratio     here  libgomp  ratio  blocks")
    spent = {members: row(program, other, counter, ahead, members) for members in MEMBERS}
    if shutil.which("valgrind"):
        parts(program, other)
    if shutil.which("perf"):
        for members in MEMBERS[1:]:
            timed_parts(program, ahead, members, spent[members])
    hand_over(crews, folder, ahead)
    print()
    return lose_nothing(program, counter)


def lose_nothing(program, counter):
    """Prints what is in use after few and after many regions of changing sizes: 0 if it is as much, of as many threads."""
    left = {regions: looked_at(program, counter, 0, regions) for regions in CHANGING}
    for regions, (live, _, threads) in left.items():
        print(f"after {regions:,} regions of 1 to 4 members in turn: {live:,} bytes in use, {threads} threads")
    few, many = left.values()
    return 0 if few[0] == many[0] and max(few[2], many[2]) <= MOST_THREADS else 1


def live(folder, programs):
    """The same of each of these programs; no more is measured."""
    counter = compiled("board/live.c", os.path.join(folder, "live.so"), "-shared", "-fPIC", "-ldl")
    return max(lose_nothing(program, counter) for program in programs)


def bench(folder, built):
    program, crews = (built[0], dict(zip(WORDS, built[1:]))) if built else (PROGRAM, build_crews(os.path.join(folder, "tree")))
    if not os.path.exists(program):
        sys.exit(f"{program} is not built: `rt ci gomp_region_times` proves and builds it")
    return measure(program, crews, folder)


def main():
    words = sys.argv[1:]
    with tempfile.TemporaryDirectory() as folder:
        sys.exit(live(folder, words[1:]) if words[:1] == ["--live"] else bench(folder, words))


if __name__ == "__main__":
    main()
