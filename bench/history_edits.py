"""Alterations of a printed region, each of which history_check.py has to find, and in the part that is for it: `history`, the laws of
the history by itself; `calls`, that it has the events of the calls, in an order that the clock allows; `replies`, the replies."""

import re

LEAST = 5       # in so many regions each has to be tried


def places(lines, pattern):
    return [at for at, line in enumerate(lines) if re.search(pattern, line)]


def is_cancelled(lines):
    """Whether a member was told that something is cancelled."""
    return bool(places(lines, "=> (Cancelled|Cancelling.true.)"))


def number(line, name):
    """The number behind this word in a line."""
    return int(re.search(name + r": (\d+)", line)[1])


def moved(lines, source, target):
    """The lines with one of them before another."""
    rest = lines[:source] + lines[source + 1:]
    rest.insert(target - (source < target), lines[source])
    return rest


def dropped(pattern, uncancelled=False):
    """Leaves a line of this pattern out; only of a region that nobody cancelled, if that is asked."""
    def edit(lines, rng):
        found = places(lines, pattern)
        if not found or uncancelled and is_cancelled(lines):
            return None
        at = rng.choice(found)
        return lines[:at] + lines[at + 1:]
    return edit


def doubled(pattern):
    def edit(lines, rng):
        found = places(lines, pattern)
        at = rng.choice(found) if found else None
        return None if at is None else lines[:at] + [lines[at]] + lines[at:]
    return edit


def replaced(pattern, old, new, uncancelled=False, least=1):
    """In a line of this pattern; only of a region that nobody cancelled, if that is asked, and of so many members at least."""
    def edit(lines, rng):
        found = [at for at in places(lines, pattern) if re.sub(old, new, lines[at], count=1) != lines[at]]
        if not found or uncancelled and is_cancelled(lines) or int(lines[0].split()[2]) < least:
            return None
        at = rng.choice(found)
        return lines[:at] + [re.sub(old, new, lines[at], count=1)] + lines[at + 1:]
    return edit


def before(late, early, same):
    """Moves a line of the first pattern before one of the second that stands before it and has the same number behind `same`."""
    def edit(lines, rng):
        pairs = [(one, other) for one in places(lines, late) for other in places(lines, early)
                 if other < one and (same is None or number(lines[one], same) == number(lines[other], same))]
        return moved(lines, *rng.choice(pairs)) if pairs else None
    return edit


def to_the_end(pattern):
    def edit(lines, rng):
        found = places(lines, pattern)
        return moved(lines, rng.choice(found), len(lines) - 1) if found else None
    return edit


def pass_before_last_arrival(lines, rng):
    """A member passes a barrier before the last one arrives, of a region that nobody cancelled."""
    if places(lines, "^event Cancel .*Region") or lines[0].split()[2] == "1":
        return None
    last = {number(lines[at], "barrier"): at for at in places(lines, "^event Arrive")}
    at = rng.choice([at for at in places(lines, "^event Pass")
                     if number(lines[at], "member") != number(lines[last[number(lines[at], "barrier")]], "member")])
    return moved(lines, at, last[number(lines[at], "barrier")])


def start_before_named(lines, rng):
    """A task with an item `out` starts before an earlier sibling that names the same address is done."""
    created = {}
    for at in places(lines, "^event Create"):
        parent, task = re.search(r"parent: (\w+\(\d+\))", lines[at])[1], number(lines[at], "task")
        created[task] = (parent, set(re.findall(r"kind: (\w+), addr: (\d+)", lines[at])))
    starts = {number(lines[at], "task"): at for at in places(lines, "^event Start")}
    dones = {number(lines[at], "task"): at for at in places(lines, "^event Done")}
    pairs = [(starts[late], dones[early]) for late in starts for early in dones
             if early < late and created[early][0] == created[late][0] and starts[late] > dones[early]
             and any(kind == "DepOut" and address in [other for _, other in created[early][1]] for kind, address in created[late][1])]
    return moved(lines, *rng.choice(pairs)) if pairs else None


def group_ends_before_task(lines, rng):
    """A group ends before a task that the same member created in it, in the task that it executed, is done."""
    pairs = []
    for end in places(lines, "^event GroupEnd"):
        opened = next(at for at in places(lines, "^event Group ") if number(lines[at], "group") == number(lines[end], "group"))
        for at in places(lines[:end], "^event Create"):
            done = places(lines[:end], rf"^event Done .* task: {number(lines[at], 'task')},|^event Done . task: {number(lines[at], 'task')},")
            if at == opened + 1 and number(lines[at], "member") == number(lines[opened], "member") and done:
                pairs.append((end, done[0]))
    return moved(lines, *rng.choice(pairs)) if pairs else None


def ordered_swapped(lines, rng):
    """Two ordered parts of a member exchange their iterations."""
    found = places(lines, "OrderedStart.*Finished")
    pairs = [(one, other) for one, other in zip(found, found[1:])
             if lines[one].split()[1] == lines[other].split()[1] and not any("LoopStart" in line for line in lines[one:other])]
    if not pairs:
        return None
    one, other = rng.choice(pairs)
    values = [re.search(r"OrderedStart\((-?\d+)\)", lines[at])[1] for at in (one, other)]
    lines = list(lines)
    for at, value in ((one, values[1]), (other, values[0])):
        lines[at] = re.sub(r"OrderedStart\(-?\d+\)", f"OrderedStart({value})", lines[at])
    return lines


def hold_kept(lines, rng):
    """A member leaves a name only after another one has entered it."""
    ends = places(lines, "CriticalEnd")
    pairs = [(at, later) for at in ends for later in places(lines, "CriticalStart")
             if lines[at].split("bytes")[1] == lines[later].split("bytes")[1] and lines[at].split()[1] != lines[later].split()[1]
             and int(lines[later].split()[2]) > int(lines[at].split()[3])]
    if not pairs:
        return None
    at, later = rng.choice(pairs)
    clock = str(int(lines[later].split()[3]) + 1)
    words = lines[at].split(" ")
    return lines[:at] + [" ".join(words[:2] + [clock, clock] + words[4:])] + lines[at + 1:]


def taskwait_early(lines, rng):
    """A child of an implicit task ends, by the clock, after its parent has passed a taskwait that it reached behind the creation."""
    pairs = []
    for at in places(lines, r"Taskwait\(Deps . items: \[\] .\) => Passed"):
        member, came, passed = lines[at].split()[1:4]
        for created in places(lines[:at], rf"^said {member} .*TaskCreate.* => Created"):
            task = re.search(r"Created\((\d+)\)", lines[created])[1]
            ends = places(lines, rf"TaskEnd => TaskDone . task: {task},")
            if ends and places(lines, rf"^event Create . task: {task}, .*parent: Implicit\({member}\)") and is_implicit(lines, at, member):
                pairs.append((ends[0], int(passed)))
    if not pairs:
        return None
    at, passed = rng.choice(pairs)
    words = lines[at].split(" ")
    return lines[:at] + [" ".join(words[:2] + [str(passed + 1)] * 2 + words[4:])] + lines[at + 1:]


def is_implicit(lines, at, member):
    """Whether the member executes no explicit task at this line."""
    own = [line for line in lines[:at] if line.startswith(f"said {member} ")]
    return sum("=> Run" in line for line in own) == sum("=> TaskDone" in line for line in own)


EDITS = (
    ("an arrival is missing", "calls", dropped("^event Arrive .*RegionEnd")),
    ("a pass is missing", "history", dropped("^event Pass")),
    ("an arrival is missing in the history", "history", dropped("^event Arrive", True)),
    ("a pass comes before the last arrival", "history", pass_before_last_arrival),
    ("members arrive at different constructs", "history", replaced("^event Arrive .*kind: Barrier", "shares: ", "shares: 9", True, 2)),
    ("a start comes before its creation", "history", before("^event Start", "^event Create", "task")),
    ("a start comes before the end of a named task", "history", start_before_named),
    ("a task is created twice", "history", doubled("^event Create")),
    ("a task is started twice", "history", doubled("^event Start")),
    ("a task is done twice", "history", doubled("^event Done")),
    ("a task ends after the region", "history", to_the_end("^event Done")),
    ("another member ends a task", "history", replaced("^event Done", "member: ", "member: 9")),
    ("a start is in the history alone", "calls", doubled("^event Start")),
    ("a group ends before its task", "history", group_ends_before_task),
    ("a group ends before it opens", "history", before("^event GroupEnd", "^event Group ", "group")),
    ("a group does not end", "calls", dropped("^event GroupEnd")),
    ("words are put twice", "history", doubled("^event Put")),
    ("other words are got", "history", replaced("^event Got", r"words: \[", "words: [7, ")),
    ("words are got before they are put", "history", before("^event Got", "^event Put", "share")),
    ("a task is created after the cancellation", "history", before("^event Cancel .*Region", "^event Create", None)),
    ("a task is started after the cancellation", "history", before("^event Cancel .*Region", "^event Start", None)),
    ("a discard is missing", "history", dropped("^event Discard")),
    ("a started task is discarded", "history", replaced("^event Discard", r"task: \d+", "task: 1")),
    ("a region that may not be is cancelled", "history", lambda lines, rng: [lines[0].replace("true", "false"), *lines[1:]]
     if places(lines, "^event Cancel") else None),
    ("an event comes before its time", "calls", lambda lines, rng: moved(lines, len(lines) - 2, places(lines, "^event")[0])),
    ("a chunk is given twice", "replies", doubled("LoopNext => Chunk")),
    ("a chunk is not given", "replies", replaced("LoopNext => Chunk", "Chunk .*", "NoChunk", True)),
    ("a chunk is too long", "replies", replaced("Loop.* => Chunk", "count: ", "count: 9", True)),
    ("a section is given twice", "replies", doubled(r"SectionsNext => Section\([1-9]")),
    ("a section is not given", "replies", replaced(r"SectionsNext => Section\([1-9]", r"Section\(\d+", "Section(0", True)),
    ("a single is executed twice", "replies", replaced("SingleStart => Executor.false", "false", "true")),
    ("a single is not executed", "replies", replaced("SingleStart => Executor.true", "true", "false", True)),
    ("other words are copied", "replies", replaced("=> Copied", r"=> Copied\(Payload \{ words: \[", "=> Copied(Payload { words: [7, ")),
    ("ordered parts begin out of order", "replies", ordered_swapped),
    ("a name has two owners", "replies", hold_kept),
    ("a step within a lock is lost", "replies", replaced("Mark", r"seen: \d+", "seen: 999")),
    ("a nestable lock is counted wrong", "replies", replaced("SetNest.*Count", r"Count\(", "Count(9")),
    ("a task is given otherwise", "replies", replaced("=> Run", r"=> Run \{ task: (\d+), code: ", r"=> Run { task: \1, code: 9999")),
    ("a taskwait is passed early", "replies", taskwait_early),
    ("a call is refused", "calls", replaced("Barrier => Passed", "Passed", "Refused(NoMemory)")),
)


def self_test(regions, check_parts, rng):
    """Tries each alteration in each region that allows it; the status of the program."""
    lost = 0
    for name, part, edit in EDITS:
        tried = found = 0
        for lines in regions:
            altered = edit(lines, rng)
            if altered is not None and altered != lines:
                tried += 1
                found += part in check_parts(altered)
        verdict = "NOT FOUND" if found < tried else "TRIED TOO SELDOM" if tried < LEAST else "found"
        lost += verdict != "found"
        print(f"{name}: {verdict} by the {part}, {found} of {tried}")
    print(f"{len(EDITS) - lost} alterations found, {lost} not")
    return 1 if lost else 0
