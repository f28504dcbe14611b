"""What the replies of a region's members say by themselves: who was given what, and in which order by the clock (docs/RULES.md)."""

from collections import defaultdict

from history_laws import items_of, waits_for

LOCKS = {"Set": "Unset", "Test": "Unset", "SetNest": "UnsetNest", "TestNest": "UnsetNest"}


def check_replies(region, history):
    """Whatever the replies of a region say that is not allowed."""
    shares = defaultdict(lambda: [[] for _ in range(region.size)])
    for call in region.each_call():
        if call.share is not None:
            shares[call.share][call.member].append(call)
    for number in sorted(shares):
        check_share(region, history, number, shares[number])
    for check in (check_barriers, check_tasks, check_taskwaits, check_cancelled, check_marks):
        check(region, history)
    for key, holds in holds_of(region).items():
        check_holds(region, key, holds)


# ---- shares

def check_share(region, history, number, by_member):
    """One share, by the calls of each member from its start on."""
    def fault(text):
        region.fault(f"share {number}: {text}")
    starts = [calls[0] for calls in by_member if calls]
    first = starts[0]
    if any((start.name, start.fields) != (first.name, first.fields) for start in starts):
        fault("the members' constructs differ")
        return
    kind = {"LoopStart": "Loop", "SectionsStart": "Sections"}.get(first.name)
    cancelled = bool(history.region_cancelled) or any(
        call.name == "Cancel" and call.fields["kind"][0] == kind and call.answer[0] for calls in by_member for call in calls)
    if len(starts) < region.size and not history.region_cancelled:
        fault("not all members came to it")
    if kind == "Loop":
        check_loop(fault, first.fields[0][1], by_member, cancelled)
    elif kind == "Sections":
        count = first.fields["count"]
        given = [call.answer[0] - 1 for calls in by_member for call in calls if call.reply == "Section" and call.answer[0]]
        check_given(fault, [(section, 1) for section in given], [(section, 1) for section in range(count)], cancelled)
    else:
        executors = [start for start in starts if start.reply == "Executor" and start.answer[0]]
        if len(executors) > 1 or not executors and not cancelled:
            fault(f"it was executed {len(executors)} times")
        check_words(fault, first, starts, by_member, executors)


def check_words(fault, first, starts, by_member, executors):
    """Words are copied after they were put."""
    puts = [call for calls in by_member for call in calls if call.name == "SingleCopyEnd"]
    for start in starts if first.name == "SingleCopyStart" else ():
        if start.reply == "Copied" and (not puts or start.after < puts[0].before or start.answer != puts[0].fields):
            fault("words were copied that had not been put")
    if any(put.member not in [executor.member for executor in executors] for put in puts) or len(puts) > 1:
        fault("words were put by another, or twice")


def trips_of(loop):
    distance = (loop["end"] - loop["start"]) * (1 if loop["incr"] > 0 else -1)
    return -(-distance // abs(loop["incr"])) if distance > 0 else 0


def pieces_of(loop, members):
    """The pieces of a loop, each the first iteration and how many there are."""
    kind, chunk, trips = loop["sched"][0], loop["chunk"], trips_of(loop)
    pieces, at = [], 0
    if kind == "Static" and chunk == 0:
        for member in range(members):
            count = trips // members + (member < trips % members)
            pieces.append((at, count))
            at += count
        return [piece for piece in pieces if piece[1]]
    while at < trips:
        count = max(chunk, 1)
        if kind == "Guided":
            count = max(count, -(-(trips - at) // members))
        pieces.append((at, min(count, trips - at)))
        at += pieces[-1][1]
    return pieces


def check_loop(fault, loop, by_member, cancelled):
    pieces, members = pieces_of(loop, len(by_member)), len(by_member)
    given, takers = [], []
    for member, calls in enumerate(by_member):
        own = [((call.answer["first"] - loop["start"]), call.answer["count"], call) for call in calls if call.reply == "Chunk"]
        if any(ahead % loop["incr"] for ahead, _, _ in own):
            fault(f"member {member} was given a value that no iteration has")
            return
        own = [(ahead // loop["incr"], count, call) for ahead, count, call in own]
        if [ahead for ahead, _, _ in own] != sorted(ahead for ahead, _, _ in own):
            fault(f"the chunks of member {member} do not rise")
        if loop["sched"][0] == "Static":
            for ahead, count, _ in own:
                if (ahead, count) not in pieces[member::members]:
                    fault(f"member {member} was given a piece of another: {ahead} {count}")
        given += [(ahead, count) for ahead, count, _ in own]
        takers += [(ahead, count, call) for ahead, count, call in own]
    check_given(fault, given, pieces, cancelled, loop["sched"][0] != "Static")
    if loop["ordered"]:
        check_ordered(fault, loop, by_member, sorted(takers, key=lambda taken: taken[:2]))


def check_given(fault, given, pieces, cancelled, in_turn=True):
    """Each piece was given once; of a cancelled share some, from a queue the first ones."""
    given = sorted(given)
    if any(one == other for one, other in zip(given, given[1:])):
        fault(f"a piece was given twice: {given}")
    elif given != (pieces[:len(given)] if cancelled and in_turn else pieces) and not (
            cancelled and not in_turn and set(given) <= set(pieces)):
        fault(f"the pieces {given} were given, of {pieces}")


def check_ordered(fault, loop, by_member, takers):
    """Ordered parts begin in the order of iterations, one ends before the next begins, and each earlier piece was handed on."""
    parts = []
    for calls in by_member:
        for at, call in enumerate(calls):
            if call.name == "OrderedStart" and call.reply == "Finished":
                close = next((it for it in calls[at:] if it.name == "OrderedEnd"), None)
                parts.append(((call.fields[0] - loop["start"]) // loop["incr"], call, close))
    parts.sort(key=lambda part: part[0])
    for (one, start, end), (other, later, _) in zip(parts, parts[1:]):
        if one == other or later.after < start.before or end is not None and later.after < end.before:
            fault(f"the ordered parts {one} and {other} are not in their order")
    handed = None   # when the earlier pieces can have been handed on at first
    for ahead, count, taken in takers:
        calls = by_member[taken.member]
        after = calls[calls.index(taken) + 1:]
        next_one = next((call for call in after if call.name == "LoopNext"), None)
        for one, start, _ in parts:
            if ahead <= one < ahead + count and handed is not None and start.after < handed:
                fault(f"ordered part {one} begins before earlier pieces were handed on")
        if next_one is None or next_one.reply == "Cancelled":
            return
        if handed is not None and next_one.after < handed:
            fault(f"the piece from {ahead} on was handed on before an earlier one")
        handed = next_one.before if handed is None else max(handed, next_one.before)


# ---- barriers, tasks, cancellation

def check_barriers(region, history):
    """By the clock no member passed a barrier before another came to it."""
    came = defaultdict(dict)
    for event in region.events:
        if event.name == "Arrive" and event.call:
            came[event["barrier"]].setdefault(event.member, event.call.before)
            if event["tag"][1]["kind"][0] == "RegionEnd":
                came["end"][event.member] = event.call.before
    for event in region.events:
        if event.name == "Pass" and event.call:
            is_end = event is history.last_pass.get(event.member)
            if not history.region_cancelled:
                late = [came[event["barrier"]].get(member, event.call.after + 1) for member in range(region.size)]
            else:
                late = [came["end"].get(member, event.call.after + 1) for member in range(region.size)] if is_end else []
            if any(before > event.call.after for before in late):
                region.fault(f"member {event.member} passed barrier {event['barrier']} before another came to it, by the clock")


def check_tasks(region, history):
    """What a member is given is what was created; each task is given once."""
    given = defaultdict(int)
    for call in region.each_call():
        if call.reply == "Run":
            run, task = call.answer, history.tasks[("Explicit", call.answer["task"])]
            given[run["task"]] += 1
            if (run["code"], run["arg"], run["own"]) != (task.desc["code"], task.desc["arg"], task.undeferred):
                region.fault(f"task {run['task']} was given as {run}, and created as {task.desc}")
            if task.event.call and call.after < task.event.call.before:
                region.fault(f"task {run['task']} was given before its creation, by the clock")
    for task in history.tasks.values():
        if given[task.number] != (1 if task.started else 0):
            region.fault(f"task {task.number} was given {given[task.number]} times")
        for sibling in history.children[task.parent] if task.started and task.started.call else ():
            ended = sibling.completed and sibling.completed.call
            if sibling.number < task.number and waits_for(task.items, sibling.items) and ended:
                if task.started.call.after < ended.before:
                    region.fault(f"task {task.number} was given before the end of task {sibling.number}, by the clock")


def check_taskwaits(region, history):
    """A taskwait is passed after the children for which it waits, by the history and by the clock."""
    for calls in region.calls:
        begun = []      # the taskwaits that are open, beneath the tasks at them
        for call in calls:
            if call.name == "Taskwait":
                begun.append(call)
            if call.reply == "Passed" and call.waited == "children":
                check_taskwait(region, history, begun.pop(), call)


def check_taskwait(region, history, asked, passed):
    parent = ("Explicit", asked.task) if asked.task else ("Implicit", asked.member)
    items = items_of(asked.fields[0])
    for child in history.children[parent]:
        created, ended = child.event.call, child.completed and child.completed.call
        if created is None or created.after > asked.before or items and not waits_for(items, child.items):
            continue
        late = ended is None or ended.before > passed.after
        if late or passed.next_place is not None and child.completed.place > passed.next_place:
            region.fault(f"a taskwait at {asked.before} was passed before the end of task {child.number}")


def check_cancelled(region, history):
    """Nothing is said to be cancelled before a member began to cancel it."""
    began = {"Parallel": [], "Taskgroup": [], "Loop": [], "Sections": []}
    for call in region.each_call():
        if call.name == "Cancel" and call.fields["clause"] and region.cancellation:
            began[call.fields["kind"][0]].append(call.before)
    for call in region.each_call():
        if call.reply == "Cancelled":
            kinds = ("Parallel",)
        elif call.reply == "Dropped":
            kinds = ("Parallel", "Taskgroup")
        elif call.reply == "Cancelling" and call.answer[0]:
            kind = (call.fields["kind"] if call.name == "Cancel" else call.fields[0])[0]
            kinds = ("Parallel", "Taskgroup") if kind == "Taskgroup" else (kind,)
        else:
            continue
        if not any(before < call.after for kind in kinds for before in began[kind]):
            region.fault(f"member {call.member}: {call.name} at {call.before} was answered {call.reply}, and nothing is cancelled")


# ---- names and locks

def holds_of(region):
    """The holds of each name and lock: the call that was answered by it, the call that ended it, and the member."""
    holds = defaultdict(list)
    for calls in region.calls:
        held = {}       # how often the member holds a name or a lock, and since which call
        for call in calls:
            key = key_of(call)
            if key is None:
                continue
            if call.name in ("CriticalEnd", "Unset", "UnsetNest"):
                times, since = held.pop(key, (0, None))
                if call.name == "UnsetNest" and call.answer[0] != times - 1:
                    region.fault(f"member {call.member}: {key} is set {call.answer[0]} times, not {times - 1}")
                if times > 1:
                    held[key] = (times - 1, since)
                else:
                    holds[key].append((since, call))
            elif call.reply == "Finished" or call.answer[0] and call.reply in ("Got", "Count"):
                times, since = held.get(key, (0, call))
                held[key] = (times + 1, since)
                if call.reply == "Count" and call.answer[0] != times + 1:
                    region.fault(f"member {call.member}: {key} is set {call.answer[0]} times, not {times + 1}")
    return holds


def key_of(call):
    """Which name or lock a call enters or leaves."""
    if call.name in ("CriticalStart", "CriticalEnd"):
        return ("name", bytes(call.fields[0][1]["bytes"]))
    if call.name in LOCKS or call.name in LOCKS.values():
        return ("lock", call.fields[0])
    return None


def check_holds(region, key, holds):
    """By the clock no two members hold it at once."""
    holds.sort(key=lambda hold: hold[0].after)
    for (_, end), (start, _) in zip(holds, holds[1:]):
        if start.after < end.before:
            region.fault(f"{key} has two owners: members {end.member} and {start.member}, at {start.after}")


def check_marks(region, _):
    """Who holds a name or a lock sees the mark that the one before left, so no number is seen twice."""
    seen = defaultdict(list)
    for call in region.each_call():
        if call.name == "Mark":
            seen[call.fields["place"]].append((call.before, call.after, call.fields["seen"]))
    for place, marks in seen.items():
        marks.sort()
        if [mark[2] for mark in marks] != list(range(len(marks))):
            region.fault(f"within the name or lock {place} was seen {[mark[2] for mark in marks]}")
        if any(one[1] > other[0] for one, other in zip(marks, marks[1:])):
            region.fault(f"two members were within the name or lock {place} at once")
