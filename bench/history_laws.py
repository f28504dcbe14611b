"""The laws of a region's history, by itself: barriers, tasks, groups, cancellation, and words (docs/RULES.md, docs/PROMISES.md)."""

from collections import defaultdict

WAITS_FOR = {"DepIn": lambda earlier: earlier != "DepIn", "DepInoutset": lambda earlier: earlier != "DepInoutset"}


def items_of(deps):
    """The items of a `depend` clause: kinds and addresses."""
    return [(item[1]["kind"][0], item[1]["addr"]) for item in deps[1]["items"]]


def waits_for(items, earlier):
    """Whether a task with these items waits for an earlier sibling with those."""
    return any(address == other and WAITS_FOR.get(kind, lambda _: True)(its)
               for kind, address in items for its, other in earlier)


class Task:
    """A task that was created."""

    def __init__(self, event, parent, history):
        desc = event["desc"][1]
        self.number, self.creator, self.event, self.desc = event["task"], event.member, event, desc
        self.parent = parent                        # the key of the task that created it
        above = history.tasks.get(parent)
        self.root = above.root if above else parent[1]
        self.depth = above.depth + 1 if above else 1
        self.final = desc["final_task"] or bool(above and above.final)
        self.undeferred = desc["undeferred"] or bool(above and above.final)
        self.items = items_of(desc["deps"])
        self.groups = (above.groups if above else ()) + tuple(history.open_groups[parent])
        self.barrier = history.passes[self.root]    # the next barrier of the member in whose implicit task its tree begins
        self.started = self.completed = None        # its events


class History:
    """What happened so far, and what of it is not allowed."""

    def __init__(self, region):
        self.region, self.size = region, region.size
        self.passes = [0] * self.size
        self.arrived = [None] * self.size           # the arrival that the member has not passed
        self.left = [False] * self.size
        self.stacks = [[] for _ in range(self.size)]
        self.tags, self.arrivals, self.at_end = {}, defaultdict(set), set()
        self.tasks, self.children = {}, defaultdict(list)
        self.open_groups, self.groups = defaultdict(list), {}
        self.cancelled, self.region_cancelled = {}, None
        self.puts, self.gots = {}, set()
        self.last_pass = {}                         # of each member that has left, its last pass
        self.discards = []                          # the tasks that have to be discarded next

    def check(self):
        for event in self.region.events:
            self.now = event
            member = event.member
            if not 0 <= member < self.size:
                self.fault("there is no such member")
                continue
            if self.left[member]:
                self.fault("its member has left the region")
            if self.discards and event.name != "Discard":
                self.fault(f"tasks {self.discards} were not discarded")
                self.discards = []
            if self.arrived[member] and not self.stacks[member] and event.name not in ("Start", "Pass", "Arrive"):
                self.fault("its member is at a barrier")
            getattr(self, "on_" + event.name.lower(), self.unknown)(event)
        self.check_end()

    def fault(self, text):
        self.region.fault(f"event {self.now.place}, {self.now.name} {self.now.fields}: {text}")

    def unknown(self, _):
        self.fault("no history has such an event")

    def current(self, member):
        """The key of the task that the member executes."""
        stack = self.stacks[member]
        return ("Explicit", stack[-1].number) if stack else ("Implicit", member)

    # ---- barriers

    def on_arrive(self, event):
        member, barrier, tag = event.member, event["barrier"], event["tag"][1]
        kind = tag["kind"][0]
        if barrier != self.passes[member]:
            self.fault(f"its member has passed {self.passes[member]}")
        if self.arrived[member] and not (self.region_cancelled and kind == "RegionEnd"):
            self.fault("its member has arrived already")
        if self.stacks[member]:
            self.fault("its member executes a task")
        if self.region_cancelled:
            if kind != "RegionEnd":
                self.fault("the region is cancelled")
        elif self.tags.setdefault(barrier, tag) != tag:
            self.fault(f"another arrived with {self.tags[barrier]}")
        self.arrived[member] = (barrier, kind)
        self.arrivals[barrier].add(member)
        if kind == "RegionEnd":
            self.at_end.add(member)

    def on_pass(self, event):
        member, barrier = event.member, event["barrier"]
        if not self.arrived[member] or self.arrived[member][0] != barrier or self.stacks[member]:
            self.fault("its member is not there")
            return
        is_end = self.arrived[member][1] == "RegionEnd"
        if is_end and len(self.at_end) < self.size:
            self.fault("not all have arrived at the region's end")
        if not is_end and self.region_cancelled:
            self.fault("the region is cancelled")
        if not self.region_cancelled and len(self.arrivals[barrier]) < self.size:
            self.fault("not all have arrived")
        for task in self.tasks.values():
            if not task.completed and (is_end or task.barrier <= barrier):
                self.fault(f"task {task.number} is not complete")
        self.passes[member], self.arrived[member], self.left[member] = barrier + 1, None, is_end
        if is_end:
            self.last_pass[member] = event

    # ---- tasks

    def on_create(self, event):
        member, parent = event.member, (event["parent"][0], event["parent"][1][0])
        if event["task"] != len(self.tasks) + 1:
            self.fault("its number is not the next one")
        if parent != self.current(member):
            self.fault("its member executes another task")
        task = Task(event, parent, self)
        if any(self.passes[other] > task.barrier for other in range(self.size)):
            self.fault("it is bound to a barrier that was passed")
        if self.is_covered(task):
            self.fault("a cancellation reaches it")
        self.tasks[("Explicit", task.number)] = task
        self.children[parent].append(task)

    def on_start(self, event):
        member, task = event.member, self.tasks.get(("Explicit", event["task"]))
        if task is None:
            self.fault("it was not created")
            return
        if task.started or task.completed:
            self.fault("it was started or discarded before")
        for sibling in self.children[task.parent]:
            if sibling.number < task.number and not sibling.completed and waits_for(task.items, sibling.items):
                self.fault(f"it waits for task {sibling.number}")
        if task.undeferred and (member != task.creator or self.current(member) != task.parent):
            self.fault("it is undeferred")
        above = self.ancestors(task)
        for begun in self.stacks[member]:
            if ("Explicit", begun.number) not in above:
                self.fault(f"it does not descend from task {begun.number}")
        if not self.arrived[member] and task.root != member:
            self.fault("it does not descend from the implicit task of its member, which is at no barrier")
        if self.is_covered(task):
            self.fault("a cancellation reaches it")
        task.started = event
        self.stacks[member].append(task)

    def ancestors(self, task):
        above = set()
        while task is not None:
            above.add(task.parent)
            task = self.tasks.get(task.parent)
        return above

    def on_done(self, event):
        stack = self.stacks[event.member]
        if not stack or stack[-1].number != event["task"]:
            self.fault("it is not the innermost task of its member")
            return
        if self.open_groups[("Explicit", event["task"])]:
            self.fault("it has a group open")
        stack.pop().completed = event

    # ---- groups

    def on_group(self, event):
        if event["group"] != len(self.groups):
            self.fault("its number is not the next one")
        self.groups[event["group"]] = event
        self.open_groups[self.current(event.member)].append(event["group"])

    def on_groupend(self, event):
        opened = self.open_groups[self.current(event.member)]
        if not opened or opened[-1] != event["group"]:
            self.fault("it is not the last open group of the task")
            return
        opened.pop()
        for task in self.tasks.values():
            if event["group"] in task.groups and not task.completed:
                self.fault(f"task {task.number} is not complete")

    # ---- cancellation

    def is_covered(self, task):
        return bool(self.region_cancelled) or any(group in self.cancelled for group in task.groups)

    def on_cancel(self, event):
        kind, named = event["scope"]
        if not self.region.cancellation:
            self.fault("nothing can be cancelled")
        if kind == "Region":
            if self.stacks[event.member]:
                self.fault("its member executes a task")
            self.region_cancelled = self.region_cancelled or event
        elif kind == "OneGroup":
            stack = self.stacks[event.member]
            if not stack or stack[-1].groups[-1:] != (named[0],):
                self.fault("it is not the group opened last around the task")
            self.cancelled.setdefault(named[0], event)
        else:
            self.fault("no history has such a cancellation")
        self.discards = [task.number for task in self.tasks.values()
                         if not task.started and not task.completed and self.is_covered(task)]

    def on_discard(self, event):
        task = self.tasks.get(("Explicit", event["task"]))
        if task is None or task.started or task.completed or self.discards[:1] != [event["task"]]:
            self.fault(f"the tasks to discard are {self.discards}")
            return
        self.discards.pop(0)
        task.completed = event
        before = self.region.events[event.place - 1]
        if before.member != event.member:
            self.fault("another member cancels")

    # ---- words of singles

    def on_put(self, event):
        if event["share"] in self.puts:
            self.fault("words were put before")
        self.puts[event["share"]] = event

    def on_got(self, event):
        put, key = self.puts.get(event["share"]), (event["share"], event.member)
        if put is None or put["payload"] != event["payload"] or put.member == event.member or key in self.gots:
            self.fault(f"what was put is {put and put.fields}")
        self.gots.add(key)

    def check_end(self):
        """What holds when all have returned."""
        if self.discards:
            self.region.fault(f"tasks {self.discards} were not discarded")
        for member in range(self.size):
            if not self.left[member]:
                self.region.fault(f"member {member} has not passed the region's end")
        for task in self.tasks.values():
            if not task.completed:
                self.region.fault(f"task {task.number} is never complete")
        for share, put in self.puts.items():
            if not self.region_cancelled and sum(key[0] == share for key in self.gots) != self.size - 1:
                self.region.fault(f"not all others have the words of share {share}: {put.fields}")

