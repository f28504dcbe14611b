"""What a script of a region adds up to, by members that take turns on one thread, written from docs/FORMATS.md and docs/RULES.md
alone. In another order of turns others take the pieces and the tasks: what differs then depends on the schedule."""

import random
import re
from collections import namedtuple

MOST_MEMBERS = 64
MOST_TAKEN = 2 ** 128 - 1
MOST_TRIPS = MOST_CHUNK = 2 ** 39
MOST_NAME, MOST_ITEMS, MOST_DEPTH, MOST_SECTIONS = 32, 16, 64, 65_536
BLOCKS = ('for', 'sections', 'section', 'single', 'copy', 'ordered', 'critical', 'task', 'group', 'parallel', 'only')
ORDERS = 10         # of turns: in turn, against it, and by chance (`next_one`)

Statement = namedtuple('Statement', 'word args body')


class Refused(Exception):
    """The refusal of a call: what is printed of it."""


class Leaves(Exception):
    """A member leaves what is cancelled: the region, a share or a task."""

    def __init__(self, left):
        self.left = left


class Stuck(Exception):
    """No member can go on."""


# ---- texts and words

def parsed(text):
    """The number of a script's first line, None without one, and its statements. The text has to be a good one."""
    lines = [line.split() for line in text.decode('ascii').split('\n')]
    first, *lines = [words for words in lines if words and not words[0].startswith('#')]
    if first[0] != 'region':
        raise ValueError('no script')
    size = int(first[1]) if first[1:] else None
    open_blocks = [Statement('region', [], [])]
    for word, *args in lines:
        if word.startswith('end'):
            if open_blocks.pop().word != word[3:] or not open_blocks:
                raise ValueError('an end word of no open block')
            continue
        statement = Statement(word, args, [])
        open_blocks[-1].body.append(statement)
        if word in BLOCKS:
            open_blocks.append(statement)
    if len(open_blocks) > 1:
        raise ValueError('a block that is not closed')
    return size, open_blocks[0].body


def number(text, least, most):
    return int(text) if re.fullmatch('[0-9]+', text) and least <= int(text) <= most else None


def switch(text):
    return {'true': True, 'false': False}.get(text)


def sizes(text):
    found = [number(part.strip(' \t'), 1, 2 ** 31 - 1) for part in text.split(',')]
    return None if None in found else found[0]


def schedule(text):
    modifier, colon, rest = text.partition(':')
    if colon and modifier.strip(' \t') not in ('monotonic', 'nonmonotonic'):
        return None
    kind, comma, chunk = (part.strip(' \t') for part in (rest if colon else text).partition(','))
    size = number(chunk, 1, MOST_CHUNK) if comma else 0
    if kind not in ('static', 'dynamic', 'guided', 'auto') or size is None:
        return None
    return ('static', 0) if kind == 'auto' else (kind, size)


VALUES = {'OMP_NUM_THREADS': sizes, 'OMP_DYNAMIC': switch, 'OMP_CANCELLATION': switch, 'OMP_SCHEDULE': schedule,
          'OMP_MAX_ACTIVE_LEVELS': lambda text: number(text, 0, 2 ** 31 - 1),
          'OMP_THREAD_LIMIT': lambda text: number(text, 1, 2 ** 31 - 1)}
INITIAL = {'OMP_NUM_THREADS': 4, 'OMP_DYNAMIC': False, 'OMP_CANCELLATION': False, 'OMP_SCHEDULE': ('dynamic', 0),
           'OMP_MAX_ACTIVE_LEVELS': 1, 'OMP_THREAD_LIMIT': 64}


def variables(words):
    """The control variables after these words, and the names of those that are ignored."""
    values, ignored = dict(INITIAL), []
    for word in words:
        name, _, text = word.partition('=')
        value = VALUES[name](text.strip(' \t').lower()) if name in VALUES else None
        if value is None:
            ignored.append(name)
        else:
            values[name] = value
    return values, ignored


def team_size(asked, values, active=0):
    """How many members a team has within so many active levels, if there are threads for them."""
    if active >= values['OMP_MAX_ACTIVE_LEVELS']:
        return 1
    return min(asked or values['OMP_NUM_THREADS'], values['OMP_THREAD_LIMIT'], MOST_MEMBERS)


# ---- pieces

def dealt_out(count, kind, chunk, members):
    """The pieces of so many iterations, each with its owner, None if whoever asks next takes it."""
    pieces, first = [], 0
    if kind == 'static' and chunk == 0:
        for member in range(members):
            size = count // members + (member < count % members)
            pieces += [(range(first, first + size), member)] if size else []
            first += size
        return pieces
    least = chunk or 1
    while first < count:
        share = -(-(count - first) // members) if kind == 'guided' else 0
        size = min(max(share, least), count - first)
        pieces.append((range(first, first + size), len(pieces) % members if kind == 'static' else None))
        first += size
    return pieces


class Share:
    """A loop, sections, or a single, as the team has it."""

    def __init__(self, shape, pieces, is_ordered=False, may_cancel=False):
        self.shape, self.pieces, self.is_ordered, self.may_cancel = shape, list(enumerate(pieces)), is_ordered, may_cancel
        self.cancelled = self.put = False
        self.turn = 0           # how many pieces were handed on

    def take(self, member):
        """The next piece of a member, with its number; None if none is left."""
        for at, (_, (_, owner)) in enumerate(self.pieces):
            if owner in (None, member) and not self.cancelled:
                return self.pieces.pop(at)
        return None


class Group:
    def __init__(self):
        self.cancelled = False


class Task:
    """A task, implicit without a parent."""

    def __init__(self, parent=None, statement=None, it=0, groups=(), bound=None):
        self.parent, self.statement, self.it, self.groups, self.bound = parent, statement, it, groups, bound
        args = statement.args if statement else []
        rest = [word for word in args if word not in ('if0', 'final')]
        self.items = list(zip(rest[::2], map(int, rest[1::2])))
        within_final = bool(parent and parent.final)
        self.final = 'final' in args or within_final
        self.undeferred = 'if0' in args or within_final
        self.depth = parent.depth + 1 if parent else 0
        self.children, self.open_groups, self.awaited = [], [], []
        self.begun = self.done = False

    def descends_from(self, task):
        return self is task or bool(self.parent) and self.parent.descends_from(task)


def awaits(kind, other):
    """Whether an item of this kind waits for an earlier one of the other, of the same address."""
    return not (kind == other and kind in ('in', 'inoutset'))


class Member:
    def __init__(self, number):
        self.number, self.total, self.barriers, self.shares = number, 0, 0, 0
        self.share = self.piece = None      # the share that it is in, and the number of its piece there
        self.in_part = False                # whether it is in an ordered part
        self.last_part = None               # the last iteration that had one
        self.tasks = [Task()]               # those that it executes, each within the one before

    @property
    def task(self):
        return self.tasks[-1]


class Region:
    """The members of a team, each a generator: it yields where another member may have a turn, with what it waits for, or None. That
    is at each piece and statement but `add`. `without` is a word of a statement that the members pass over: a wrong reading, which has
    to be found."""

    def __init__(self, size, values, order, without=None):
        self.values, self.without = values, without
        self.levels = 3         # of regions that may lie within it
        self.active = 0         # those round it, and itself, whose teams have more than one member
        self.spare = [values['OMP_THREAD_LIMIT'] - size]    # the threads that no team has
        self.set_active(size)
        self.members = [Member(number) for number in range(size)]
        self.shares, self.barriers, self.tasks, self.names = [], {}, [], {}
        self.taken, self.at_end, self.cancelled, self.last = 0, 0, False, -1
        self.order, self.chance = order, random.Random(order)

    def set_active(self, size):
        self.active += size > 1

    def within(self, size):
        """A region of this size, which shares the names and the threads with this one."""
        nested = Region(size, self.values, self.order, self.without)
        nested.names, nested.chance, nested.spare = self.names, self.chance, self.spare
        nested.levels, nested.active = self.levels - 1, self.active
        nested.set_active(size)
        return nested

    def next_one(self, found):
        """Which of these members has the next turn: in order 0 the one behind the last, in order 1 the last of all; then by chance, in every
        other order mostly the same one again."""
        if self.order == 0:
            return next((number for number in found if number > self.last), found[0])
        if self.order == 1:
            return found[-1]
        if self.order % 2 and self.last in found and self.chance.random() < 0.9:
            return self.last
        return self.chance.choice(found)

    def pick(self, tasks):
        """Which of these tasks is started."""
        return (tasks[0], tasks[-1])[self.order] if self.order < 2 else self.chance.choice(tasks)

    def run(self, statements):
        """What is printed, the members' number, total and iterations, or the refusal that ended it; and the status."""
        running = {member.number: self.whole(member, statements) for member in self.members}
        waits = dict.fromkeys(running)
        while running:
            found = [number for number in running if waits[number] is None or waits[number]()]
            if not found:
                raise Stuck
            self.last = self.next_one(found)
            try:
                waits[self.last] = next(running[self.last])
            except StopIteration:
                del running[self.last]
            except Refused as refusal:
                return f'refused {refusal}\n', 2
        total = (sum(member.total for member in self.members) + 2 ** 127) % 2 ** 128 - 2 ** 127
        return f'threads {len(self.members)}\ntotal {total}\ntaken {min(self.taken, MOST_TAKEN)}\n', 0

    def whole(self, member, statements):
        """A member's way through its region."""
        try:
            yield from self.block(member, statements, 0)
        except Leaves:
            member.share = None
        yield from self.arrive(member, 'region end', is_end=True)

    def block(self, member, statements, it):
        for statement in statements:
            if statement.word != self.without:
                if statement.word != 'add':
                    yield None
                yield from getattr(self, 'do_' + statement.word)(member, statement, it) or ()

    # -- tests

    @staticmethod
    def refuse(*tests):
        """Refuses by the first of these that holds."""
        for refusal, holds in tests:
            if holds:
                raise Refused(refusal)

    def construct(self, member, *tests):
        """The tests of a share or a barrier, and then its own."""
        self.refuse(('E6 InsideTask', len(member.tasks) > 1), ('E8 InsideShare', member.share is not None),
                    ('E11 HoldsCritical', self.holds(member)), *tests)

    def holds(self, member):
        return (member, member.task) in self.names.values()

    # -- waits

    def until(self, done, may_cancel=False):
        """Waits, without a task; what may be cancelled is left if the region is."""
        while not done():
            if may_cancel and self.cancelled:
                raise Leaves(self)
            yield lambda: done() or may_cancel and self.cancelled

    def startable(self, member, anywhere):
        """The tasks that a member may start: those of its own task, or at a barrier of all."""
        top = None if anywhere and len(member.tasks) == 1 else member.task
        return [task for task in self.tasks if not (task.begun or task.done or task.undeferred)
                and all(other.done for other in task.awaited) and (top is None or task.descends_from(top))]

    def until_tasks(self, member, done, anywhere=False, may_cancel=False):
        """Waits, and executes tasks meanwhile. In a region that is cancelled then it leaves what may be, also if it need not wait any more."""
        while not done():
            found = self.startable(member, anywhere)
            if found:
                yield from self.execute(member, self.pick(found))
            else:
                yield lambda: done() or self.startable(member, anywhere) or may_cancel and self.cancelled
            if may_cancel and self.cancelled:
                raise Leaves(self)

    def arrive(self, member, kind, is_end=False):
        """At a barrier, or the region's end."""
        if self.cancelled and not is_end:
            raise Leaves(self)
        self.refuse(('E8 InsideShare', member.share is not None),
                    ('E25 GroupOpen', is_end and member.task.open_groups and not self.cancelled))
        at, tag = member.barriers, (kind, member.shares)
        arrived = self.barriers.setdefault('end' if is_end and self.cancelled else at, {})
        self.refuse(('E35 Mismatch', not self.cancelled and any(other != tag for other in arrived.values())))
        arrived[member.number] = tag
        self.at_end += is_end

        def is_done():
            there = self.at_end if is_end else len(arrived)
            return there == len(self.members) and all(task.done for task in self.tasks if is_end or task.bound == at)
        yield from self.until_tasks(member, is_done, True, not is_end)
        member.barriers += 1

    # -- shares

    def begin(self, member, shape, made):
        """The member's next share, which the first to come makes."""
        at = member.shares
        if at == len(self.shares):
            self.shares.append(made())
        self.refuse(('E35 Mismatch', self.shares[at].shape != shape))
        member.shares += 1
        return self.shares[at]

    def pieces_of(self, member, share, each):
        """Executes a member's pieces of a share, then ends that."""
        member.share = share
        try:
            piece = share.take(member.number)
            while piece is not None:
                member.piece, member.last_part = piece[0], None
                yield None
                yield from each(piece[1][0])
                if share.is_ordered:
                    yield from self.until(lambda: share.turn == member.piece, True)
                    share.turn += 1
                piece = share.take(member.number)
        except Leaves as leaves:
            if leaves.left is not share:
                raise
        member.share = None

    def end_share(self, member, end_kind, name):
        if end_kind != 'nowait':
            yield from self.arrive(member, name)

    def do_for(self, member, statement, it):
        kind, end_kind, is_ordered = statement.args[0], statement.args[5], len(statement.args) > 6
        chunk, start, end, step = map(int, statement.args[1:5])
        trips = max(-((start - end) // step), 0) if step else 0
        may_cancel = end_kind == 'cancellable'
        self.construct(member, ('E12 ZeroStep', step == 0),
                       ('E13 BadChunk', not 0 <= chunk <= MOST_CHUNK or kind == 'runtime' and chunk != 0),
                       ('E14 LoopTooLong', trips > MOST_TRIPS), ('E16 OrderedLoop', is_ordered and may_cancel))
        if kind == 'runtime':
            kind, chunk = self.values['OMP_SCHEDULE']
        shape = (kind, chunk if kind == 'static' else max(chunk, 1), start, trips, step, end_kind, is_ordered)
        share = self.begin(member, shape, lambda: Share(shape, dealt_out(trips, kind, chunk, len(self.members)), is_ordered, may_cancel))

        def each(piece):
            self.taken += len(piece)
            for iteration in piece:
                yield from self.block(member, statement.body, start + iteration * step)
        yield from self.pieces_of(member, share, each)
        yield from self.end_share(member, end_kind, 'loop end')

    def do_sections(self, member, statement, it):
        end_kind = statement.args[0]
        self.construct(member, ('E15 BadSections', len(statement.body) > MOST_SECTIONS))
        shape = ('sections', len(statement.body), end_kind)
        share = self.begin(member, shape, lambda: Share(shape, [(section, None) for section in statement.body], False, end_kind == 'cancellable'))
        yield from self.pieces_of(member, share, lambda section: self.block(member, [section], it))
        yield from self.end_share(member, end_kind, 'sections end')

    def do_section(self, member, statement, it):
        yield from self.block(member, statement.body, it)

    def do_single(self, member, statement, it):
        self.construct(member)
        share = self.begin(member, 'single', lambda: Share('single', [(None, None)]))
        if share.take(member.number):
            yield from self.block(member, statement.body, it)
        self.construct(member)
        yield from self.arrive(member, 'barrier')

    def do_copy(self, member, statement, it):
        self.construct(member)
        share = self.begin(member, 'copy', lambda: Share('copy', [(None, None)]))
        if share.take(member.number):
            member.share = share
            yield from self.block(member, statement.body, it)
            member.share, share.put = None, True
        yield from self.until(lambda: share.put, True)
        member.total += int(statement.args[0])
        self.construct(member)
        yield from self.arrive(member, 'barrier')

    def do_ordered(self, member, statement, it):
        share = member.share
        is_loop = share is not None and isinstance(share.shape, tuple) and share.shape[0] != 'sections'
        self.refuse(('E6 InsideTask', len(member.tasks) > 1), ('E9 OutsideShare', not is_loop), ('E10 InOrdered', member.in_part),
                    ('E11 HoldsCritical', self.holds(member)), ('E20 NotOrdered', is_loop and not share.is_ordered),
                    ('E21 OrderedBackwards', member.last_part == it))
        yield from self.until(lambda: share.turn == member.piece, True)
        member.in_part, member.last_part = True, it
        try:
            yield from self.block(member, statement.body, it)
        finally:
            member.in_part = False

    # -- names, tasks and groups

    def do_critical(self, member, statement, it):
        name = (statement.args or [''])[0]
        held = self.names.get(name)
        self.refuse(('E29 NameTooLong', len(name) > MOST_NAME), ('E30 AlreadyHeld', held is not None and held[0] is member))
        yield from self.until(lambda: name not in self.names)
        self.names[name] = member, member.task
        try:
            yield from self.block(member, statement.body, it)
        finally:
            del self.names[name]

    def do_task(self, member, statement, it):
        parent = member.task
        bound = parent.bound if parent.parent else member.barriers
        task = Task(parent, statement, it, (*parent.groups, *parent.open_groups), bound)
        self.refuse(('E26 TooDeep', task.depth > MOST_DEPTH), ('E28 TooManyDepends', len(task.items) > MOST_ITEMS))
        if self.cancelled or any(group.cancelled for group in task.groups):
            return
        task.awaited = [other for other in parent.children if not other.done and any(
            address == earlier and awaits(kind, before) for kind, address in task.items for before, earlier in other.items)]
        parent.children.append(task)
        self.tasks.append(task)
        if task.undeferred:
            yield from self.until_tasks(member, lambda: task.done or all(other.done for other in task.awaited))
            if not task.done:
                yield from self.execute(member, task)

    def execute(self, member, task):
        task.begun = True
        kept = member.share, member.piece, member.in_part, member.last_part
        member.tasks.append(task)
        try:
            yield from self.block(member, task.statement.body, task.it)
        except Leaves as leaves:
            if leaves.left is not task:
                raise
        self.refuse(('E11 HoldsCritical', self.holds(member)))
        member.tasks.pop()
        member.share, member.piece, member.in_part, member.last_part = kept
        task.done = True

    def do_taskwait(self, member, statement, it):
        yield from self.until_tasks(member, lambda: all(task.done for task in member.task.children))

    def do_group(self, member, statement, it):
        group = Group()
        member.task.open_groups.append(group)
        leaves = None
        try:
            yield from self.block(member, statement.body, it)
        except Leaves as found:
            leaves = found
        if leaves is None or isinstance(leaves.left, Share):
            yield from self.until_tasks(member, lambda: all(task.done for task in self.tasks if group in task.groups))
        member.task.open_groups.remove(group)
        if leaves:
            raise leaves

    # -- the rest

    def do_parallel(self, member, statement, it):
        """A nested region, with as many members as there are threads for."""
        if self.levels == 0:
            raise Refused('E39 TooManyLevels')
        more = min(team_size(int(statement.args[0]), self.values, self.active) - 1, self.spare[0])
        self.spare[0] -= more
        nested = self.within(more + 1)
        yield from nested.turns(statement.body)
        self.spare[0] += more
        member.total += sum(each.total for each in nested.members)

    def turns(self, statements):
        """The members' ways through a nested region, of which each turn is one of the member that forked it."""
        running = {member.number: self.whole(member, statements) for member in self.members}
        waits = dict.fromkeys(running)
        while running:
            found = [number for number in running if waits[number] is None or waits[number]()]
            if found:
                self.last = self.next_one(found)
                try:
                    waits[self.last] = next(running[self.last])
                except StopIteration:
                    del running[self.last]
                yield None
            else:
                yield lambda: any(waits[number]() for number in running)

    def do_only(self, member, statement, it):
        if member.number == int(statement.args[0]):
            yield from self.block(member, statement.body, it)

    def do_barrier(self, member, statement, it):
        self.construct(member)
        yield from self.arrive(member, 'barrier')

    def do_add(self, member, statement, it):
        member.total += it if statement.args[0] == 'it' else int(statement.args[0])

    def do_cancel(self, member, statement, it):
        self.see(member, statement.args[0], self.values['OMP_CANCELLATION'])

    def do_point(self, member, statement, it):
        self.see(member, statement.args[0], False)

    def see(self, member, kind, cancels):
        """A `cancel`, or a point, at which a member only sees what is cancelled."""
        share, in_task = member.share, len(member.tasks) > 1
        groups = member.task.groups
        if kind == 'taskgroup':
            self.refuse(('E7 NotInTask', not in_task), ('E24 NoGroup', not groups), ('E25 GroupOpen', bool(member.task.open_groups)))
            what = groups[-1]
        elif kind == 'parallel':
            self.refuse(('E6 InsideTask', in_task))
            what = self
        else:
            shares = {'loop': lambda: share.shape[0] in ('static', 'dynamic', 'guided'), 'sections': lambda: share.shape[0] == 'sections'}
            is_in = share is not None and isinstance(share.shape, tuple) and shares[kind]()
            self.refuse(('E6 InsideTask', in_task), ('E9 OutsideShare', not is_in), ('E23 NotCancellable', is_in and not share.may_cancel))
            what = share
        if cancels:
            what.cancelled = True
            for task in self.tasks:
                if not task.begun and (what is self or what in task.groups):
                    task.done = True
        around = self.cancelled or any(group.cancelled for group in groups)
        if what.cancelled or kind == 'taskgroup' and not cancels and around:
            raise Leaves(member.task if kind == 'taskgroup' else what)


def outcomes(asked, statements, values, orders=ORDERS, without=None):
    """What a script comes to in so many orders of turns: the text that is printed and the status, each once."""
    size = team_size(asked, values)
    return {Region(size, values, order, without).run(statements) for order in range(orders)}
