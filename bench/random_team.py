"""A team whose members make random calls, chosen by the replies that they get; bench/random_run.py has what it is for.

All members follow one list of constructs, which grows as the first of them comes to its end, and do work of their own between these
and in them. A member's plan is a generator: it yields a call, and is sent the reply. On top of it the member makes calls with any
arguments, most of which are refused."""

from random_words import (ENDKINDS, ON_LOCKS, any_call, chance, comment, items, loop, name, number, size, task,
                          words_of_single)

END = {'wait': 'end', 'nowait': 'end_nowait', 'cancellable': 'end_cancel'}
MOST_REFUSED = 40       # refusals in a row after which a member makes no further call
MOST_DEPTH = 70         # of tasks in one another
MOST_LINES_TO_END = 5_000   # behind the last line of the plan


class Over(Exception):
    """The member makes no further call of its plan."""


class Leave(Exception):
    """The member leaves what is cancelled."""


class Team:
    """A team of this size, for about so many calls. `wildness` is how often a member makes one with any arguments between its own."""

    def __init__(self, rng, members, lines, cancellation):
        self.rng, self.size, self.left = rng, members, lines
        self.cancels = rng.choice((0, 0.1, 0.5)) if cancellation else 0.5
        self.wildness = rng.choice((0, 0, 0.01, 0.1, 0.5))
        self.constructs, self.locks = [], []
        self.names = [name(rng) for _ in range(rng.randint(1, 5))]
        self.addresses = rng.choice((1, 4, 100))
        self.moves, self.is_cancelled = 0, False    # moves are replies that are no wait and no refusal
        self.members = [Member(self, member) for member in range(members)]

    def construct(self, index):
        """The construct of this number, made if no member has come so far; None behind the last one."""
        if index == len(self.constructs) and self.left > 0:
            self.constructs.append(self.made_construct())
        return self.constructs[index] if index < len(self.constructs) else None

    def made_construct(self):
        rng, pieces = self.rng, min(self.rng.randint(0, 3 * self.size), self.left // 2)
        endkind = rng.choice(ENDKINDS)
        return rng.choice((
            lambda: (Member.loop, *loop(rng, pieces)),
            lambda: (Member.loop, *loop(rng, pieces)),
            lambda: (Member.sections, f'sections {pieces} {endkind}', endkind),
            lambda: (Member.single,), lambda: (Member.copy,), lambda: (Member.barrier,), lambda: (Member.work,)))()

    def batch(self):
        """Some members that can be asked at once: mostly such as do not wait. None, if all wait and nothing has moved since."""
        rng = self.rng
        if self.left < -MOST_LINES_TO_END:
            return []
        ready = [member for member in self.members if member.plans and member.call() != 'resume']
        waiting = [member for member in self.members if member.plans and member.call() == 'resume' and member.asked_at != self.moves]
        if waiting and (not ready or chance(rng, 0.1)):
            ready = waiting
        return rng.sample(ready, min(len(ready), rng.randint(1, 16)))

    def heard(self, member, reply):
        """The member hears the reply to its call."""
        self.left -= 1
        if reply == 'wait':
            member.asked_at = self.moves
        elif not reply.startswith('refused'):
            self.moves += 1
        self.is_cancelled |= reply == 'cancel yes' and member.call().startswith('cancel parallel')
        member.heard(reply)

    def skipped(self):
        """Lines that are skipped: seldom one."""
        return [comment(self.rng)] if chance(self.rng, 0.002) else []

    def strange(self):
        """Steps of a member that the team has not: seldom one."""
        return [f'{self.rng.randint(self.size, 65_535)} {any_call(self.rng)}'] if chance(self.rng, 0.002) else []


class Member:
    """A member, and the plans that it follows: generators, each with its next call; the last one is made first."""

    def __init__(self, team, member):
        self.team, self.rng, self.number = team, team.rng, member
        self.plans = []
        self.asked_at = None        # the team's moves when the member was last answered `wait`
        self.held = []              # the critical names that its plan has entered
        self.refusals, self.depth, self.value = 0, 0, 0
        self.plan(self.region())

    def plan(self, calls):
        first = next(calls, None)
        if first is not None:
            self.plans.append([calls, first])

    def call(self):
        return self.plans[-1][1]

    def heard(self, reply):
        plan = self.plans[-1]
        self.refusals = self.refusals + 1 if reply.startswith('refused') else 0
        try:
            plan[1] = plan[0].send(reply)
        except (StopIteration, Leave):
            self.plans.pop()
        except Over:
            self.plans.clear()
        if self.plans and chance(self.rng, self.team.wildness) and len(self.plans) < 3:
            self.plan(self.ask(self.any_line()))

    def any_line(self):
        """A call with any arguments, or with a name or a lock that the team has."""
        call = any_call(self.rng)
        if call.startswith('critical') and chance(self.rng, 0.8):
            return call.split(' ')[0] + self.rng.choice(self.team.names)
        if call.split(' ')[0] in ON_LOCKS and self.team.locks and chance(self.rng, 0.8):
            return f'{call.split(" ")[0]} {self.rng.choice(self.team.locks)[0]}'
        return call

    # ---- one call

    def ask(self, text):
        """Makes a call and what follows from it, to the reply that ends it: resumes of its wait, and the tasks that it is given."""
        reply = yield text
        while True:
            if reply == 'wait':
                reply = yield 'resume'
            elif reply.startswith('run '):
                yield from self.execute()
                if reply.endswith(' own'):
                    return reply
                reply = yield 'resume'
            else:
                self.judge(text, reply)
                return reply

    def judge(self, text, reply):
        """Whether the member goes on behind this reply."""
        if reply.startswith(('refused E1 ', 'refused E2 ', 'refused E3 ')) or self.refusals > MOST_REFUSED:
            raise Over
        if reply == 'stopped' or reply.startswith('refused E32') and text.startswith('set'):
            raise Over
        if reply == 'cancelled' or reply.startswith('refused E5'):
            raise Leave

    def execute(self):
        """The body of a task, to its end."""
        self.depth += 1
        try:
            for _ in range(self.rng.choice((0, 0, 0, 1, 2, 5))):
                yield from self.local()
            if self.team.is_cancelled:
                yield from self.local()
        except Leave:
            pass
        try:
            yield from self.end_task()
        finally:
            self.depth -= 1

    def end_task(self):
        for _ in range(MOST_REFUSED):
            reply = yield 'task_end'
            if not reply.startswith('refused'):
                return
            if reply.startswith('refused E3 '):
                raise Over
            yield from self.mend(reply)

    def mend(self, reply):
        """What may let a task or a region end."""
        if reply.startswith('refused E25'):
            yield from self.ask('group_end')
        elif reply.startswith('refused E11'):
            for named in self.team.names:
                yield 'critical_end' + named
        else:
            yield from self.ask(self.any_line())

    # ---- the region

    def region(self):
        """All of a member's calls."""
        index = 0
        try:
            while (construct := self.team.construct(index)) is not None:
                yield from construct[0](self, *construct[1:])
                index += 1
                yield from self.local()
        except Leave:
            for named in reversed(self.held):
                yield 'critical_end' + named
        for _ in range(MOST_REFUSED):
            reply = yield from self.end_region()
            if not reply.startswith('refused'):
                break
            yield from self.mend(reply)
        if chance(self.rng, 0.1):
            yield from self.ask(self.any_line())

    def end_region(self):
        try:
            return (yield from self.ask('region_end'))
        except Leave:
            return 'refused'

    def loop(self, text, endkind, is_ordered, step):
        reply = yield from self.ask(text)
        try:
            while reply.startswith('chunk'):
                yield from self.piece(reply, endkind, is_ordered, step)
                reply = yield from self.ask('next')
            yield from self.ask(END[endkind])
        except Leave:
            yield from self.leave('end_cancel')

    def piece(self, reply, endkind, is_ordered, step):
        """What a member does in a piece: ordered parts of rising iterations, and work of its own."""
        first, count = map(int, reply.split()[1:3])
        at = 0
        for _ in range(self.rng.randint(0, 3) if is_ordered else 0):
            at += size(self.rng, max(count - at - 1, 0))
            if at < count:
                yield from self.ask(f'ordered {first + at * step}')
                self.value = first + at * step
                yield from self.short()
                yield from self.ask('ordered_end')
            at += 1
        self.value = first
        yield from self.short()
        yield from self.cancel_share('loop', endkind)

    def sections(self, text, endkind):
        reply = yield from self.ask(text)
        try:
            while reply.startswith('section') and reply != 'section 0':
                self.value = int(reply.split()[1])
                yield from self.short()
                yield from self.cancel_share('sections', endkind)
                reply = yield from self.ask('section_next')
            yield from self.ask('sections_' + END[endkind])
        except Leave:
            yield from self.leave('sections_end_cancel')

    def leave(self, end):
        """A member leaves its share if that is cancelled, else the region."""
        reply = yield end
        while reply == 'wait' or reply.startswith('run '):
            if reply != 'wait':
                yield from self.execute()
            reply = yield 'resume'
        if reply != 'passed':
            raise Leave

    def single(self):
        if (yield from self.ask('single')) == 'executor yes':
            yield from self.short()

    def copy(self):
        if (yield from self.ask('single_copy')) == 'executor yes':
            yield from self.short()
            yield from self.ask('single_copy_end' + words_of_single(self.rng))

    def barrier(self):
        yield from self.ask('barrier')

    def work(self):
        """More work of a member's own than elsewhere, at times very much."""
        for _ in range(size(self.rng, 6)):
            yield from self.local()
        if chance(self.rng, 0.2):
            much = self.rng.choice((self.many_tasks, self.many_groups, self.many_locks, self.many_names))
            yield from much(size(self.rng, max(1, min(1_000, self.team.left // 3))))

    # ---- work of a member's own

    def short(self):
        if chance(self.rng, 0.2):
            yield from self.local()

    def local(self):
        """Work that the other members need not do: what it is is chosen at random."""
        if self.depth > MOST_DEPTH or self.team.left < 0:
            return
        usual = (self.create, self.create, self.wait_children, self.group, self.group, self.critical, self.lock, self.cancel)
        yield from self.rng.choice((self.create, self.group, self.cancel) if self.team.is_cancelled else usual)()

    def create(self):
        depends = items(self.rng, self.rng.choice((0, 1, 3, 17)), self.team.addresses)
        if chance(self.rng, 0.3):
            line = f'task {number(self.rng, 64)} {self.value % 2 ** 64}{depends}'
        else:
            line = task(self.rng, depends)
        yield from self.ask(line)

    def wait_children(self):
        yield from self.ask('taskwait' + items(self.rng, self.rng.choice((0, 2, 5)), self.team.addresses))

    def group(self):
        reply = yield from self.ask('group')
        if reply == 'ok':
            for _ in range(size(self.rng, 3)):
                yield from (self.create() if chance(self.rng, 0.5) else self.local())
            yield from self.ask('group_end')

    def critical(self):
        named = self.rng.choice(self.team.names)
        if (yield from self.ask('critical' + named)) == 'ok':
            self.held.append(named)
            if chance(self.rng, 0.3):
                yield from self.create()
            yield from self.ask('critical_end' + named)
            self.held.remove(named)

    def lock(self):
        """One lock is used, or made, or destroyed."""
        locks = self.team.locks
        if not locks or chance(self.rng, 0.1):
            yield from self.make_lock()
            return
        made, kind = self.rng.choice(locks)
        if chance(self.rng, 0.05):
            yield from self.ask(f'lock_destroy {made}')
            return
        times = 0
        for _ in range(self.rng.randint(1, 4) if kind else 1):
            reply = yield from self.ask(f'{self.rng.choice(("set", "test"))}{kind} {made}')
            times += reply in ('ok', 'got yes') or reply.startswith('count') and reply != 'count 0'
        for _ in range(times):
            yield from self.ask(f'unset{kind} {made}')

    def make_lock(self):
        kind = self.rng.choice(('', '_nest'))
        reply = yield from self.ask('nest_init' if kind else 'lock_init')
        if reply.startswith('lock '):
            self.team.locks.append((int(reply.split()[1]), kind))

    def cancel(self):
        """What a member does about cancellation outside of its share."""
        if self.depth:
            yield from self.cancelling('taskgroup', 0.5)
        else:
            yield from self.cancelling('parallel', self.team.cancels)

    def cancel_share(self, named, endkind):
        """The same in a share, which most often can be cancelled."""
        if chance(self.rng, 0.3 if endkind == 'cancellable' else 0.02):
            yield from self.cancelling(named, 0.1)

    def cancelling(self, named, often):
        """So often a cancel construct, else a cancellation point."""
        call = f'cancel {named} {self.rng.choice((0, 1, 1))}' if chance(self.rng, often) else f'point {named}'
        if (yield from self.ask(call)) == 'cancel yes':
            raise Leave

    # ---- very much of one kind

    def many_tasks(self, count):
        most = self.rng.choice((1, 3)) if count > 300 else self.rng.choice((1, 3, 16))
        addresses = self.rng.choice((1, 10, 1_000))
        for _ in range(count):
            depends = items(self.rng, most, addresses)
            yield from self.ask(f'task {number(self.rng, 64)} {number(self.rng, 64)}{depends}')

    def many_groups(self, count):
        """Groups in one another, with a task in some."""
        opened = 0
        for _ in range(count):
            opened += (yield from self.ask('group')) == 'ok'
            if chance(self.rng, 0.1):
                yield from self.create()
        for _ in range(opened):
            yield from self.ask('group_end')

    def many_locks(self, count):
        for _ in range(count):
            yield from self.make_lock()

    def many_names(self, count):
        """Critical names, all held at once."""
        held = self.held
        for _ in range(count):
            named = name(self.rng)
            if (yield from self.ask('critical' + named)) == 'ok':
                held.append(named)
        while held:
            yield from self.ask('critical_end' + held.pop())
