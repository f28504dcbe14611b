"""Long texts, chosen by no reply: each is of one team, in parts that do much of one thing. bench/random_run.py has what they are for."""

from random_words import chance, items, name, number, size, statements, words_of_single

LIMIT = 2 ** 24     # the bytes of a text
DEEPEST = 64        # of tasks in one another


def groups(rng, members, count):
    """Groups in one another, and groups in turn."""
    nested = rng.randint(0, count)
    return ['0 group'] * nested + ['0 group_end'] * nested + ['0 group', '0 group_end'] * (count - nested)


def barriers(rng, members, count):
    arrivals = [f'{member} barrier' for member in range(members)] + [f'{member} resume' for member in range(members - 1)]
    return arrivals * (count // members)


def loops(rng, members, count):
    """One loop of very many chunks, which member 0 takes."""
    words = f'loop dynamic 7 0 {count * 7} 1 nowait'
    return ([f'0 {words}'] + ['0 next'] * count + [f'{member} {words}' for member in range(1, members)]
            + [f'{member} end_nowait' for member in range(members)])


def sections(rng, members, count):
    count = min(count, 65_536)
    others = [f'{member} sections {count} nowait' for member in range(1, members)]
    return ([f'0 sections {count} nowait'] + ['0 section_next'] * count + others
            + [f'{member} sections_end_nowait' for member in range(members)])


def singles(rng, members, count):
    starts = [f'{member} single' for member in range(members)]
    return starts * min(count // members, 40_000)


def copy(members, executor, words):
    """A single of which one member broadcasts these words to all others."""
    others = [f'{member} single_copy' for member in range(members) if member != executor]
    return [f'{executor} single_copy', f'{executor} single_copy_end{words}', *others]


def copies(rng, members, count):
    return [line for step in range(min(count // members, 20_000)) for line in copy(members, step % members, words_of_single(rng))]


def names(rng, members, count):
    """Critical names, a few hundred of them held at once."""
    held = [f'{number(rng, 20)}_{step}' for step in range(count)]
    lines = []
    for first in range(0, count, 500):
        lines += [f'0 critical {each}' for each in held[first:first + 500]]
        lines += [f'0 critical_end {each}' for each in held[first:first + 500]]
    return lines


def locks(rng, members, count):
    """Locks of both kinds, all set at once, and a nestable one that is set very often."""
    made = [rng.choice(('lock', 'nest')) for _ in range(count)]
    calls = {'lock': 'set', 'nest': 'set_nest'}
    used = [f'{calls[kind]} {place}' for place, kind in enumerate(made)]
    return ([f'0 {kind}_init' for kind in made] + [f'0 {call}' for call in used] + [f'0 un{call}' for call in used] + ['0 nest_init']
            + [f'0 set_nest {count}'] * count + [f'0 unset_nest {count}'] * count)


def tasks_in_one_another(rng, members, count):
    """Tasks as deep as they may lie, each with items and waited for in its parent."""
    lines = []
    for _ in range(count // (5 * DEEPEST)):
        in_group = chance(rng, 0.5)
        depends = [items(rng, 3, 9) for _ in range(DEEPEST + 1)]
        for each in depends:
            lines += ['0 group'] * in_group + [f'0 task {number(rng, 64)} 0{each}', '0 group_end' if in_group else '0 taskwait']
        lines += ['0 task_end', '0 resume'] * DEEPEST
    return lines


def tasks_in_turn(rng, members, count):
    """Tasks, each of which is executed before the next is created."""
    lines = []
    for _ in range(count // 4):
        lines += [f'0 task {number(rng, 64)} {number(rng, 64)}{items(rng, 1, 9)}', '0 taskwait', '0 task_end', '0 resume']
    return lines


def open_tasks(rng, members, count):
    """Some thousand open tasks with items, executed one by one."""
    count = min(count // 3, rng.randint(300, 3_000))
    created = [f'0 task {number(rng, 64)} {number(rng, 64)} {kind} {number(rng, 64) if chance(rng, 0.5) else step % 7}'
               for step, kind in zip(range(count), ('in', 'out', 'inoutset', 'in') * count)]
    return created + ['0 taskwait'] + ['0 task_end', '0 resume'] * count


def discarded(rng, members, count):
    """The end of the region: tasks that nobody starts, whose events come when it is cancelled, and calls in a cancelled region."""
    creations = [f'0 task {number(rng, 12)} {number(rng, 12)}' for _ in range(100)]
    creations_with_items = [f'0 task {number(rng, 64)} {number(rng, 64)} in {number(rng, 64)}' for _ in range(400)]
    last = [f'{member} region_end' for member in range(members)] + [f'{member} resume' for member in range(members)]
    running = ['1 group', f'1 task {number(rng, 64)} {number(rng, 64)}', '1 group_end']
    cancelled = ['0 cancel parallel 1', '1 group', '1 task 1 2 in 3', '1 group_end', '1 cancel taskgroup 1', '1 task_end', '1 resume']
    return creations_with_items + creations * (count // 100) + running + cancelled + last


PARTS = (groups, barriers, loops, sections, singles, copies, names, locks, tasks_in_one_another, tasks_in_turn, open_tasks)


def many_events(rng):
    """A team that has more than 150,000 groups, 400,000 records and a million events; the lines of its text."""
    members = rng.randint(2, 4)
    parts = [(groups, rng.randint(160_000, 200_000)), (open_tasks, 9_000), (barriers, rng.randint(30_000, 60_000))]
    rng.shuffle(parts)
    lines = [line for part, count in parts for line in part(rng, members, count)]
    return [f'team {members}', *lines, *discarded(rng, members, rng.randint(340_000, 400_000))]


def many_calls(rng, count):
    """A team that makes about so many calls of each kind; the lines of its text."""
    members, parts = rng.randint(2, 6), list(PARTS)
    rng.shuffle(parts)
    lines = [line for part in parts for line in part(rng, members, count)]
    return [f'team {members}', *lines, *discarded(rng, members, count)]


def long_answers(rng):
    """A team that is answered more than 2^25 bytes: eight words of a single as long as may be, copied by all but one of 64 members."""
    words = ''.join(f' {rng.randint(10 ** 19, 2 ** 64 - 1)}' for _ in range(8))
    return ['team 64', *(line for step in range(3_300) for line in copy(64, step % 64, words))]


def script(rng, count):
    """The lines of a script of about so many statements. If there are many, some thousand of them come again and again."""
    lines = ['region' if chance(rng, 0.5) else f'region {1 + number(rng, 31)}']
    while len(lines) <= count:
        lines += statements(rng, min(count, 2_000)) * rng.randint(1, 1 + count // 4_000)
    return lines


def padded(rng, lines, room):
    """These lines, with comments between them that make their text so many bytes longer."""
    lines = list(lines)
    while room > 0:
        length = min(room, 1 + rng.choice((0, 1, 80, 4_096, 65_536, size(rng, LIMIT))))
        lines.insert(rng.randint(0, len(lines)), '#' * (length > 1) + 'x' * (length - 2))
        room -= length
    return lines
