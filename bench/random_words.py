"""Random numbers, names, calls, scripts and settings in the formats of docs/FORMATS.md; bench/random_run.py has what they are for."""

KINDS = ('static', 'dynamic', 'guided', 'runtime')
ENDKINDS = ('wait', 'nowait', 'cancellable')
DEPENDS = ('in', 'out', 'inout', 'inoutset', 'mutexinoutset')
CANCELS = ('parallel', 'loop', 'sections', 'taskgroup')
MOST_CHUNK = 2 ** 39
MOST_NESTED = 32


def chance(rng, part):
    return rng.random() < part


def number(rng, bits):
    """An unsigned number of that many bits: of any length, or next to a power of two."""
    if chance(rng, 0.2):
        near = 2 ** rng.randint(0, bits) + rng.randint(-2, 2)
        return min(max(near, 0), 2 ** bits - 1)
    return rng.getrandbits(rng.randint(0, bits) or 1)


def signed(rng):
    """A signed number of 64 bits."""
    if chance(rng, 0.1):
        return rng.choice((-2 ** 63, 2 ** 63 - 1))
    return rng.choice((-1, 1)) * number(rng, 63)


def size(rng, most):
    """A size of up to `most`, of any length alike."""
    return min(rng.getrandbits(rng.randint(1, most.bit_length() or 1)), most)


def word(rng, length):
    """A word of that many ASCII bytes, with control characters too."""
    return ''.join(rng.choice('abcxyz019_-=#+"\\\t\r\0\x1b\x7f') for _ in range(length))


def name(rng):
    """The name of a critical region, with the space before it: seldom too long."""
    if chance(rng, 0.1):
        return ''
    length = rng.randint(33, 300) if chance(rng, 0.02) else rng.randint(1, 32)
    return ' ' + rng.choice('abc') + word(rng, length - 1)


def items(rng, most, addresses=None):
    """Items of a depend clause, with the space before each; on few addresses, or on any."""
    chosen = (rng.randint(1, addresses) if addresses else number(rng, 64) for _ in range(rng.randint(0, most)))
    return ''.join(f' {rng.choice(DEPENDS)} {address}' for address in chosen)


def task(rng, depends=''):
    """A creation with this depend clause, code and argument of any width."""
    clauses = (' if0' if chance(rng, 0.08) else '') + (' final' if chance(rng, 0.04) else '')
    return f'task {number(rng, 64)} {number(rng, 64)}{clauses}{depends}'


def comment(rng, most=40):
    """A line that is skipped."""
    spaces = ' ' * rng.randint(0, 2)
    return spaces if chance(rng, 0.3) else f'{spaces}#{word(rng, size(rng, most))} {word(rng, 3)}'


def words_of_single(rng):
    """The words that a single broadcasts: none to eight, each of any width, or all as long as may be."""
    least = 63 if chance(rng, 0.3) else 0
    return ''.join(f' {number(rng, 64) | least and 2 ** 63 | number(rng, 64)}' for _ in range(rng.randint(0, 8)))


# ---- loops and sections, which all members of a team start alike

def loop(rng, pieces):
    """The words of a loop of about so many pieces, with bounds, step and chunk of any width, and its end kind and whether it is
    ordered."""
    kind = rng.choice(KINDS)
    chunk = 0 if kind == 'runtime' or chance(rng, 0.3) else 1 + size(rng, MOST_CHUNK - 1)
    count = rng.randint(0, pieces)
    if kind == 'static' and chunk == 0 or kind == 'guided' and chance(rng, 0.3):
        count = size(rng, MOST_CHUNK)
    elif kind != 'runtime':
        count = max(0, max(chunk, 1) * count - rng.randrange(max(chunk, 1)))
    count = min(count, MOST_CHUNK)
    step = 1 + size(rng, (2 ** 64 - 1) // max(count, 1) - 1)
    span = step * count - (rng.randrange(step) if count else 0)
    last = 2 ** 63 - 1 - span
    start = min(last, rng.choice((-2 ** 63, last, rng.randint(-2 ** 63, last), -size(rng, 2 ** 63))))
    end, step = start + span, min(step, 2 ** 63 - 1)
    if chance(rng, 0.5):
        start, end, step = -1 - start, -1 - end, -step
    endkind = rng.choice(ENDKINDS)
    is_ordered = endkind != 'cancellable' and chance(rng, 0.3)
    return f'loop {kind} {chunk} {start} {end} {step} {endkind}{" ordered" * is_ordered}', endkind, is_ordered, step


# ---- calls with any arguments

WITHOUT_ARGUMENTS = ('next', 'end', 'end_nowait', 'end_cancel', 'section_next', 'sections_end', 'sections_end_nowait',
                     'sections_end_cancel', 'ordered_end', 'task_end', 'group', 'group_end', 'resume', 'lock_init', 'nest_init')
STARTS = ('single', 'single_copy', 'barrier', 'region_end')
ON_LOCKS = ('lock_destroy', 'set', 'test', 'set_nest', 'test_nest', 'unset', 'unset_nest')


def any_loop(rng):
    return (f'loop {rng.choice(KINDS)} {signed(rng)} {signed(rng)} {signed(rng)} {signed(rng)} {rng.choice(ENDKINDS)}'
            + rng.choice(('', ' ordered')))


def any_call(rng):
    """A call with arguments of all widths. One that may break the team or end a member's part is rare."""
    if chance(rng, 0.04):
        return rng.choice((any_loop(rng), f'sections {number(rng, 32)} {rng.choice(ENDKINDS)}', 'stop', *STARTS))
    made = rng.choice((
        lambda: rng.choice(WITHOUT_ARGUMENTS),
        lambda: f'{rng.choice(ON_LOCKS)} {number(rng, 32)}',
        lambda: 'single_copy_end' + words_of_single(rng),
        lambda: f'ordered {signed(rng)}',
        lambda: task(rng, items(rng, 18)),
        lambda: 'taskwait' + items(rng, 18),
        lambda: f'cancel {rng.choice(CANCELS)} {rng.randint(0, 1)}',
        lambda: f'point {rng.choice(CANCELS)}',
        lambda: 'critical' + name(rng),
        lambda: 'critical_end' + name(rng)))
    return made()


BAD_CALLS = ('', 'jump', 'Barrier', 'barrier now', 'next 1', 'loop static', 'loop fast 1 0 9 1 wait', 'loop static 1 0 9 1 often',
             'loop static 1 0 9223372036854775808 1 wait', 'loop static 1 0 9 1 wait ordered now', 'loop static +1 0 9 1 wait',
             'sections 4294967296 wait', 'sections -1 wait', 'sections 3', 'ordered 1x', 'set 4294967296', 'task 1', 'task 1 -2',
             'task 1 18446744073709551616', 'task 1 2 if1', 'task 1 2 in', 'task 1 2 final if0', 'taskwait in x', 'cancel loop',
             'cancel loop 2', 'point team', 'single_copy_end 1 2 3 4 5 6 7 8 9', 'critical a b', 'unset', 'barrier \x80', '# \xff')


def bad_step(rng):
    """A line that is no step, though a team stands."""
    return rng.choice((f'{rng.randint(0, 3)} {rng.choice(BAD_CALLS)}', f'{number(rng, 64) + 65536} barrier', '-1 barrier', 'x',
                       '\x80'))


# ---- scripts

PLAIN = (lambda rng: 'taskwait', lambda rng: 'barrier', lambda rng: 'add it', lambda rng: f'add {signed(rng)}',
         lambda rng: f'cancel {rng.choice(CANCELS)}', lambda rng: f'point {rng.choice(CANCELS)}')
BLOCKS = {
    'for': lambda rng: any_loop(rng)[len('loop'):], 'sections': lambda rng: ' ' + rng.choice(ENDKINDS), 'single': lambda rng: '',
    'copy': lambda rng: f' {signed(rng)}', 'ordered': lambda rng: '', 'critical': name, 'group': lambda rng: '',
    'task': lambda rng: rng.choice(('', ' if0', ' final', ' if0 final')) + items(rng, 20),
    'parallel': lambda rng: f' {1 + number(rng, 31)}', 'only': lambda rng: f' {number(rng, 16)}'}


def statements(rng, most, depth=0):
    """About so many statements of a script, with those of the blocks in them."""
    lines = []
    while len(lines) < most:
        if depth == MOST_NESTED or chance(rng, 0.3):
            lines.append(rng.choice(PLAIN)(rng))
            continue
        kind = rng.choice(list(BLOCKS))
        inside = statements(rng, size(rng, most - len(lines)), depth + 1) if kind != 'sections' else []
        if kind == 'sections' and depth + 1 < MOST_NESTED:
            for _ in range(rng.randint(0, 4)):
                inside += ['section', *statements(rng, rng.randint(0, 3), depth + 2), 'endsection']
        lines += [kind + BLOCKS[kind](rng), *inside, 'end' + kind]
    return lines


# ---- settings

GOOD_SCHEDULES = ('static', 'static,4', 'Dynamic , 2', 'monotonic:guided,007', 'NONMONOTONIC:auto', 'guided', 'dynamic,549755813888')
GOOD = {'OMP_NUM_THREADS': ('1', '4,3 , 2', '2147483647,1,1,1,1,1', ' 08'), 'OMP_DYNAMIC': ('true', 'FALSE ', '\tFalse'),
        'OMP_SCHEDULE': GOOD_SCHEDULES, 'OMP_MAX_ACTIVE_LEVELS': ('0', '3', '2147483647'),
        'OMP_THREAD_LIMIT': ('1', '64', '2147483647')}
BAD = {'OMP_NUM_THREADS': ('', '0', '1,', '1,0', '2147483648'), 'OMP_DYNAMIC': ('yes', '', 'true false'),
       'OMP_CANCELLATION': ('1', 'tru', 'true,'),
       'OMP_SCHEDULE': ('', 'static,0', 'dynamic,', 'auto,x', 'fast', 'static,549755813889'),
       'OMP_MAX_ACTIVE_LEVELS': ('-1', '', '2147483648', '1.0'), 'OMP_THREAD_LIMIT': ('0', '+1', '\u00e9')}


def any_text(rng, length):
    """A text of any characters but NUL, which is no option, and with no equals sign."""
    alphabet = ''.join(map(chr, range(1, 300))).replace('=', '') + '\u4e16\U0001f600'
    return ''.join(rng.choice(alphabet) for _ in range(length)).lstrip('-')


def setting(rng):
    """A word NAME=VALUE, and the name if it is ignored, else None."""
    kind = rng.random()
    if kind < 0.4:
        named = rng.choice(list(GOOD))
        return f'{named}={rng.choice(GOOD[named])}', None
    named = rng.choice(list(BAD)) if kind < 0.7 else any_text(rng, size(rng, 200 if chance(rng, 0.1) else 8))
    value = rng.choice(BAD.get(named, ('', '1', 'true', '=', any_text(rng, size(rng, 300)) + '\x01')))
    return f'{named}={value}', named


def settings(rng, cancellation):
    """Words NAME=VALUE, of which the last on cancellation says so, and the lines on standard error that name the ignored ones."""
    made = [setting(rng) for _ in range(rng.choice((0, 0, 0, 1, 2, 5, size(rng, 400))))]
    made.insert(rng.randint(0, len(made)), (f'OMP_CANCELLATION={"true" if cancellation else "false"}', None))
    notes = ''.join(f'ignored {named}\n' for _, named in made if named is not None)
    return [given for given, _ in made], notes
