#!/usr/bin/env python3
"""Draws the trace of a text of steps: `./ompteam trace < TEXT | bench/picture.py > PICTURE.svg`.

It reads the JSON that `ompteam trace` writes from standard input, or from FILE (`bench/picture.py FILE`), and writes an SVG of at most
900 pixels' width. If it cannot, standard error has one line that says why, and the exit status is 1.

Each member has a lane, from the begin of its implicit task to its end: bars for work-shares, waits and tasks, one below another as they
nest; marks for what is of one moment: chunks and sections, creations of tasks, names and locks, cancellations. A thin line leads from
the creation of a task to its bar. The axis counts the steps. What a member does in one step stands side by side, in its order. A label
that finds no room is left out; each bar and mark has its name as a tooltip.

A trace of many steps is better seen in Perfetto (ui.perfetto.dev) or chrome://tracing: above 200 steps nothing is drawn."""
import html
import json
import math
import sys

MOST_STEPS = 200
WIDTH = 900
STEP = 78               # the most that a step is wide
ROW = 22                # a bar, with the gap below it
BAR = 18
GAP = 9                 # between lanes, and around what stands in one
LETTER = 6.9            # about the width of a letter of 12 pixels; those of 11 and bold ones differ
SMALL, BOLD = 0.92, 1.15
FIRST = 0.45            # where the axis begins, in steps
SPREAD = 0.72           # the part of a step in which its records stand
LEAST = 3               # the width of the shortest bar

# What the categories of records look like: the class, and what the legend says. Those of a moment have a mark too.
BARS = {
    'work': ('share', 'work-share'),
    'sync_region': ('wait', 'wait'),
    'task_schedule': ('task', 'task'),
}
MARKS = {
    'dispatch': ('chunk', 'circle', 'chunk (first value, iterations) or section'),
    'task_create': ('task', 'diamond', 'creation of a task'),
    'dependences': ('task', 'ring', 'its dependences'),
    'mutex_acquire': ('lock', 'frame', 'asks for a name, a lock or a turn'),
    'mutex_acquired': ('lock', 'square', 'has it'),
    'mutex_released': ('lock', 'cross', 'releases it'),
    'nest_lock': ('lock', 'bars', 'sets or unsets it once more'),
    'cancel': ('cancel', 'cross', 'cancels'),
}
OTHER_MARK = ('other', 'circle', 'other')
# The band of a lane says what these say.
UNDRAWN = {'parallel_begin', 'parallel_end'}
# What each event has, what each has that names nothing, and the numbers of its record; how the types are called.
KEYS = {'ph': str, 'name': str, 'tid': int, 'args': dict}
RECORD_KEYS = {'cat': str, 'ts': int}
NUMBERS = {'id': int, 'extra': int}
TYPES = {str: 'text', int: 'whole number', dict: 'object'}
MOST_SAID = 160         # letters of a message

STYLE = '''text{font:12px sans-serif;fill:#1f2328}
.small{font-size:11px;fill:#59636e}
.name{font-weight:bold}
.beside{stroke:#f0f2f5;stroke-width:4;paint-order:stroke}
.back{fill:#ffffff}
.band{fill:#f0f2f5}
.line{stroke:#d5dae0;fill:none}
.arrow{stroke:#59636e;fill:none}
.head{fill:#59636e}
rect.share{fill:#cfe3ff;stroke:#3268b8}
rect.wait{fill:#ffe7b8;stroke:#a86a00}
rect.task{fill:#cdeed3;stroke:#24803f}
.mark.chunk{fill:#3268b8;stroke:#3268b8}
.mark.task{fill:#24803f;stroke:#24803f}
.mark.lock{fill:#8a4fc4;stroke:#8a4fc4}
.mark.cancel{fill:#cc2f2f;stroke:#cc2f2f}
.mark.other{fill:#59636e;stroke:#59636e}
.mark.open{fill:none;stroke-width:1.6}
@media (prefers-color-scheme:dark){
text{fill:#e6edf3}
.small{fill:#9da7b3}
.beside{stroke:#1b2129}
.back{fill:#0d1117}
.band{fill:#1b2129}
.line{stroke:#3a424c}
.arrow{stroke:#9da7b3}
.head{fill:#9da7b3}
rect.share{fill:#1d3a66;stroke:#79b0ff}
rect.wait{fill:#553d0c;stroke:#e3ac3d}
rect.task{fill:#1b4a2a;stroke:#63c97e}
.mark.chunk{fill:#79b0ff;stroke:#79b0ff}
.mark.task{fill:#63c97e;stroke:#63c97e}
.mark.lock{fill:#c59bf5;stroke:#c59bf5}
.mark.cancel{fill:#ff7b72;stroke:#ff7b72}
.mark.other{fill:#9da7b3;stroke:#9da7b3}
.mark.open{fill:none}
}'''


def fail(why):
    """Ends the program, with one line of standard error."""
    why = ''.join(letter if letter.isprintable() else '?' for letter in why)
    sys.exit(f'picture.py: {why if len(why) <= MOST_SAID else why[:MOST_SAID] + "..."}')


def width_of(text, size=1):
    return len(text) * LETTER * size


def number(value):
    """A coordinate, as short as may be."""
    return f'{value:.1f}'.rstrip('0').rstrip('.')


def signed(bits):
    """The value of an iteration, of whose bits a record has the number."""
    return bits - 2 ** 64 if bits >= 2 ** 63 else bits


class Bar:
    """What begins and ends on a lane, by the places of both; its row, from 0."""

    def __init__(self, event, begin, row):
        self.name, self.category, self.task = event['name'], event['cat'], event['args'].get('id')
        self.begin, self.end, self.row = begin, None, row


class Mark:
    """What is of a moment on a lane."""

    def __init__(self, event, place):
        self.name, self.category, self.place = event['name'], event['cat'], place
        self.task = event['args'].get('id')
        self.label = self.name
        if self.category == 'dispatch':
            self.label = f"{signed(event['args']['id'])} {event['args']['extra']}"


class Lane:
    """A member: its events with their places, then its bars, its marks and the band of its implicit task."""

    def __init__(self, tid, name):
        self.tid, self.name, self.events = tid, name, []
        self.bars, self.marks, self.band = [], [], []

    def read(self):
        """Makes the bars and marks of the events: what ends is the last that has begun."""
        begun, bands = [], []
        for event, place in self.placed():
            if event['ph'] == 'B' and event['cat'] == 'implicit_task':
                bands.append(Bar(event, event['ts'], 0))
                begun.append(bands[-1])
            elif event['ph'] == 'B':
                row = sum(bar not in bands for bar in begun)
                begun.append(Bar(event, place, row))
                self.bars.append(begun[-1])
            elif event['ph'] == 'E':
                if not begun or begun[-1].name != event['name']:
                    fail(f"{self.name}: {event['name']!r} ends at {event['ts']}, and is not the last that has begun")
                bar = begun.pop()
                bar.end = event['ts'] + 0.5 if bar in bands else place
            else:
                self.marks.append(Mark(event, place))
        if begun:
            fail(f'{self.name}: {begun[-1].name!r} has no end')
        self.band = bands

    def placed(self):
        """Each event with its place: its step, and where in it, so that those of one step stand side by side."""
        for at, event in enumerate(self.events):
            alike = [other for other, same in enumerate(self.events) if same['ts'] == event['ts']]
            part = (alike.index(at) + 0.5) / len(alike) - 0.5
            yield event, event['ts'] + SPREAD * part

    def rows(self):
        return 1 + max((bar.row for bar in self.bars), default=-1)

    def height(self):
        return GAP + ROW * (self.rows() + bool(self.marks) or 1) + GAP - (ROW - BAR)


def check_keys(place, found, keys):
    for key, kind in keys.items():
        if type(found.get(key)) is not kind:
            fail(f'{place} has no {TYPES[kind]} `{key}`')


def check_event(place, event):
    """Ends the program if an event lacks what the picture needs."""
    if not isinstance(event, dict):
        fail(f'{place} is no object')
    check_keys(place, event, KEYS)
    if event['ph'] != 'M':
        check_keys(place, event, RECORD_KEYS)
        check_keys(place, event['args'], NUMBERS)
        if event['ts'] < 0:
            fail(f'{place} has a negative `ts`')
    elif event['name'] == 'thread_name':
        check_keys(place, event['args'], {'name': str})


def events_of(source, text):
    """The events of a trace, by its text; a fault names where it is from. `ompteam trace` says a fault instead of a trace."""
    try:
        trace = json.loads(text)
    except (ValueError, RecursionError):
        fail(f"{source} is no trace: {text.strip().partition(chr(10))[0] or 'it is empty'}")
    events = trace.get('traceEvents') if isinstance(trace, dict) else None
    if not isinstance(events, list):
        fail(f'{source} is no trace: it has no list `traceEvents`')
    for number, event in enumerate(events, 1):
        check_event(f'{source} is no trace: event {number}', event)
    return events


def lanes_of(events):
    """The lanes of a trace, by the number of the member, and the last step."""
    names = {event['tid']: event['args']['name'] for event in events if event['ph'] == 'M' and event['name'] == 'thread_name'}
    lanes = {tid: Lane(tid, name) for tid, name in sorted(names.items())}
    last = 0
    for event in events:
        if event['ph'] != 'M' and event['cat'] not in UNDRAWN:
            if event['tid'] not in lanes:
                fail(f"the lane of member {event['tid']} has no name")
            lanes[event['tid']].events.append(event)
            last = max(last, event['ts'])
    if not lanes:
        fail('the trace has no lane')
    if last > MOST_STEPS:
        fail(f'the trace has {last} steps, above {MOST_STEPS}: chrome://tracing and Perfetto show it')
    for lane in lanes.values():
        lane.read()
    return list(lanes.values()), last


class Row:
    """The labels of one height: where there is room for one."""

    def __init__(self, taken, first, last):
        self.taken, self.first, self.last = sorted(taken), first, last

    def put(self, begin, end):
        """Takes the room from one place to another, if it is free."""
        if begin < self.first or end > self.last or any(begin < far and near < end for near, far in self.taken):
            return False
        self.taken.append((begin, end))
        return True


class Picture:
    """The SVG of some lanes, as lines."""

    def __init__(self, lanes, steps):
        self.lanes, self.steps, self.lines = lanes, steps, []
        self.left = 20 + max(width_of(lane.name, BOLD) for lane in lanes)
        self.step = min(STEP, (WIDTH - self.left - 12) / (steps + 0.5 - FIRST))
        self.width = max(self.x(steps + 0.5) + 12, self.left + 300)
        self.tops, y = [], GAP
        for lane in lanes:
            self.tops.append(y)
            y += lane.height() + GAP
        self.axis = y

    def x(self, place):
        return self.left + (max(place, FIRST) - FIRST) * self.step

    def add(self, text):
        self.lines.append(text)

    def label(self, x, y, text, kind='', anchor='start'):
        kind = f' class="{kind}"' if kind else ''
        anchor = '' if anchor == 'start' else f' text-anchor="{anchor}"'
        self.add(f'<text x="{number(x)}" y="{number(y)}"{kind}{anchor}>{html.escape(text, False)}</text>')

    def grid(self):
        """The steps, each with a thin line; their numbers as far as there is room."""
        apart = math.ceil((width_of(str(self.steps), SMALL) + 6) / self.step)
        for step in range(1, self.steps + 1):
            x = number(self.x(step))
            self.add(f'<path class="line" d="M{x} {GAP}V{number(self.axis)}"/>')
            if step % apart == 0:
                self.label(self.x(step), self.axis + 14, str(step), 'small', 'middle')
        self.label(self.left - 8, self.axis + 14, 'step', 'small', 'end')

    def bands(self):
        for lane, top in zip(self.lanes, self.tops):
            height = lane.height()
            for bar in lane.band:
                begin, end = self.x(bar.begin), self.x(bar.end)
                self.add(f'<rect class="band" x="{number(begin)}" y="{number(top)}" width="{number(max(end - begin, LEAST))}"'
                         f' height="{number(height)}" rx="4"><title>{html.escape(bar.name)}</title></rect>')
            self.label(self.left - 8, top + height / 2 + 4, lane.name, 'name', 'end')

    def bar_y(self, lane, top, row):
        return top + GAP + ROW * (row + bool(lane.marks))

    def ends_of(self, bar):
        begin, end = self.x(bar.begin), self.x(bar.end)
        return (begin, end) if end - begin >= LEAST else (begin, begin + LEAST)

    def bars(self, lane, top):
        for row in range(lane.rows()):
            bars = [bar for bar in lane.bars if bar.row == row]
            room = Row([self.ends_of(bar) for bar in bars], self.left, self.width)
            y = self.bar_y(lane, top, row)
            for bar in bars:
                kind, _ = BARS.get(bar.category, ('share', ''))
                begin, end = self.ends_of(bar)
                self.add(f'<rect class="{kind}" x="{number(begin)}" y="{number(y)}" width="{number(end - begin)}"'
                         f' height="{BAR}" rx="3"><title>{html.escape(bar.name)}</title></rect>')
                wide = width_of(bar.name)
                if wide + 8 <= end - begin:
                    self.label(begin + 5, y + 13, bar.name)
                elif room.put(end + 1, end + 5 + wide):
                    self.label(end + 4, y + 13, bar.name, 'beside')
                elif room.put(begin - 5 - wide, begin - 1):
                    self.label(begin - 4, y + 13, bar.name, 'beside', 'end')

    def marks(self, lane, top):
        y = top + GAP + BAR / 2
        room = Row([(self.x(mark.place) - 5, self.x(mark.place) + 5) for mark in lane.marks], self.left, self.width)
        for mark in lane.marks:
            x = self.x(mark.place)
            kind, shape, _ = MARKS.get(mark.category, OTHER_MARK)
            self.shape(x, y, kind, shape, mark.name)
            wide = width_of(mark.label)
            if room.put(x + 5.1, x + 9 + wide):
                self.label(x + 8, y + 4, mark.label, 'beside')
            elif room.put(x - 9 - wide, x - 5.1):
                self.label(x - 8, y + 4, mark.label, 'beside', 'end')

    def shape(self, x, y, kind, shape, name=''):
        """A mark, with its name as a tooltip."""
        name = f'<title>{html.escape(name)}</title>' if name else ''
        kind += ' open' if shape in ('ring', 'frame', 'cross', 'bars') else ''
        paths = {
            'diamond': 'm0-5.5 5.5 5.5-5.5 5.5-5.5-5.5z',
            'square': 'm-4-4h8v8h-8z',
            'frame': 'm-4-4h8v8h-8z',
            'cross': 'm-4-4 8 8m0-8-8 8',
            'bars': 'm-4-3h8m-8 3h8m-8 3h8',
            'circle': 'm-4 0a4 4 0 1 0 8 0a4 4 0 1 0-8 0',
            'ring': 'm-4 0a4 4 0 1 0 8 0a4 4 0 1 0-8 0',
        }
        self.add(f'<path class="mark {kind}" d="M{number(x)} {number(y)}{paths[shape]}">{name}</path>')

    def arrows(self):
        """From the creation of each task to its bar: from the mark up or down, then along to the bar."""
        tasks = {}
        for lane, top in zip(self.lanes, self.tops):
            for bar in lane.bars:
                if bar.category == 'task_schedule':
                    tasks.setdefault(bar.task, (self.ends_of(bar)[0], self.bar_y(lane, top, bar.row) + BAR / 2))
        for lane, top in zip(self.lanes, self.tops):
            for mark in lane.marks:
                if mark.category == 'task_create' and mark.task in tasks:
                    x, y = self.x(mark.place), top + GAP + BAR / 2
                    to_x, to_y = tasks[mark.task]
                    y += -6 if to_y < y else 6
                    self.add(f'<path class="arrow" d="M{number(x)} {number(y)}Q{number(x)} {number(to_y)} {number(to_x - 6)}'
                             f' {number(to_y)}"/>')
                    self.add(f'<path class="head" d="M{number(to_x - 1)} {number(to_y)}l-7-3.5v7z"/>')

    def legend(self):
        """What the bars and marks of this picture are, in as many lines as they take; the height of all."""
        entries = [(kind, None, text) for category, (kind, text) in BARS.items()
                   if any(bar.category == category for lane in self.lanes for bar in lane.bars)]
        entries += [entry for category, entry in MARKS.items()
                    if any(mark.category == category for lane in self.lanes for mark in lane.marks)]
        x, y = self.left, self.axis + 34
        for kind, shape, text in entries:
            wide = 16 + width_of(text, SMALL) + 16
            if x + wide - 16 > self.width and x > self.left:
                x, y = self.left, y + 18
            if shape:
                self.shape(x + 5, y - 4, kind, shape)
            else:
                self.add(f'<rect class="{kind}" x="{number(x)}" y="{number(y - 9)}" width="11" height="10" rx="2"/>')
            self.label(x + 16, y, text, 'small')
            x += wide
        return y + 10

    def svg(self):
        self.bands()
        self.grid()
        self.arrows()
        for lane, top in zip(self.lanes, self.tops):
            self.bars(lane, top)
            self.marks(lane, top)
        height, width = number(self.legend()), number(self.width)
        title = f'The trace of a team of {len(self.lanes)}, {self.steps} steps'
        return '\n'.join([f'<svg xmlns="http://www.w3.org/2000/svg" width="{width}" height="{height}" viewBox="0 0 {width} {height}"'
                          f' role="img"><title>{title}</title>', f'<style>{STYLE}</style>',
                          f'<rect class="back" width="{width}" height="{height}"/>', *self.lines, '</svg>', ''])


def read(source, file):
    try:
        with open(file, 'rb') as stream:
            return stream.read().decode(errors='replace')
    except OSError as error:
        fail(f'{source} cannot be read: {error.strerror}')


def write(text):
    try:
        with open(1, 'wb', closefd=False) as stream:
            stream.write(text.encode(errors='replace'))
    except OSError as error:
        fail(f'standard output cannot be written: {error.strerror}')


def main():
    words = sys.argv[1:]
    if words in (['--help'], ['-h']):
        return write(f'{__doc__}\n')
    if len(words) > 1 or words and words[0].startswith('-'):
        fail('its only word is a FILE, or --help')
    source, file = (words[0], words[0]) if words else ('standard input', 0)
    write(Picture(*lanes_of(events_of(source, read(source, file)))).svg())


if __name__ == '__main__':
    main()
