#!/usr/bin/python3
"""A screen for janus-steps: the source with the next statement marked, the values, the open calls and a bar of steps, and keys to go on and back.

usage: janus-steps-screen [--program FILE] FILE [--cell N]         (--program: a janus-steps elsewhere than beside this one or in PATH)
"""
import contextlib
import curses
import locale
import os
import re
import signal
import sys
import textwrap
import time
import unicodedata

sys.path.insert(0, os.path.dirname(os.path.realpath(__file__)))          # not as janus_lexer, which needs Pygments

from cells import VERSION  # noqa: E402
from refusals import REFUSALS, advice  # noqa: E402
from steps import CALL, Child, Ended, Walk, program  # noqa: E402

HELP = '''Right, Space  one step on                     Left, Backspace  one step back
              (a number typed before: so many)
Down, Enter   the next statement or test      Up   the one before
              (both pass over calls)
f             until this call is left         F    back to where it was made
G, End        to the end, or to the fault     g, Home  to the start
t  to a line                                  T    back to one
w  until a value changes                      W    back until it does
u  until an expression holds                  U    back until one does
#  to a step by its number                    '    to where you were before
v  all values in full                         :    a command of janus-steps
PageUp, PageDown  scroll the source           q    quit
Esc, Ctrl-C   stop what takes long

The mark > is at the next statement or test, < if the procedure runs backward
because it was uncalled, and . if the next step has no place of its own.
A * is before each value that has changed since this call was last shown; the
old value is after it.'''
KEYS = {False: 'Right Left step  Down Up statement  f F call  g G ends  w u t seek  ? help  q quit',
        True: '\u2192 \u2190 step   \u2193 \u2191 statement   f F call   g G ends   w u t seek   ? help   q quit'}
SCOUT = 20                      # seconds after which the cell's end is looked for no more
MOST_SEEN = 256                 # so many calls are remembered with the values that were shown there
NARROW = 60                     # columns below which the values are under the source
ESCAPE, CTRL_C = 27, 3
RUNNING = 'running; Esc stops'
BACKSPACES = (curses.KEY_BACKSPACE, 8, 127)
PLAIN = {'bar': '|', 'full': '#', 'empty': '-', 'more': '~', 'line': '-'}
SIGNS = {'bar': '\u2502', 'full': '\u2588', 'empty': '\u2591', 'more': '\u2026', 'line': '\u2500'}


def is_utf8():
    """Whether the terminal takes UTF-8, by the locale as it was before Python put UTF-8 in the place of none."""
    given = os.environ.get('LC_ALL') or os.environ.get('LC_CTYPE') or os.environ.get('LANG') or 'C'
    if given == 'C.UTF-8' and not os.environ.get('LC_ALL') and os.environ.get('LANG', 'C') in ('', 'C', 'POSIX'):
        return False
    return 'UTF-8' in given.upper().replace('UTF8', 'UTF-8')


def columns_of(sign):
    return 0 if unicodedata.combining(sign) else 2 if unicodedata.east_asian_width(sign) in 'WF' else 1


class Text:
    """How texts are written on this terminal: which signs it has, and how wide they are."""
    def __init__(self):
        self.is_utf8 = is_utf8()
        self.signs = SIGNS if self.is_utf8 else PLAIN

    def clean(self, text):
        text = text.expandtabs(4)
        text = ''.join(it if it.isprintable() else '?' for it in text)
        return text if self.is_utf8 else text.encode('ascii', 'replace').decode()

    def fit(self, text, width):
        """The text, cut with a sign that there is more of it."""
        text, used = self.clean(text), 0
        for at, sign in enumerate(text):
            used += columns_of(sign)
            if used > width:
                while at and sum(map(columns_of, text[:at])) > width - 1:
                    at -= 1
                return (text[:at] + self.signs['more'])[:max(width, 0)]
        return text


class Seen:
    """The values that were shown last in each call, by the calls that were open."""
    def __init__(self):
        self.values = {}

    def changes(self, view):
        """The names whose values are others, each with what it was."""
        frame, now = tuple(view.calls), dict(view.values)
        before = self.values.pop(frame, now)
        self.values[frame] = now
        if len(self.values) > MOST_SEEN:
            del self.values[next(iter(self.values))]
        return {name: before.get(name) for name, line in now.items() if before.get(name) != line}


class Scout:
    """A second walk that looks for the cell's end meanwhile, so that the bar knows how many steps there are."""
    def __init__(self, words):
        self.end, self.is_fault, self.until = None, False, time.monotonic() + SCOUT
        self.child = Child(words)
        os.setpriority(os.PRIO_PROCESS, self.child.process.pid, 10)
        self.child.ask('to-end\n')

    def look(self):
        if self.child is None:
            return
        try:
            view = self.child.hear(0)
        except Ended:
            self.close()
            return
        if view:
            self.end, self.is_fault = view.count, view.is_fault()
        if view or time.monotonic() > self.until:
            self.close()

    def close(self):
        if self.child:
            self.child.close()
        self.child = None


class Screen:
    def __init__(self, window, walk, words, path, source):
        self.window, self.walk, self.path, self.source = window, walk, path, source
        self.text, self.seen, self.scout = Text(), Seen(), Scout(words)
        self.most, self.before, self.scroll, self.number = 0, 0, 0, ''
        self.line = walk.first_line               # the line that was marked last
        self.changed, self.message, self.name, self.is_bad = {}, '', '', False
        walk.waits = self.waits
        self.set_colours()
        self.arrive()
        self.message = ', '.join([*walk.before, 'Right: one step on. Left: one back. G: to the end or the fault. ?: all keys'])

    def set_colours(self):
        with contextlib.suppress(curses.error):
            curses.curs_set(0)                                            # not every terminal can hide its cursor
        self.window.keypad(True)
        self.colours = {name: curses.A_BOLD for name in ('changed', 'bad', 'mark')}
        self.colours['faint'] = curses.A_NORMAL
        if os.environ.get('NO_COLOR') or not curses.has_colors():
            return
        curses.start_color()
        curses.use_default_colors()
        for number, (name, colour) in enumerate([('changed', curses.COLOR_YELLOW), ('bad', curses.COLOR_RED), ('mark', curses.COLOR_GREEN),
                                                 ('faint', curses.COLOR_CYAN)], 1):
            curses.init_pair(number, colour, -1)
            self.colours[name] = curses.color_pair(number) | (curses.A_NORMAL if name == 'faint' else curses.A_BOLD)

    # ---- the walk
    def arrive(self):
        """Takes in what the walk tells now."""
        view = self.walk.view
        self.changed = self.seen.changes(view)
        self.line = view.line or self.line_of_body(view) or self.line
        self.most = max(self.most, view.count)
        self.scroll = 0
        self.is_bad = view.is_fault() or view.said[:1] != [] and view.said[0].startswith('refused')
        self.message = self.words_of(view)

    def line_of_body(self, view):
        """Where a procedure that begins or ends stands in the source."""
        if view.words not in ('begin', 'end') or not view.procedure:
            return None
        head = re.compile(rf'\bprocedure\s+{view.procedure}\b')
        return next((at for at in range(len(self.source), 0, -1) if head.search(self.source[at - 1])), None)

    def words_of(self, view):
        said = ', '.join([*view.said[:1], *view.read])
        number = int(view.said[0].split()[1]) if view.is_fault() else 0
        return said + (': ' + advice(number, view.is_inverse) if number in REFUSALS else '')

    def go(self, move):
        """Moves, and remembers where it was. A search that finds nothing ends at an end of the cell, which is told."""
        at = self.walk.view.count
        move()
        if self.walk.view.count != at:
            self.before = at
        self.arrive()
        if self.walk.view.is_missing:
            self.message = f"not found: {self.message}; ' leads back to step {at}"

    def waits(self):
        """Looks at the keys while an answer is awaited."""
        self.window.timeout(0)
        key = self.window.getch()
        if key == curses.KEY_RESIZE or self.message != RUNNING:
            self.message = RUNNING
            self.draw()
        return key in (ESCAPE, CTRL_C)

    # ---- drawing
    def put(self, row, column, text, width, style=0):
        """Writes a text into so many columns. What doesn't fit on the screen is left out."""
        height, total = self.window.getmaxyx()
        width = min(width, total - column)
        if not 0 <= row < height or width <= 0:
            return
        text = self.text.fit(text, width - (row == height - 1 and column + width == total))
        self.window.addstr(row, column, text, style)

    def draw(self):
        self.window.erase()
        height, width = self.window.getmaxyx()
        said = self.folded(self.message, width)[:2]
        body, side = max(height - 3 - len(said), 1), 0 if width < NARROW else min(max(width * 2 // 5, 24), 70)
        self.put(0, 0, self.title().ljust(width), width, curses.A_REVERSE)
        if side:
            left = width - side - 1
            for row in range(1, body + 1):
                self.put(row, left, self.text.signs['bar'], 1, self.colours['faint'])
            self.draw_source(1, body, left)
            self.draw_side(1, left + 1, body, side)
        else:
            above = max(body * 3 // 5, 1)
            self.draw_source(1, above, width)
            self.draw_side(above + 1, 0, body - above, width)
        self.put(body + 1, 0, self.bar(width), width)
        for row, line in enumerate(said, body + 2):
            self.put(row, 0, line, width, self.colours['bad'] if self.is_bad else curses.A_NORMAL)
        self.put(height - 1, 0, f'{self.number} {KEYS[self.text.is_utf8]}', width, self.colours['faint'])
        self.window.refresh()

    def title(self):
        view = self.walk.view
        where = f' in {view.procedure}' if view.procedure else ''
        way = ', run backward' if view.is_inverse else ''
        return f' {os.path.basename(self.path)}  {view.words}{where}{way}'

    def draw_source(self, top, height, width):
        view, digits = self.walk.view, len(str(len(self.source)))
        first = min(max(self.line - 1 - height // 2 + self.scroll, 0), max(len(self.source) - height, 0))
        self.scroll = first - max(self.line - 1 - height // 2, 0) if self.scroll else 0
        for row, text in enumerate(self.source[first:first + height]):
            number = first + row + 1
            is_here, mark = number == view.line, ' '
            if number == self.line:
                mark = ('<' if view.is_inverse else '>') if is_here else '.'
            self.put(top + row, 0, f'{mark}{number:{digits}} ', width, self.colours['mark'] if is_here else self.colours['faint'])
            self.draw_line(top + row, digits + 2, text, width - digits - 2, is_here and view.column)

    def draw_line(self, row, left, text, width, column):
        if not column:
            return self.put(row, left, text, width)
        at = len(text[:column - 1].expandtabs(4))
        text = text.expandtabs(4)
        end = at + 1
        while end < len(text) and (text[at] + text[end]).replace('_', 'a').isalnum():
            end += 1
        cut = max(0, end + 8 - width) if len(text) > width else 0
        parts = (text[cut:at], curses.A_BOLD), (text[at:end], self.colours['mark'] | curses.A_REVERSE), (text[end:], curses.A_BOLD)
        for part, style in parts:
            self.put(row, left, part, width, style)
            used = sum(map(columns_of, self.text.clean(part)))
            left, width = left + used, width - used
        return None

    def draw_side(self, top, left, height, width):
        view = self.walk.view
        calls = min(view.depth(), max(height // 3, 2)) + (view.depth() > 0)
        self.put(top, left, ' Values' + (f' in {view.procedure}' if view.procedure else ''), width, curses.A_UNDERLINE)
        self.draw_values(top + 1, left, height - 1 - calls, width)
        if calls:
            self.draw_calls(top + height - calls, left, calls, width)

    def draw_values(self, top, left, height, width):
        values = self.walk.view.values
        if len(values) > height:
            values = sorted(values, key=lambda it: it[0] not in self.changed)
        for row, (name, line) in enumerate(values[:height]):
            is_last = row == height - 1 and len(values) > height
            if is_last:
                self.put(top + row, left, f' {len(values) - row} more: v shows all', width, self.colours['faint'])
            elif name in self.changed:
                was = self.changed[name]
                old = '   was ' + (was.split(' =', 1)[1].strip() or 'empty') if was and len(was) + len(line) < width else ''
                self.put(top + row, left, '*' + line + old, width, self.colours['changed'])
            else:
                self.put(top + row, left, ' ' + line, width)

    def draw_calls(self, top, left, height, width):
        calls = self.walk.view.calls
        hidden = len(calls) - (height - 1)
        self.put(top, left, ' Calls' + (f', and {hidden} more outside' if hidden > 0 else ''), width, curses.A_UNDERLINE)
        for row, call in enumerate(calls[max(hidden, 0):], 1):
            word, name, line = call.split()[0], CALL.match(call)[1], CALL.match(call)[2]
            self.put(top + row, left, f' {word} {name}  line {line}' + (', backward' if call.endswith(' inverse') else ''), width)

    def bar(self, width):
        count, end = self.walk.view.count, self.scout.end
        total = max(self.most, end or 0)
        known = f'{end}' + (', a fault' if self.scout.is_fault else '') if end is not None else f'{self.most} or more'
        words = f' step {count} of {known} '
        room = max(width - len(words) - 2, 0)
        full = room * count // total if total else 0
        return words + '[' + self.text.signs['full'] * full + self.text.signs['empty'] * (room - full) + ']'

    def overlay(self, lines):
        """Shows lines over everything, a screenful at a time, until a key is pressed."""
        height, width = self.window.getmaxyx()
        while lines:
            self.window.erase()
            for row, line in enumerate(lines[:height - 1]):
                self.put(row, 0, line, width)
            lines = lines[height - 1:]
            self.put(height - 1, 0, 'any key goes on' if lines else 'any key leads back', width, curses.A_REVERSE)
            self.window.refresh()
            self.window.timeout(-1)
            key = self.window.getch()
            if key == curses.KEY_RESIZE or key in (ESCAPE, ord('q')):
                return

    def folded(self, line, width):
        return textwrap.wrap(line, max(width - 1, 1)) or ['']

    def whole(self, lines):
        """Lines that are folded where they are too long."""
        return [part for line in lines for part in self.folded(line, self.window.getmaxyx()[1])]

    # ---- keys
    def prompt(self, words, given=''):
        """A line that is typed below, or None."""
        text = given
        while True:
            height, width = self.window.getmaxyx()
            self.draw()
            self.put(height - 1, 0, f'{words}: {text}_'.ljust(width), width, curses.A_REVERSE)
            self.window.refresh()
            self.window.timeout(-1)
            try:
                key = self.window.get_wch()
            except curses.error:
                continue
            if key in ('\n', '\r', curses.KEY_ENTER):
                return text.strip() or None
            if key in ('\x1b', '\x03'):
                return None
            if key in BACKSPACES or key in ('\x08', '\x7f'):
                text = text[:-1]
            elif key == '\x15':                                           # Ctrl-U
                text = ''
            elif isinstance(key, str) and key.isprintable():
                text += key

    def seek(self, command, words, given=''):
        found = self.prompt(words, given)
        if found:
            self.go(lambda: self.walk.go(f'{command} {found}'))
        return found

    def watch(self, command, words):
        self.name = self.seek(command, words, self.name) or self.name

    def command(self):
        found = self.prompt('command')
        if found == 'quit':
            return True
        if found:
            self.go(lambda: self.walk.go(found))
            raw = self.walk.view.raw
            if found in ('show', 'calls', 'list', 'where', 'count') and raw:
                self.overlay(self.whole(raw))
        return False

    def to_step(self):
        found = self.prompt('to step')
        if found and found.isdecimal():
            self.go(lambda: self.walk.to_step(int(found)))

    def finish(self):
        depth = self.walk.view.depth()
        self.go(lambda: self.walk.back_out_of(depth - 1) if depth else self.walk.go('to-start'))

    def obey(self, key):
        """Does what a key asks for; true leaves the screen."""
        number, self.number = self.number, ''
        walk, sign = self.walk, chr(key) if 0 <= key < 256 else ''
        if sign.isdigit():
            self.number = (number + sign)[:12]
        elif key == curses.KEY_RIGHT or sign in (' ', 'l') and sign:
            self.go(lambda: walk.go(f'step {number or 1}'))
        elif key == curses.KEY_LEFT or key in BACKSPACES or sign == 'h':
            self.go(lambda: walk.go(f'back {number or 1}'))
        elif key in (curses.KEY_DOWN, curses.KEY_ENTER) or sign in ('\n', '\r', 'j', 'n') and sign:
            self.go(walk.next)
        elif key == curses.KEY_UP or sign in ('k', 'p') and sign:
            self.go(walk.previous)
        elif key in (curses.KEY_HOME, curses.KEY_END) or sign in ('g', 'G') and sign:
            self.go(lambda: walk.go('to-start' if key == curses.KEY_HOME or sign == 'g' else 'to-end'))
        elif key in (curses.KEY_PPAGE, curses.KEY_NPAGE):
            self.scroll += (self.window.getmaxyx()[0] - 6) * (-1 if key == curses.KEY_PPAGE else 1)
        else:
            return self.obey_letter(sign)
        return False

    def obey_letter(self, sign):
        acts = {
            'f': lambda: self.go(lambda: self.walk.go('finish')), 'F': self.finish,
            't': lambda: self.seek('to', 'to line'), 'T': lambda: self.seek('back-to', 'back to line'),
            'w': lambda: self.watch('watch', 'on until the value changes of'), 'W': lambda: self.watch('back-watch', 'back until the value changes of'),
            'u': lambda: self.seek('until', 'on until'), 'U': lambda: self.seek('back-until', 'back until'),
            '#': self.to_step, "'": lambda: self.go(lambda at=self.before: self.walk.to_step(at)),
            'v': lambda: self.overlay(self.whole([line for _, line in self.walk.view.values] or ['no names are in sight'])),
            '?': lambda: self.overlay(HELP.split('\n')), ':': self.command, 'q': lambda: True,
        }
        return sign in acts and acts[sign]() is True

    def serve(self):
        while True:
            self.draw()
            self.window.timeout(250 if self.scout.child else -1)
            key = self.window.getch()
            self.scout.look()
            if key >= 0 and key != curses.KEY_RESIZE and self.obey(key):
                return


def words_of(given):
    """The program's own words from those of the command line, or None."""
    of = None
    if given[:1] == ['--program'] and len(given) > 1:
        of, given = given[1], given[2:]
    is_good = len(given) == 1 or len(given) == 3 and given[1] == '--cell' and given[2].isdecimal()
    return (of, given) if is_good and not given[0].startswith('-') else None


def main(given):
    if given == ['--version']:
        print('janus-steps-screen', VERSION)
        return 0
    words = words_of(given)
    if words is None:
        is_help = given in (['--help'], ['-h'])
        print(__doc__.split('\n')[2], file=sys.stdout if is_help else sys.stderr)
        return 0 if is_help else 2
    if not sys.stdin.isatty() or not sys.stdout.isatty():
        print('janus-steps-screen needs a terminal; janus-steps reads its commands from standard input', file=sys.stderr)
        return 2
    found = program(words[0])
    if found is None:
        print('janus-steps-screen: no program ' + (words[0] or 'janus-steps beside this one or in PATH'), file=sys.stderr)
        return 1
    return show([found, *words[1]])


def show(words):
    locale.setlocale(locale.LC_ALL, '')
    for it in signal.SIGTERM, signal.SIGHUP:
        signal.signal(it, lambda number, _: sys.exit(128 + number))       # so that the programs that it started are ended too
    os.environ.setdefault('ESCDELAY', '25')
    walk = None
    try:
        with open(words[1], encoding='utf-8', errors='replace', newline='\n') as file:
            source = [line.rstrip('\r') for line in file.read().split('\n')]
        walk = Walk(words)
        curses.setupterm()
        serve(walk, words, source)
    except (OSError, Ended) as error:
        print(f'janus-steps-screen: {error}', file=sys.stderr)
        return 1
    except curses.error as error:
        print(f'janus-steps-screen: the terminal can\'t be used ({error}); janus-steps reads its commands from standard input', file=sys.stderr)
        return 1
    except KeyboardInterrupt:
        return 1
    finally:
        if walk:
            walk.close()
    return 0


def serve(walk, words, source):
    window, screen = curses.initscr(), None                               # not curses.wrapper, which paints all black
    try:
        curses.noecho()
        curses.raw()
        screen = Screen(window, walk, words, words[1], source)
        screen.serve()
    finally:
        if screen:
            screen.scout.close()
        window.keypad(False)
        curses.noraw()
        curses.echo()
        curses.endwin()


if __name__ == '__main__':
    sys.exit(main(sys.argv[1:]))
