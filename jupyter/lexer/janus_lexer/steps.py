"""A walk through a cell by the program janus-steps, which is asked over pipes: where it is, the names in sight, the open calls and the steps taken."""
import os
import re
import select
import shutil
import subprocess
import sys
import time

ASK = 'where\nshow\ncalls\ncount\n'
LAST = re.compile(r'^steps \d+\n\Z', re.M)
PLACE = re.compile(r'step (\d+)(?: line (\d+) column (\d+))?(?: (.+?))?(?: in (\w+))?( inverse)?$')
VALUE = re.compile(r'(\w+)(?:\[\d+\]|\(\d+\))? =')
CALL = re.compile(r'(?:un)?call (\w+) line (\d+) column \d+')
STOP = re.compile(r'(?:begin|end|before|test|entry|exit|again)\b')      # a statement begins or a test is made
MISSING = 'not found'                                                 # a search has ended where it found nothing
STOPPED = 'stopped, and brought back to where it was'


def program(given=None):
    """Where janus-steps is: as given, beside the program that runs, in PATH, or in the tree."""
    here = os.path.dirname(os.path.abspath(sys.argv[0]))
    tree = os.path.join(os.path.dirname(os.path.realpath(__file__)), *['..'] * 3, 'crates', 'janus_steps', 'out', 'janus_steps')
    found = [given] if given else [f'{here}/janus-steps', shutil.which('janus-steps') or '', tree]
    return next((it for it in found if it and os.access(it, os.X_OK) and not os.path.isdir(it)), None)


class Ended(Exception):
    """The program has ended; what it said last."""


class View:
    """What the program tells after a command: `raw` is all of the command's own answer, `said` the lines of it that aren't about a place, `is_missing`
    that a search found nothing, and `read` the names that a fault's step reads, with their values."""
    def __init__(self, answer):
        lines = answer.split('\n')[:-2]                                   # without the line of `count`, which `where` has too
        last = max(at for at, it in enumerate(lines) if PLACE.match(it))
        found = PLACE.match(lines[last])
        self.count, self.line, self.column = int(found[1]), found[2] and int(found[2]), found[3] and int(found[3])
        self.words, self.procedure, self.is_inverse = found[4] or '', found[5], bool(found[6])
        self.place = lines[last]
        rest = lines[last + (2 if self.line else 1):]
        self.values = [(VALUE.match(it)[1], it) for it in rest if VALUE.match(it)]
        self.calls = [it for it in rest if CALL.match(it)]
        self.raw = lines[:last]
        said = [it for it in self.raw if not PLACE.match(it) and not it.startswith('  ')]
        self.is_missing, self.said = MISSING in said, [it for it in said if it != MISSING]
        self.read = [it.strip() for it in self.raw if it.startswith('  ')][bool(self.line):] if self.is_fault() else []
        self.is_stop = bool(STOP.match(self.words)) and self.words != 'before skip'       # a part that was left out, mostly

    def is_fault(self):
        return any(it.startswith('fault ') for it in self.said)

    def depth(self):
        return len(self.calls)

    def line_of_call(self):
        """The line on which the innermost call was made."""
        return int(CALL.match(self.calls[-1])[2]) if self.calls else None


class Child:
    """The program, with one question under way at most."""
    def __init__(self, words):
        self.words, self.heard = words, ''
        self.process = subprocess.Popen(words, stdin=subprocess.PIPE, stdout=subprocess.PIPE, stderr=subprocess.PIPE)

    def ask(self, commands):
        self.heard = ''
        try:
            self.process.stdin.write((commands + ASK).encode())
            self.process.stdin.flush()
        except BrokenPipeError:
            pass                                                          # its end is noticed by whoever reads on

    def hear(self, seconds):
        """The answer, or None if it isn't there after so many seconds."""
        out, until = self.process.stdout, time.monotonic() + seconds
        while not LAST.search(self.heard[-64:]):
            if not select.select([out], [], [], max(0, until - time.monotonic()))[0]:
                return None
            read = os.read(out.fileno(), 65536)
            if not read:
                raise Ended((self.heard + self.process.stderr.read().decode(errors='replace')).strip())
            self.heard += read.decode(errors='replace')
        return View(self.heard)

    def close(self):
        self.process.kill()
        self.process.wait()
        for it in self.process.stdin, self.process.stdout, self.process.stderr:
            try:
                it.close()
            except BrokenPipeError:
                pass


class Walk:
    """A walk that can be stopped: then the program is started anew and brought to where it was, which is the same since nothing is left to chance."""
    def __init__(self, words, waits=None):
        self.words = words
        self.waits = waits or (lambda: False)                             # called while an answer is awaited; true asks to stop
        self.child = Child(words)
        self.view = self.wait('list\n')
        listed = re.search(r'^[> ] (\d+) ', '\n'.join(self.view.raw), re.M)
        self.first_line = int(listed[1]) if listed else 1
        self.before = [it for it in self.view.said if it.startswith('cell ') and ' ok node ' not in it]         # cells that left nothing behind
        self.view.said = []

    def wait(self, commands):
        self.child.ask(commands)
        found = self.child.hear(.05)
        while found is None:
            if self.waits():
                return self.stop()
            found = self.child.hear(.05)
        return found

    def stop(self):
        at = self.view.count
        self.child.close()
        self.child = Child(self.words)
        self.child.ask(f'step {at}\n' if at else '')
        found = None
        while found is None:
            found = self.child.hear(1)
        found.said = [STOPPED]
        return found

    def go(self, command):
        self.view = self.wait(command + '\n')
        return self.view

    def to_step(self, count):
        """Goes to the step of a number."""
        way = count - self.view.count
        return self.go(f'step {way}' if way > 0 else f'back {-way}' if way < 0 else 'where')

    def back_out_of(self, depth):
        """From inside a call goes back until no more than so many are open."""
        while self.view.depth() > depth:
            before = self.view.count
            self.go(f'back-to {self.view.line_of_call()}')
            if self.view.count == before or self.was_stopped():
                return

    def next(self):
        """Goes on to the next statement or test, passing over calls."""
        while True:
            self.go('next')
            if self.view.is_stop or self.view.said:
                return

    def previous(self):
        """Goes back to the statement or test before, passing over calls."""
        depth = self.view.depth()
        while True:
            before = self.view.count
            self.go('back')
            if self.was_stopped() or self.view.count == before:
                return
            self.back_out_of(depth)
            if self.view.is_stop or self.was_stopped():
                return

    def was_stopped(self):
        return self.view.said[:1] == [STOPPED]

    def close(self):
        self.child.close()
