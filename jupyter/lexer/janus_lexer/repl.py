#!/usr/bin/python3
"""A console for Janus in a terminal, with undo: cells, and the commands %undo, %redo, %goto, %show and %tree.

usage: janus-repl [--existing FILE]     (a kernel's connection file; without it, a kernel of its own, which ends with the console)

Needs jupyter_client, prompt_toolkit and pygments, as Debian's jupyter-console brings them.
"""
import os
import re
import signal
import subprocess
import sys
import tempfile
import time
import uuid
from concurrent.futures import ThreadPoolExecutor
from concurrent.futures import TimeoutError as NotYet
from queue import Empty

sys.path[0] = os.path.dirname(os.path.dirname(os.path.realpath(__file__)))

try:
    from jupyter_client import BlockingKernelClient, KernelManager
    from jupyter_core.paths import jupyter_runtime_dir
    from prompt_toolkit import PromptSession, print_formatted_text
    from prompt_toolkit.completion import Completer, Completion
    from prompt_toolkit.enums import DEFAULT_BUFFER
    from prompt_toolkit.filters import has_focus
    from prompt_toolkit.formatted_text import FormattedText
    from prompt_toolkit.key_binding import KeyBindings
    from prompt_toolkit.lexers import PygmentsLexer

    from janus_lexer import JanusLexer, steps
    from janus_lexer.cells import RUN, VERSION, code_lines, placed
    from janus_lexer.refusals import REFUSALS, advice
    from janus_lexer.slips import meant, word
    from janus_lexer.tree import MOVES, Heard, Tree, first_line
except ImportError as missing:
    sys.exit(f"janus-repl: {missing}; Debian's jupyter-console brings what it needs")

HELP = '''%undo [K]   take K cells back, the newest first      %goto N   go to node N, 0 for the start
%redo [K]   redo K cells along the ways last taken   %show     the values here
%tree       all cells that ran, and where we are     %help     this
%steps      walk through the last cell, step by step   %load FILE  run the cells of a file for janus-cells
A text that is not complete goes on; a blank line ends it. Alt-Enter always begins a new line.
Ctrl-C clears the line, or stops the running cell, which is then taken back; Ctrl-D leaves.'''
CELL = 'your cell'
RUNS = f'{RUN} ends a cell in a file for janus-cells; here Enter runs it, and %load FILE runs such a file'
STEPS = '%steps walks through it, forward and back'
NO_STEPS = "janus-steps is neither beside this program nor in PATH, so its steps can't be seen"
UNKNOWN = 'not all cells before this one are known here; janus-save-session FILE writes the whole session as a file for janus-steps-screen'
MOST_SHOWN = 12                 # so many values are shown where a cell failed
MOST_NAMED = 4                  # so many cells of a move, and doings of other frontends, are told
CUT = re.compile(r'(\w+)(?:\[(\d+)\]|\(\d+\)) = .* \.\.\.$')       # a value of which not all numbers are shown
COMMAND = re.compile(r'%(undo|redo|goto|show|tree|help|steps)(?:\s+(\d{1,10}))?\s*$')
LOAD = re.compile(r'%load\s+(\S.*)')
REFUSED = re.compile(r'refused (\d+) \w+(?: at (\d+)\.\.(\d+))?$')
FAULT = re.compile(r'fault (\d+) \w+ after \d+$')
MOST_INPUTS = 500               # so many cells of the kernel's history are looked at by a console that joins
WANTS = {'undo': 'how many cells, as in %undo 2, or nothing', 'redo': 'how many cells, as in %redo 2, or nothing',
         'goto': 'the number of a node, as in %goto 3', 'load': 'the name of a file', **dict.fromkeys(('show', 'tree', 'help', 'steps'), 'nothing after it')}
PAUSE = 1                       # seconds after which it is said what is waited for
SOON = 2                        # seconds in which janus-steps has to come to a fault
PATIENCE = 3                    # seconds in which broadcasts that are on their way come, or are lost


class Ended(Exception):
    pass


class Desk:
    """The kernel behind one thread, so that no call meets the event loop of the prompt. The control socket is the main thread's."""
    def __init__(self, file):
        self.manager, self.comm, self.is_stopping, self.others = None, uuid.uuid4().hex, False, []
        self.tree = Tree()
        self.news, self.untaken = Heard(self.tree), None                  # since when no state could be taken
        self.asked, self.busy_at = None, None                             # the job that runs or waits; how much had been heard when another ran
        self.thread = ThreadPoolExecutor(max_workers=1)
        signal.signal(signal.SIGINT, self.stop)
        if file is None:
            os.makedirs(jupyter_runtime_dir(), mode=0o700, exist_ok=True)
            file = os.path.join(jupyter_runtime_dir(), f'kernel-{os.getpid()}.json')
            self.manager = KernelManager(kernel_name='janus', connection_file=file)
            self.manager.start_kernel(stdout=subprocess.DEVNULL)          # its line `ready` goes nowhere
        self.file = file
        self.client = self.manager.client() if self.manager else BlockingKernelClient(connection_file=file)
        if self.manager is None:
            self.client.load_connection_file()
        self.wait(self.open)

    def open(self):
        self.client.start_channels()
        self.client.wait_for_ready(timeout=30)
        self.send('comm_open', {'comm_id': self.comm, 'target_name': 'janus.undo', 'data': {}})

    def wait(self, work, *given, name=None):
        """What the work answers. Ctrl-C meanwhile interrupts what the kernel runs. If the job has a name, it is said what is waited for."""
        future, begun, said = self.thread.submit(work, *given), time.monotonic(), None
        while True:
            try:
                return future.result(.2)
            except NotYet:
                pass
            is_behind = self.is_behind()
            if name and said != is_behind and time.monotonic() > begun + PAUSE:
                remark(f"waiting for another frontend's cell; Ctrl-C stops that cell, and {name} is then done" if is_behind else
                       'running; Ctrl-C stops it' if name == CELL else f'{name} is running; Ctrl-C ends it between two cells')
                said = is_behind
            if self.is_stopping:
                self.is_stopping = False
                self.client.control_channel.send(self.client.session.msg('interrupt_request', {}))
                if name:
                    remark('taking that cell back' if is_behind else 'taking it back' if name == CELL else f'{name} ends at the next cell')
                    said = is_behind

    def is_behind(self):
        """Whether the job that was sent last waits for one of another frontend."""
        for asked, job in list(self.news.jobs.items()):
            if asked == self.asked:
                break
            if job.session != self.client.session.session:
                return True
        return self.busy_at == self.news.clock

    def stop(self, *_):
        """Hears Ctrl-C, but at the prompt, where it is a key."""
        self.is_stopping = True

    def send(self, kind, content):
        message = self.client.session.msg(kind, content)
        self.client.shell_channel.send(message)
        return message['header']['msg_id']

    def note(self, message):
        """Takes what a broadcast tells, and keeps what another frontend did: its moves, and the jobs of its cells."""
        job = self.news.jobs.get(message['parent_header'].get('msg_id'))
        self.news.hear(message)
        content = message['content']
        data = content.get('data', {})
        if message['parent_header'].get('session') == self.client.session.session:
            return
        if message['msg_type'] == 'comm_msg' and data.get('op') in MOVES and data.get('undone', 0) + data.get('redone', 0) > 0:
            self.others.append(data)
        elif message['msg_type'] == 'status' and content['execution_state'] == 'idle' and job and job.count is not None:
            self.others.append(job)

    def hear(self):
        """Takes the broadcasts that have come."""
        until = time.monotonic() + 1
        while time.monotonic() < until:
            try:
                self.note(self.client.get_iopub_msg(timeout=0))
            except Empty:
                break

    def listen(self):
        """What other frontends did that was heard, up to now."""
        self.hear()
        found, self.others = self.others, []
        return found

    def heard(self, asked, wanted):
        """The broadcasts on a request, up to its idle status."""
        while True:
            try:
                message = self.client.get_iopub_msg(timeout=1)
            except Empty:
                if self.manager and not self.manager.is_alive() or not self.client.hb_channel.is_beating():
                    raise Ended from None
                continue
            self.note(message)
            if message['parent_header'].get('msg_id') != asked:
                continue
            if message['msg_type'] in wanted:
                yield message['msg_type'], message['content']
            if message['msg_type'] == 'status' and message['content']['execution_state'] == 'idle':
                return

    def ask(self, data):
        asked = self.send('comm_msg', {'comm_id': self.comm, 'data': data})
        return [content['data'] for _, content in self.heard(asked, ('comm_msg',))][0]

    def state(self, patience=.5):
        """The kernel's state. The tree takes it; where it doesn't fit, broadcasts may be on their way, and it is asked for again. No cell is waited for."""
        until = time.monotonic() + patience
        while True:
            self.hear()
            self.news.asks()
            state, now = self.ask({'op': 'state'}), time.monotonic()
            if self.news.takes(state) or state['busy']:
                self.untaken = None
                return state
            self.untaken = self.untaken or now
            if now > self.untaken + PATIENCE:
                self.news.gives_up()
            if now > until:
                return state
            time.sleep(.1)

    def job(self, kind, content):
        """Sends a cell or a move, which other jobs may come before."""
        state = self.state(0)
        self.untaken, self.asked, self.busy_at = None, None, self.news.clock if state['busy'] else None
        self.asked = self.send(kind, content)
        return self.asked

    def move(self, data):
        """The answer to a move, and which nodes it ran."""
        self.news.way = None
        asked = self.job('comm_msg', {'comm_id': self.comm, 'data': data})
        answer = [content['data'] for _, content in self.heard(asked, ('comm_msg',))][0]
        return answer, self.news.way

    def run(self, code):
        asked = self.job('execute_request', {'code': code, 'silent': False})
        return list(self.heard(asked, ('execute_input', 'execute_result', 'error')))

    def reply(self, kind, content):
        """The reply on shell to a question that is answered at once."""
        asked, until = self.send(kind, content), time.monotonic() + 2
        while time.monotonic() < until:
            try:
                message = self.client.get_shell_msg(timeout=.5)
            except Empty:
                continue
            if message['parent_header'].get('msg_id') == asked:
                return message['content']
        return {}

    def texts(self):
        """The state, and the texts of its nodes from the kernel's history; none where they can't be laid to the nodes.

        Cells that failed are in the history too. Those of which the text is no cell are left out; where there are others, or where cells were
        silent, there are not as many texts as nodes.
        """
        state = self.state(PATIENCE)
        inputs = self.reply('history_request', {'hist_access_type': 'tail', 'output': False, 'raw': True, 'n': MOST_INPUTS}).get('history', [])
        texts = [text for _, _, text in inputs]
        if state['busy'] or [count for _, count, _ in inputs] != list(range(1, len(inputs) + 1)) or not state['nodes'] <= len(inputs) < MOST_INPUTS:
            return state, []
        if len(texts) > state['nodes']:
            texts = [it for it in texts if self.reply('is_complete_request', {'code': it}).get('status') == 'complete']
        is_same = all(now == state[name] for name, now in self.state().items())
        return state, texts if is_same and len(texts) == state['nodes'] else []

    def close(self):
        self.wait(self.send, 'comm_close', {'comm_id': self.comm, 'data': {}})
        time.sleep(.1)
        self.wait(self.client.stop_channels)
        if self.manager:
            self.manager.shutdown_kernel()


class Names(Completer):
    def __init__(self, desk):
        self.desk = desk

    def get_completions(self, document, complete_event):
        text = document.text
        found = self.desk.wait(self.desk.reply, 'complete_request', {'code': text, 'cursor_pos': document.cursor_position})
        for it in found.get('matches', []):
            yield Completion(it, start_position=found['cursor_start'] - document.cursor_position)


def remark(line):
    print('\r' + line, file=sys.stderr, flush=True)                       # over the sign for Ctrl-C that the terminal wrote


def say(*parts):
    print_formatted_text(FormattedText([it if isinstance(it, tuple) else ('', it) for it in parts]))


def place(code, octet):
    """Line and column of an octet of the text, from 1, and that line."""
    before = code.encode()[:octet].decode(errors='ignore')
    line = before.count('\n')
    return line + 1, len(before) - before.rfind('\n'), code.split('\n')[line]


def point(where, words, text, column):
    """A place in words, and under its line."""
    say(f'{where}: {words}')
    say('  ' + text)
    say(('ansired', '  ' + re.sub(r'[^\t]', ' ', text[:column - 1]) + '^'))


def explain(line, code, above=0, earlier=()):
    """A refusal in words, and the place under its line; so many lines of a file stand above the text, and these cells ran before it."""
    found = REFUSED.match(line)
    if not found or int(found[1]) not in REFUSALS:
        return
    if found[2] is None:
        return say(advice(int(found[1])))
    at = len(code.encode()[:int(found[2])].decode(errors='ignore'))
    begin = word(int(found[1]), code, at, earlier)
    row, column, text = place(code, int(found[2]) if begin is None else len(code[:begin].encode()))
    point(f'line {above + row}, column {column}', meant(int(found[1]), code, at, earlier) or advice(int(found[1])), text, column)


class Session:
    """The cells in effect, and one more as the last, as a file for janus-steps."""
    def __init__(self, nodes, texts):
        self.nodes, self.begins, self.lines = nodes, [], []
        for text in texts:
            self.lines += [RUN] if self.begins else []
            self.begins.append(len(self.lines))
            self.lines += code_lines(text)

    def write(self, folder):
        path = os.path.join(folder, 'session.janus-cells')
        with open(path, 'w', encoding='utf-8') as file:
            file.write('\n'.join(self.lines) + '\n')
        return path

    def cell_of(self, line):
        """Which cell a line of the file is of, by its place among them, and the line in that cell."""
        cell = max(at for at, begin in enumerate(self.begins) if begin < line)
        return cell, line - self.begins[cell]

    def fault(self, line):
        """Where the last cell fails, as janus-steps tells it, if it soon comes to the fault of that line."""
        found, child = steps.program(), None
        if found is None:
            return None
        with tempfile.TemporaryDirectory(prefix='janus-') as folder:
            try:
                child = steps.Child([found, self.write(folder)])
                child.ask('to-fault\n')
                view = child.hear(SOON)
            except (steps.Ended, OSError, ValueError):
                return None
            finally:
                if child:
                    child.close()
        return view if view and view.line and line in view.said else None


def way(answer):
    """A move that was done, in the words of the page."""
    undone, redone = (f'{number} cell{"" if number == 1 else "s"}' for number in (answer['undone'], answer['redone']))
    if answer['op'] == 'goto':
        return f'went to node {answer["node"]}, {undone} up and {redone} down'
    return ('undid ' + undone if answer['op'] == 'undo' else 'redid ' + redone) + f'; the kernel is at node {answer["node"]}'


def ran(job):
    """A cell of another frontend, in the words of the page."""
    said = f'ran [{job.count}] {first_line(job.text)[:40]}'
    return said + (f': {job.failed}' if job.failed else f': node {job.node}' if job.node else '')


class Console:
    def __init__(self, desk):
        self.desk, self.tree, self.count, self.told, self.last = desk, desk.tree, 1, set(), None
        _, texts = desk.wait(desk.texts)
        self.tree.told(texts)
        self.session = PromptSession(message=lambda: [('ansigreen', f'[{self.count}] ')], lexer=PygmentsLexer(JanusLexer), multiline=True,
                                     completer=Names(desk), complete_while_typing=False, key_bindings=self.keys(), prompt_continuation='... ')

    def keys(self):
        keys = KeyBindings()

        @keys.add('enter')
        def _(event):
            buffer, indent = event.current_buffer, self.goes_on(event.current_buffer.document)
            if indent is None:
                buffer.validate_and_handle()
            else:
                buffer.insert_text('\n' + indent)
        @keys.add('c-c', filter=has_focus(DEFAULT_BUFFER))
        def _(event):                                                     # no KeyboardInterrupt, which would come up again at a later prompt
            event.current_buffer.reset()
        @keys.add('escape', 'enter')
        @keys.add('escape', 'c-j')                                        # as it comes where it was typed before the prompt stood
        def _(event):
            event.current_buffer.insert_text('\n')
        return keys

    def goes_on(self, document):
        """How far the next line is indented, or None where the text is run: at a blank line in any case. A procedure goes on up to one."""
        text, line = document.text, document.text.split('\n')[-1]
        if text.lstrip().startswith('%') or not text.strip():
            return None
        if document.text_after_cursor.strip():
            return ''
        if line.strip() in ('', RUN):
            return None
        found = self.desk.wait(self.desk.reply, 'is_complete_request', {'code': text})
        if found.get('status') == 'incomplete':
            return found.get('indent', '')
        return '    ' if re.search(r'\bprocedure\b', text) else None

    def line(self, text):
        found = COMMAND.match(text.strip())
        if found:
            return self.command(found[1], found[2])
        found = LOAD.match(text.strip())
        if found:
            return self.load(found[1])
        if text.split('\n')[-1].strip() == RUN:
            say(RUNS)
            text = text.rstrip()[:-len(RUN)]
        if not text.strip():
            return None
        if text.lstrip().startswith('%'):
            return self.wrong(text.strip())
        return self.cell(text.rstrip())

    def wrong(self, text):
        """Says what is wrong with a command, and then which there are."""
        name = text.split()[0]
        say(('ansired', f'{name} takes {WANTS[name[1:]]}' if name[1:] in WANTS else f'no command {name}'))
        print(HELP)

    def command(self, name, number):
        if name == 'goto' and number is None or name not in MOVES and number is not None:
            return self.wrong('%' + name)
        if name == 'help':
            return print(HELP)
        if name == 'steps':
            return self.steps()
        if name in MOVES:
            asked = {'op': name, 'n': int(number) if number else 1}
            answer, nodes = self.desk.wait(self.desk.move, asked, name='%' + name)
            if answer['status'] == 'refused':
                return self.refused(f'refused {answer["number"]} {answer["name"]}')
            say(f'undone {answer["undone"]}, redone {answer["redone"]}' + ('' if answer['end'] == 'all' else f' ({answer["end"]})'))
            self.which(nodes)
        state = self.desk.wait(self.desk.state, PATIENCE + 1 if name == 'tree' else .5)
        if name == 'tree':
            return [say(*it) for it in self.tree.rows()]
        say(('bold', f'at node {state["node"]}' + (', and a cell is running' if state['busy'] else '')))
        return self.values(state['world'])

    def which(self, nodes):
        """Names the cells that a move ran, where they are known."""
        for sign, those in zip(('-', '+'), nodes or ((), ())):
            for node in those[:MOST_NAMED]:
                say(('ansicyan', f'  {sign} {node}  {first_line(self.tree.text[node])[:60]}'))
            if len(those) > MOST_NAMED:
                say(('ansicyan', f'  {sign} and {len(those) - MOST_NAMED} more'))

    def values(self, lines):
        """Shows values, and once how to see the numbers that are not shown."""
        if lines:
            say('\n'.join(lines))
        cut = next((found for found in map(CUT.match, lines) if found), None)
        if cut:
            how = f'int look look += {cut[1]}[{int(cut[2]) - 1}]' if cut[2] else f'a pop of the newer ones of {cut[1]}'
            self.once('cut', f'(of an array or a stack 32 numbers are shown; to see another: {how}, and then %undo)')

    def once(self, what, words):
        if what not in self.told:
            self.told.add(what)
            say(('ansicyan', words))

    def refused(self, line, code='', above=0):
        say(('ansired', line))
        return explain(line, code, above, self.tree.codes())

    def failed(self, line, code, above):
        """A fault in words, with its place and the values there, as far as janus-steps soon tells them."""
        say(('ansired', line))
        number, view = int(FAULT.match(line)[1]), self.last and self.last.fault(line)
        if not view:
            return say(advice(number, False if self.last and not any(re.search(r'\buncall\b', it) for it in self.last.lines) else None))
        cell, row = self.last.cell_of(view.line)
        is_own = cell == len(self.last.nodes)
        where = f'line {above + row if is_own else row}, column {view.column}' + ('' if is_own else f' of the cell of node {self.last.nodes[cell]}') + \
            (f', in {view.procedure}' if view.procedure else '') + (', which runs backward' if view.is_inverse else '')
        point(where, advice(number, view.is_inverse), self.last.lines[view.line - 1], view.column)
        lines = list(dict.fromkeys([*view.read, *(it for _, it in view.values)]))
        self.values(lines[:MOST_SHOWN])
        return None if len(lines) <= MOST_SHOWN else say(f'and {len(lines) - MOST_SHOWN} more')

    def steps(self):
        """Walks through the last cell on a screen."""
        found = steps.program()
        if self.last is None or found is None:
            return say(UNKNOWN if found else NO_STEPS)
        screen = os.path.join(os.path.dirname(os.path.realpath(__file__)), 'screen.py')
        with tempfile.TemporaryDirectory(prefix='janus-') as folder:
            return subprocess.run([sys.executable, screen, '--program', found, self.last.write(folder)], check=False) and None

    def cell(self, text, above=0):
        """Runs a cell. Answers the error's line, or None, and the node where the kernel is."""
        heard = self.desk.wait(self.desk.run, text, name=CELL)
        failed = next((content['evalue'] for kind, content in heard if kind == 'error'), None)
        if not (failed or '').startswith('refused'):
            self.last = self.session_of(text, failed)
        for kind, content in heard:
            if kind == 'execute_input':
                self.count = content['execution_count'] + 1
            elif kind == 'execute_result':
                self.values(content['data']['text/plain'].split('\n'))
            elif FAULT.match(failed):
                self.failed(failed, text, above)
                self.once('steps', STEPS)
            else:
                self.refused(failed, text, above)
        return failed, self.desk.wait(self.desk.state)['node']

    def session_of(self, text, failed):
        """The cells before one that ran just now, and it, or None where they aren't all known."""
        nodes = self.tree.nodes_above()
        if nodes and not failed:
            nodes = nodes[:-1] if self.tree.text[nodes[-1]] == text else None
        return None if nodes is None else Session(nodes, [*(self.tree.text[it] for it in nodes), text])

    def load(self, path):
        """Runs a file of cells, and says which were refused or failed. Ctrl-C leaves it."""
        try:
            with open(os.path.expanduser(path), encoding='utf-8') as file:
                parts = placed(file.read())
        except (OSError, ValueError) as error:
            return say(('ansired', f'{path}: {getattr(error, "strerror", None) or "no text"}'))
        nodes, ran, bad = [self.desk.wait(self.desk.state)['node']], 0, []
        for kind, source, row in parts:
            if kind == 'commands':
                for line in source.split('\n'):
                    self.loaded_command(line.strip(), nodes)
            if kind != 'code':
                continue
            ran, blank = ran + 1, len(source) - len(source.lstrip())
            say(('ansigreen', f'[{self.count}] '), source.strip().split('\n')[0])
            failed, node = self.cell(source, row - 1)
            if failed is None:
                nodes.append(node)
                continue
            how = failed.split()[0]
            bad.append(f'cell {ran} (line {row + source[:blank].count(chr(10))}) ' + {'fault': 'failed'}.get(how, f'was {how}'))
            if how == 'interrupted':
                bad[-1] += ': what follows did not run'
                break
        say(('bold', f'{ran} cell{"" if ran == 1 else "s"} of {path}, at node {self.tree.position}'))
        return [say(('ansired', it)) for it in bad]

    def loaded_command(self, line, nodes):
        """Does a command of a file, whose nodes are numbered from where its first cell began."""
        found = COMMAND.match(line)
        if not found:
            return say(('ansired', f'{line}: this is for janus-cells, and is skipped'))
        number = found[2]
        if found[1] == 'goto' and number is not None:
            if int(number) >= len(nodes):
                return self.refused('refused 71 NoNode')
            number = nodes[int(number)]
        return self.command(found[1], number)

    def tell(self):
        """Says what other frontends did; the last four."""
        found = self.desk.wait(self.desk.listen)
        if len(found) > MOST_NAMED:
            say(('ansiyellow', f'other frontends ran {len(found)} cells and moves; the last four:'))
        for it in found[-MOST_NAMED:]:
            say(('ansiyellow', 'another frontend ' + (way(it) if isinstance(it, dict) else ran(it))))

    def serve(self):
        say(('bold', 'Janus'), ': cells run, and %undo takes them back; %help lists the commands. Other frontends: --existing ' + self.desk.file)
        while True:
            self.tell()
            try:
                text = self.session.prompt(handle_sigint=False)
            except EOFError:
                return
            self.desk.is_stopping = False
            self.tell()
            if text.strip():
                self.line(text)


def main(words):
    if words == ['--version']:
        print('janus-repl', VERSION)
        return 0
    if words and (len(words) != 2 or words[0] != '--existing'):
        print(__doc__.split('\n')[2], file=sys.stderr)
        return 2
    if not sys.stdin.isatty():
        print('janus-repl needs a terminal; janus-cells reads a stream', file=sys.stderr)
        return 2
    try:
        desk = Desk(words[1] if words else None)
    except Exception as error:                                            # of another kind in each version of jupyter_client
        print('no kernel:', str(error).split('\n')[0] or type(error).__name__, file=sys.stderr)
        return 3
    status = 0
    try:
        Console(desk).serve()
    except Ended:
        print('the kernel has ended', file=sys.stderr)
        status = 3
    signal.signal(signal.SIGINT, signal.SIG_IGN)
    desk.close()
    return status


if __name__ == '__main__':
    sys.exit(main(sys.argv[1:]))
