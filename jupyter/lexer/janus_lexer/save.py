#!/usr/bin/python3
"""Saves the session of a kernel of Janus that runs, as a file of cells whose run by janus-cells gives the same tree, worlds and position.

usage: janus-save-session [--existing FILE] [OUT]        (FILE: a kernel's connection file, if several run; OUT: the script, or standard output)
       janus-save-session --check [--existing FILE]      (how much of its limits the kernel has used; status 1 above nine tenths)

It walks the kernel's tree, runs the cells once more in a kernel of its own beside it, compares each node, and puts the position back.
"""
import contextlib
import errno
import glob
import json
import os
import re
import signal
import socket
import subprocess
import sys
import time
import uuid
from queue import Empty

if __name__ == '__main__':
    sys.path[0] = os.path.dirname(os.path.dirname(os.path.realpath(__file__)))

try:
    from jupyter_client import BlockingKernelClient, KernelManager
    from jupyter_core.paths import jupyter_runtime_dir

    from janus_lexer.cells import PART, RUN, VERSION, code_lines, text_lines
except ImportError as missing:
    sys.exit(f"janus-save-session: {missing}; Debian's python3-jupyter-client brings it")

MOST_NODES, MOST_MINUTES, MOST_OCTETS = 65536, 1000000, 16777216
MOVES = ('undo', 'redo', 'goto')
TOO_FAR, MINUTES_FULL = 73, 77
BATCH = 100                     # inputs that are asked for at once, since a reply has at most 16 MiB
PATIENCE = 3                    # seconds that a cell has in the second kernel before its time in the first is taken
SILENCE = 10                    # seconds without a beat of its heart, after which a kernel is taken for ended
FAILED = 'A cell that failed or was interrupted:'
DEFINED = re.compile(r'\bprocedure\s+([A-Za-z][A-Za-z0-9_]*)')


class Trouble(Exception):
    """Why the session can't be saved, in a line, and the status."""
    def __init__(self, line, status=1):
        super().__init__(line)
        self.status = status


class Kernel:
    """A kernel as a frontend sees it."""
    def __init__(self, file, manager=None):
        self.manager, self.comm, self.others, self.heard_at = manager, uuid.uuid4().hex, False, time.monotonic()
        self.client = manager.client() if manager else BlockingKernelClient(connection_file=file)
        try:
            self.client.load_connection_file()
            self.client.start_channels()
            self.wait(time.monotonic() + SILENCE)
            self.send('comm_open', {'comm_id': self.comm, 'target_name': 'janus.undo', 'data': {}})
            self.first_state()
        except Exception as error:                                        # of another kind in each version of jupyter_client
            if manager:
                manager.shutdown_kernel(now=True)
            if isinstance(error, Trouble):
                raise
            raise Trouble(f'no kernel at {file}: ' + (str(error).split('\n')[0] or type(error).__name__), 3) from None

    def wait(self, until):
        """Until the kernel answers. On a busy machine a heart that beats may be missed."""
        while True:
            try:
                return self.client.wait_for_ready(timeout=30 if self.manager else SILENCE)
            except RuntimeError:
                if time.monotonic() > until:
                    raise

    def is_there(self):
        if self.manager:
            return self.manager.is_alive()
        if self.client.hb_channel.is_beating():
            self.heard_at = time.monotonic()
        return time.monotonic() < self.heard_at + SILENCE

    def first_state(self):
        """Asks again until an answer comes, since broadcasts go astray until the subscription has arrived."""
        for _ in range(10):
            asked = self.send('comm_msg', {'comm_id': self.comm, 'data': {'op': 'state'}})
            if any(kind == 'comm_msg' for kind, _ in self.heard(asked, 1)):
                return
        raise Trouble('the kernel opens no comm: 1,024 are open, or it is not a Janus kernel', 3)

    def send(self, kind, content):
        message = self.client.session.msg(kind, content)
        self.client.shell_channel.send(message)
        return message['header']['msg_id']

    def notes(self, message):
        """Whether another frontend ran a cell or moved."""
        data = message['content'].get('data', {})
        is_move = message['msg_type'] == 'comm_msg' and data.get('op') in MOVES and data.get('undone', 0) + data.get('redone', 0) > 0
        if message['parent_header'].get('session') != self.client.session.session and (is_move or message['msg_type'] == 'execute_input'):
            self.others = True

    def heard(self, asked, seconds=None):
        """The broadcasts on a request, up to its idle status or for so many seconds."""
        until = seconds and time.monotonic() + seconds
        while not until or time.monotonic() < until:
            try:
                message = self.client.get_iopub_msg(timeout=1)
            except Empty:
                if not self.is_there():
                    raise Trouble('the kernel has ended', 3) from None
                continue
            self.heard_at = time.monotonic()
            self.notes(message)
            if message['parent_header'].get('msg_id') == asked:
                yield message['msg_type'], message['content']
                if message['msg_type'] == 'status' and message['content']['execution_state'] == 'idle':
                    return

    def ask(self, **data):
        asked = self.send('comm_msg', {'comm_id': self.comm, 'data': data})
        for kind, content in list(self.heard(asked)):
            if kind == 'comm_msg':
                return content['data']
        raise Trouble('the kernel left a question without an answer', 3)

    def state(self):
        return self.ask(op='state')

    def move(self, name, number):
        answer = self.ask(op=name, n=number)
        if answer['status'] == 'refused':
            raise Refused(answer)
        if answer['end'] != 'all':
            raise Trouble(f'a move of the walk ended early ({answer["end"]})')
        return answer

    def reply(self, asked):
        until = time.monotonic() + 60
        while time.monotonic() < until:
            try:
                message = self.client.get_shell_msg(timeout=1)
            except Empty:
                continue
            if message['parent_header'].get('msg_id') == asked:
                return message['content']
        raise Trouble('the kernel left a question without an answer', 3)

    def question(self, kind, **content):
        return self.reply(self.send(kind, content))

    def inputs(self):
        """The texts of the cells that are in its history, in order: also of those that failed."""
        tail = self.question('history_request', hist_access_type='tail', output=False, raw=True, n=1)['history']
        texts = []
        for start in range(1, tail[0][1] + 1 if tail else 1, BATCH):
            asked = {'hist_access_type': 'range', 'output': False, 'raw': True, 'session': 0, 'start': start, 'stop': start + BATCH}
            texts += [text for _, _, text in self.question('history_request', **asked)['history']]
        return texts

    def known_of(self, names):
        """What the kernel knows of the procedures of these names."""
        asked = [self.send('inspect_request', {'code': name, 'cursor_pos': len(name), 'detail_level': 0}) for name in names]
        return [self.reply(it)['data'] for it in asked]

    def run(self, text, time_of):
        """Why a cell left no node, or None. One that takes long is interrupted after a time that is asked for."""
        asked = self.send('execute_request', {'code': text, 'silent': True, 'store_history': False, 'allow_stdin': False})
        if not any(content.get('execution_state') == 'idle' for _, content in self.heard(asked, PATIENCE)):
            is_over = any(content.get('execution_state') == 'idle' for _, content in self.heard(asked, time_of()))
            if not is_over:
                self.client.control_channel.send(self.client.session.msg('interrupt_request', {}))
                list(self.heard(asked))
        answer = self.reply(asked)
        return None if answer['status'] == 'ok' else answer['evalue']

    def close(self):
        self.send('comm_close', {'comm_id': self.comm, 'data': {}})
        time.sleep(.1)
        self.client.stop_channels()
        if self.manager:
            self.manager.shutdown_kernel(now=True)


class Refused(Trouble):
    def __init__(self, answer):
        super().__init__(f'refused {answer["number"]} {answer["name"]}')
        self.number = answer['number']


class Moved(Trouble):
    def __init__(self):
        super().__init__('another frontend moved or ran a cell meanwhile: try again while the kernel is left alone')


class Shape:
    """A tree of cells: the node above each, the favourite below it as it is to be, and as moves have left it."""
    def __init__(self, count):
        self.parent, self.depth = [None] * (count + 1), [0] * (count + 1)
        self.favourite, self.now, self.at = {}, {}, 0

    def add(self, node, parent):
        is_known = parent == 0 or parent is not None and self.parent[parent] is not None
        if not is_known or not parent < node < len(self.parent):
            raise Moved
        self.parent[node], self.depth[node] = parent, self.depth[parent] + 1

    def above(self, node, steps):
        for _ in range(steps):
            node = None if node is None else self.parent[node]
        return node

    def go(self, node):
        """A goto: each node on the way down becomes the favourite of the one above it."""
        here, there = self.at, node
        while here != there:
            if self.depth[here] > self.depth[there]:
                here = self.parent[here]
            else:
                self.now[self.parent[there]] = there
                there = self.parent[there]
        self.at = node

    def ran(self, node):
        self.now[self.at] = self.at = node

    def ways_back(self, position):
        """The nodes to go to, until all favourites are as they are to be, and then the position. A way down is put right before those above it."""
        for top in range(len(self.parent) - 1, -1, -1):
            if top and self.favourite.get(self.parent[top]) == top:
                continue
            end, is_right = top, True
            while end in self.favourite:
                is_right = is_right and self.now.get(end) == self.favourite[end]
                end = self.favourite[end]
            if not is_right:
                self.go(end)
                yield end
        if self.at != position:
            yield position


class Walk:
    """Goes to each node of a kernel in the order of their numbers, and back."""
    def __init__(self, kernel, inputs):
        self.kernel, self.begun = kernel, kernel.state()
        if self.begun['busy']:
            raise Trouble('a cell is running: wait for its end, or stop it with janus-interrupt')
        if not self.begun['nodes']:
            raise Trouble('no cell has run, so there is nothing to save')
        self.count, self.shape = self.begun['nodes'], Shape(self.begun['nodes'])
        self.is_line = self.begun['depth'] + self.begun['redo'] == self.count and self.begun['depth'] == self.begun['node']
        self.has_moved, self.has_minutes = False, 2 * max(inputs, self.count) + 4 * self.count <= MOST_MINUTES
        self.moves = 0

    def move(self, name, number):
        had, self.has_moved = self.has_moved, True                        # also where its answer isn't waited for
        try:
            answer = self.kernel.move(name, number)
        except Refused as error:
            self.has_moved = had
            if error.number == TOO_FAR:
                raise Moved from None
            raise
        self.moves += 1
        return answer

    def starts(self):
        """Whether the kernel could be brought to the start: it can't where its minutes are used up."""
        try:
            if self.has_minutes:
                self.move('goto', 0)
        except Refused as error:
            if error.number != MINUTES_FULL:
                raise
            self.has_minutes = False
        if not self.has_minutes and not self.is_line:
            raise Trouble('too few of its 1,000,000 minutes are left to walk through a history with branches')
        return self.has_minutes

    def nodes(self):
        """Each node with the one above it and its world, while the kernel stands there. Where it can't move, the worlds are None but one."""
        if not self.starts():
            for node in range(1, self.count + 1):
                self.shape.add(node, node - 1)
                self.shape.favourite[node - 1] = node
                yield node, node - 1, self.begun['world'] if node == self.begun['node'] else None
            return
        for node in range(self.count + 1):
            if node != self.shape.at:
                self.visit(node)
            state = self.kernel.state()
            if (state['node'], state['nodes'], state['depth']) != (node, self.count, self.shape.depth[node]):
                raise Moved
            if node:
                yield node, self.shape.parent[node], state['world']
            if state['redo']:
                below = self.move('redo', 1)['node']
                self.shape.add(below, node)
                self.shape.favourite[node] = below
                self.shape.ran(below)

    def visit(self, node):
        """Goes to a node. All that stand above it have smaller numbers, so they are known."""
        answer = self.move('goto', node)
        if self.shape.parent[node] is None:
            if answer['redone'] == 1:
                self.shape.add(node, self.shape.above(self.shape.at, answer['undone']))
            else:
                self.shape.add(node, self.move('undo', 1)['node'])
                self.move('redo', 1)
        self.shape.go(node)

    def seconds(self):
        """How long the cell of the node where the kernel stands may take elsewhere, by its time here."""
        if not self.has_moved:
            return 3600
        begun = time.monotonic()
        self.move('undo', 1)
        self.move('redo', 1)
        return PATIENCE + 4 * (time.monotonic() - begun)

    def go_back(self, is_whole):
        """Puts favourites and position back; where the walk was broken off, nothing is known of how moves have left them."""
        if not self.has_moved:
            return
        try:
            if not is_whole:
                self.move('goto', 0)
                self.shape.at, self.shape.now = 0, {}
            for node in self.shape.ways_back(self.begun['node']):
                self.move('goto', node)
        except Refused as error:
            raise Trouble(f'the kernel moves no more ({error}), and stays at node {self.kernel.state()["node"]}') from None

    def is_as_before(self):
        now = self.kernel.state()
        return not self.kernel.others and all(now[it] == self.begun[it] for it in ('node', 'nodes', 'depth', 'redo', 'world'))


class Twin:
    """A kernel of its own, in which the cells run once more under the same nodes: which inputs became nodes is found there."""
    def __init__(self, inputs, walk):
        self.inputs, self.walk, self.next = inputs, walk, 0
        self.defined = [set(DEFINED.findall(text)) for text in inputs]
        self.text, self.node, self.at = {}, {0: 0}, 0
        self.failed = {}                # texts that became no node, by the node that came next
        os.makedirs(jupyter_runtime_dir(), mode=0o700, exist_ok=True)
        file = os.path.join(jupyter_runtime_dir(), f'kernel-save-{os.getpid()}.json')
        try:
            manager = KernelManager(kernel_name='janus', connection_file=file)
            manager.start_kernel(stdout=subprocess.DEVNULL)
        except Exception as error:                                        # of another kind in each version of jupyter_client
            raise Trouble(f'no second kernel to compare with: {error}') from None
        self.kernel = Kernel(file, manager)

    def find(self, node, parent, world):
        """Takes the first of the inputs that are left which leads from the node above to this one."""
        last = len(self.inputs) - (self.walk.count - node)
        while self.next < last:
            text, names = self.inputs[self.next], sorted(set().union(*self.defined[self.next:last]))
            self.next += 1
            if self.fits(node, parent, world, text, names):
                self.text[node] = text
                return
            self.failed.setdefault(node, []).append(text)
        raise Trouble(f'no input of the history leads to node {node}: a cell was silent or was not to be stored')

    def fits(self, node, parent, world, text, names):
        """Whether the text leads to the world, with the same procedures of those names that the node's own text may define."""
        if self.at != self.node[parent]:
            self.kernel.move('goto', self.node[parent])
            self.at = self.node[parent]
        refusal = self.kernel.run(text, self.walk.seconds)
        if refusal and refusal.startswith('refused 7'):
            raise Trouble(f'the second kernel, which compares: {refusal}')
        if refusal:
            return False
        state = self.kernel.state()
        if world is None or state['world'] == world and self.kernel.known_of(names) == self.walk.kernel.known_of(names):
            self.at = self.node[node] = state['node']
            return True
        self.kernel.move('undo', 1)
        return False


def printable(text):
    """A text for a comment, which nothing in it may end."""
    return '\n'.join(''.join(it if it.isprintable() or it == '\t' else ' ' for it in line) for line in text.split('\n'))


def comments(texts):
    """The lines that tell of cells which failed."""
    return text_lines([FAILED + '\n\n' + '\n'.join('    ' + line for line in printable(text).split('\n')) for text in texts])


def script(shape, texts, position, failed):
    """The file of cells that makes the same nodes in the same order, with the same favourites, and ends at the position.

    A failed cell is a comment in the text of the next node, or of the last, since a comment by itself would be a cell.
    """
    made = Shape(len(texts))
    made.parent, made.depth, made.favourite = shape.parent, shape.depth, shape.favourite
    lines = [f'//| {len(texts)} nodes of a kernel of Janus, at node {position}. Run: janus-cells --steps 1000000000000 < THIS_FILE']
    for node in range(1, len(texts) + 1):
        if made.at != made.parent[node]:
            lines.append(f'%goto {made.parent[node]}')
            made.go(made.parent[node])
        elif node > 1:
            lines.append(RUN)
        made.ran(node)
        text, above = texts[node], comments(failed.get(node, []))
        lines += [PART] * (node == 1 and above != []) + above
        lines += code_lines(text) if text.strip(' \t\r\n') else ['//']
    lines += comments(failed.get(len(texts) + 1, []))
    for node in made.ways_back(position):
        lines.append(f'%goto {node}')
    return '\n'.join([*lines, '']).encode()


def running():
    """The connection files of kernels of Janus that listen, the newest first."""
    for file in sorted(glob.glob(os.path.join(jupyter_runtime_dir(), 'kernel-*.json')), key=os.path.getmtime, reverse=True):
        try:
            with open(file, encoding='utf-8') as opened:
                given = json.load(opened)
            if given.get('kernel_name') == 'janus':
                socket.create_connection((given['ip'], given['shell_port']), 1).close()
                yield file
        except (OSError, ValueError, AttributeError, KeyError, TypeError):
            continue


def about(file):
    """What tells a kernel from others: where it is, and since when it runs."""
    begun = time.strftime('%d %b %H:%M', time.localtime(os.path.getmtime(file)))
    try:
        kernel = Kernel(file)
        state = kernel.state()
        kernel.close()
    except Trouble as trouble:
        return f'{file}  since {begun}, {trouble}'
    return f'{file}  since {begun}, at node {state["node"]} of {state["nodes"]}' + (', runs a cell' if state['busy'] else '')


def chosen():
    """The kernel that runs; where there are several, the one that is chosen."""
    files = list(running())
    if not files:
        raise Trouble(f'no kernel of Janus in {jupyter_runtime_dir()}: name its connection file with --existing', 3)
    if len(files) == 1:
        return files[0]
    said = f'{len(files)} kernels of Janus run'
    if not sys.stdin.isatty() or not sys.stderr.isatty():
        raise Trouble('\n    '.join([said + ': name one with --existing FILE', *map(about, files)]), 2)
    print('\n'.join([said + ':', *(f'{number:4}  {about(file)}' for number, file in enumerate(files, 1))]), file=sys.stderr)
    print('which number? ', end='', file=sys.stderr, flush=True)
    answer = sys.stdin.readline().strip()
    if not answer.isdecimal() or not 1 <= int(answer) <= len(files):
        raise Trouble('none was chosen', 2)
    return files[int(answer) - 1]


def is_connection_file(name):
    if not os.path.isfile(name):
        return False
    try:
        with open(name, encoding='utf-8') as opened:
            return 'shell_port' in json.load(opened)
    except (OSError, ValueError, TypeError):
        return False


def check(kernel):
    """Prints the state and how much of each limit is used."""
    state = kernel.state()
    tail = kernel.question('history_request', hist_access_type='tail', output=False, raw=True, n=1)['history']
    jobs = max(state['nodes'], tail[0][1] if tail else 0)
    used = {'nodes': (state['nodes'], MOST_NODES), 'minutes': (2 * jobs, MOST_MINUTES)}
    print(f'at node {state["node"]}, {state["depth"]} above, {state["redo"]} to redo' + (', and a cell is running' if state['busy'] else ''))
    for name, (number, most) in used.items():
        least = 'at least ' if name == 'minutes' else ''
        print(f'{name}: {least}{number:,} of {most:,}, {100 * number / most:.1f} %')
    print('each undo, redo and goto, and each silent cell, took 2 minutes more, which no kernel tells')
    if any(10 * number > 9 * most for number, most in used.values()):
        print('above nine tenths: save the session, and begin a new kernel')
        return 1
    return 0


@contextlib.contextmanager
def undisturbed():
    """Without an ear for Ctrl-C and SIGTERM."""
    old = {number: signal.signal(number, signal.SIG_IGN) for number in (signal.SIGINT, signal.SIGTERM)}
    try:
        yield
    finally:
        for number, handler in old.items():
            signal.signal(number, handler)


def walked(kernel):
    """The script of a kernel, which is where it was again, and the walk."""
    inputs = kernel.inputs()
    walk = Walk(kernel, len(inputs))
    if len(inputs) < walk.count:
        raise Trouble(f'{walk.count} nodes, but {len(inputs)} inputs in the history: cells were silent or were not to be stored')
    twin, is_whole = Twin(inputs, walk), False
    try:
        for node, parent, world in walk.nodes():
            twin.find(node, parent, world)
        is_whole = True
    finally:
        with undisturbed():
            twin.kernel.close()
            walk.go_back(is_whole)
    if not walk.has_moved:
        print(f'janus-save-session: the kernel has no minutes left to move: compared at node {walk.begun["node"]} alone', file=sys.stderr)
    elif not walk.is_as_before():
        raise Trouble(f'another frontend moved or ran a cell meanwhile; the kernel is at node {kernel.state()["node"]}, and nothing was written')
    twin.failed[walk.count + 1] = inputs[twin.next:]
    made = script(walk.shape, twin.text, walk.begun['node'], twin.failed)
    if len(made) > MOST_OCTETS:
        made = script(walk.shape, twin.text, walk.begun['node'], {})
    return made, walk


def save(kernel, out):
    """Writes OUT whole or not at all."""
    if out is None:
        made, _ = walked(kernel)
        sys.stdout.buffer.write(made)
        return warned(made)
    new = f'{out}.{os.getpid()}.new'
    try:
        if os.path.isdir(out):
            raise IsADirectoryError(errno.EISDIR, os.strerror(errno.EISDIR))
        with open(new, 'xb') as file:
            made, walk = walked(kernel)
            file.write(made)
            file.flush()
            os.fsync(file.fileno())
        os.replace(new, out)
    except OSError as error:
        raise Trouble(f'{out}: {error.strerror or error}') from None
    finally:
        if os.path.exists(new):
            os.unlink(new)
    print(f'saved {walk.count} nodes, at node {walk.begun["node"]}, in {walk.moves} moves')
    return warned(made)


def warned(made):
    if len(made) <= MOST_OCTETS:
        return 0
    print(f'janus-save-session: the script has {len(made):,} octets, and janus-cells reads {MOST_OCTETS:,}', file=sys.stderr)
    return 1


def usage():
    print('\n'.join(__doc__.split('\n')[2:4]), file=sys.stderr)
    return 2


def main(words):
    if words == ['--version']:
        print('janus-save-session', VERSION)
        return 0
    is_check = '--check' in words
    words = [it for it in words if it != '--check']
    file = None
    if words[:1] == ['--existing'] and len(words) > 1:
        file, words = words[1], words[2:]
    if len(words) > (not is_check) or any(it.startswith('-') for it in words):
        return usage()
    if file is not None and not os.path.isfile(file):
        print('janus-save-session: no connection file ' + file, file=sys.stderr)
        return 2
    if words and is_connection_file(words[0]):
        said = f'{words[0]} is a connection file, and is left as it is: name a kernel with --existing {words[0]}, and after it a file for the script'
        print('janus-save-session: ' + said, file=sys.stderr)
        return 2
    signal.signal(signal.SIGTERM, signal.default_int_handler)
    kernel = None
    try:
        kernel = Kernel(file or chosen())
        return check(kernel) if is_check else save(kernel, words[0] if words else None)
    except Trouble as trouble:
        print(f'janus-save-session: {trouble}', file=sys.stderr)
        return trouble.status
    except KeyboardInterrupt:
        print('janus-save-session: interrupted, and nothing was written', file=sys.stderr)
        return 1
    finally:
        if kernel:
            kernel.close()


if __name__ == '__main__':
    sys.exit(main(sys.argv[1:]))
