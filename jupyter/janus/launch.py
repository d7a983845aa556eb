"""Becomes the kernel of Janus, and leaves a watcher beside it that ends the kernel once its launcher has ended.

usage: python3 launch.py PROGRAM CONNECTION-FILE [WORD ..]

Words after the connection file, as `jupyter run FILE` adds them, are dropped. JPY_PARENT_PID is the launcher; where it is absent nobody is watched.
The watcher also hands on what the kernel writes on standard error, with the name of its connection file before each line.
"""
import hashlib
import hmac
import json
import os
import select
import signal
import socket
import struct
import sys
import time

PATIENCE = 10           # seconds that the kernel has to end by itself, and again after SIGTERM
ENDED = ('Z', 'X')      # states of a process that nobody has waited for yet, or that is going
POLL = 2                # seconds between two looks, on systems that have no handles of processes
GREETING = b'\xff' + bytes(8) + b'\x7f\x03\x00' + b'NULL'.ljust(20, b'\0') + bytes(32)
READY = b'\x05READY\x0bSocket-Type\x00\x00\x00\x06DEALER'
LAST, MORE, LONG, COMMAND = 0, 1, 2, 4


class Process:
    """A process that need not be ours, held by a handle where the system has them, so that its number can't come to mean another one."""
    def __init__(self, number):
        self.number, self.handle = number, None
        try:
            self.handle = os.pidfd_open(number)
        except ProcessLookupError:
            raise
        except (AttributeError, OSError):
            if self.has_ended():
                raise ProcessLookupError from None

    def has_ended(self):
        if self.handle is not None:
            return bool(select.select([self.handle], [], [], 0)[0])
        try:
            with open(f'/proc/{self.number}/stat', encoding='utf-8', errors='replace') as file:
                return file.read().rpartition(')')[2].split()[0] in ENDED
        except OSError:
            return True

    def send(self, number):
        try:
            if self.handle is None:
                os.kill(self.number, number)
            else:
                signal.pidfd_send_signal(self.handle, number)
        except ProcessLookupError:
            pass


class Lines:
    """What the kernel writes on standard error, handed on with a name before each line."""
    def __init__(self, source, to, name):
        self.source, self.to, self.name, self.rest, self.is_open = source, to, name, b'', True
        os.set_blocking(source, False)

    def hand_on(self):
        try:
            read = os.read(self.source, 65536)
        except BlockingIOError:
            return False
        *lines, self.rest = (self.rest + read).split(b'\n')
        if not read and self.rest:
            lines, self.rest = [self.rest], b''
        self.is_open = bool(read)
        try:
            for line in lines:
                os.write(self.to, b'[' + self.name + b'] ' + line + b'\n')
        except OSError:
            pass                        # nobody reads it
        return self.is_open


def wait_for_one(processes, seconds=None, lines=None):
    """Waits until one of them has ended, or so long; with handles nothing but a line wakes in between."""
    until = None if seconds is None else time.monotonic() + seconds
    handles = [it.handle for it in processes]
    while not any(it.has_ended() for it in processes):
        left = None if until is None else until - time.monotonic()
        if left is not None and left <= 0:
            return
        heard = [lines.source] if lines and lines.is_open else []
        if None in handles:
            time.sleep(POLL if left is None else min(POLL, left))
        else:
            select.select(handles + heard, [], [], left)
        if heard:
            lines.hand_on()


def frame(flags, body):
    if len(body) < 256:
        return bytes((flags, len(body))) + body
    return bytes((flags | LONG,)) + struct.pack('>Q', len(body)) + body


def shutdown_request(key):
    """The frames of a signed message that asks the kernel to end."""
    header = {'msg_id': os.urandom(16).hex(), 'session': os.urandom(16).hex(), 'username': 'launcher', 'msg_type': 'shutdown_request',
              'version': '5.3', 'date': time.strftime('%Y-%m-%dT%H:%M:%SZ', time.gmtime())}
    parts = [json.dumps(it).encode() for it in (header, {}, {}, {'restart': False})]
    signature = hmac.new(key.encode(), b''.join(parts), hashlib.sha256).hexdigest().encode()
    frames = [b'<IDS|MSG>', signature, *parts]
    return b''.join(frame(MORE, it) for it in frames[:-1]) + frame(LAST, frames[-1])


def ask_to_end(kernel, given):
    """Sends the request to the control socket as soon as the kernel listens, and waits for its end with the connection open."""
    until = time.monotonic() + PATIENCE
    while time.monotonic() < until and not kernel.has_ended():
        try:
            with socket.create_connection((given['ip'], given['control_port']), PATIENCE) as connection:
                connection.sendall(GREETING + frame(COMMAND, READY) + shutdown_request(given['key']))
                return wait_for_one([kernel], until - time.monotonic())
        except OSError:
            wait_for_one([kernel], .2)
    return None


def read(connection_file):
    """What stands in the connection file, or nothing where that isn't one."""
    try:
        with open(connection_file, encoding='utf-8') as file:
            given = json.load(file)
        return {'ip': str(given['ip']), 'control_port': int(given['control_port']), 'key': str(given['key'])}
    except (OSError, ValueError, KeyError, TypeError):
        return None


def end(kernel, given, connection_file):
    if given:
        ask_to_end(kernel, given)
    for number in (signal.SIGTERM, signal.SIGKILL):
        if not kernel.has_ended():
            kernel.send(number)
            wait_for_one([kernel], PATIENCE)
    if given and read(connection_file) == given:
        os.unlink(connection_file)


def let_go(kept):
    """Holds no file and no folder that anyone waits for, but the handles that are kept."""
    for number in [int(it) for it in os.listdir('/proc/self/fd')]:
        if number not in kept:
            try:
                os.close(number)
            except OSError:
                pass                    # it was that of the list itself
    for _ in range(3):
        os.open(os.devnull, os.O_RDWR)
    os.chdir('/')


def watch(launcher, kernel, connection_file, pipe):
    """Runs in a process and in a session of its own."""
    lines = None
    if pipe:
        os.close(pipe[1])
        lines = Lines(pipe[0], os.dup(2), os.fsencode(os.path.basename(connection_file)))
    let_go((launcher.handle, kernel.handle, *((lines.source, lines.to) if lines else ())))
    given = read(connection_file)
    wait_for_one([launcher, kernel], lines=lines)
    if not kernel.has_ended():
        end(kernel, given, connection_file)
    while lines and lines.hand_on():
        pass


def leave_watcher(number, connection_file):
    try:
        launcher, kernel = Process(number), Process(os.getpid())
    except ProcessLookupError:
        return
    pipe = os.pipe() if sys.stderr else None
    child = os.fork()
    if child:
        if os.waitpid(child, 0)[1] == 0 and pipe:
            os.dup2(pipe[1], 2)
        return
    status = 1
    try:
        os.setsid()
        if os.fork() == 0:
            watch(launcher, kernel, connection_file, pipe)
        status = 0
    finally:
        os._exit(status)


def say_of_transport(connection_file):
    """The program's own line names the field alone."""
    try:
        with open(connection_file, encoding='utf-8') as file:
            transport = json.load(file).get('transport')
    except (OSError, ValueError, AttributeError):
        return
    if transport not in (None, 'tcp') and sys.stderr:
        print(f'janus: the kernel serves the transport tcp alone, and {connection_file} asks for {transport!r}: take the line '
              'c.KernelManager.transport out of the configuration of Jupyter', file=sys.stderr, flush=True)


def become(program, connection_file):
    signal.signal(signal.SIGINT, signal.SIG_IGN)
    for number in (signal.SIGPIPE, signal.SIGXFSZ):
        signal.signal(number, signal.SIG_DFL)
    try:
        os.execvp(program, [program, connection_file])
    except OSError as error:
        sys.exit(f'{program}: {error.strerror}; jupyter/install brings the program')


def main():
    if len(sys.argv) < 3:
        sys.exit(__doc__.split('\n')[2])
    program, connection_file = sys.argv[1], os.path.abspath(sys.argv[2])
    say_of_transport(connection_file)
    launcher = os.environ.get('JPY_PARENT_PID', '')
    if launcher.isascii() and launcher.isdecimal():
        leave_watcher(int(launcher), connection_file)
    become(program, connection_file)


main()
