"""Kernels that are started for a check, and frontends that talk to them. Needs pyzmq (Debian's python3-zmq)."""
import hashlib
import hmac
import json
import os
import socket
import struct
import subprocess
import time

import zmq

HERE = os.path.dirname(os.path.realpath(__file__))
PROGRAM = f"{HERE}/../crates/janus_kernel/out/janus_kernel"
KEY = b"0f1e2d3c"
PORTS = ["shell_port", "iopub_port", "stdin_port", "control_port", "hb_port"]
SHELL, IOPUB, STDIN, CONTROL, BEAT = range(5)
# which kind of socket goes with each of the five
KINDS = [b"DEALER", b"SUB", b"DEALER", b"DEALER", b"REQ"]
COMM = "check"

# the minor versions of ZMTP 3 that frontends speak; libzmq 4.3, by which `Frontend` talks, speaks 3.1
MINORS = [0, 1]


def greeting(minor=1, major=3):
    return b"\xff" + bytes(8) + bytes([0x7F, major, minor]) + b"NULL".ljust(20, b"\0") + bytes(32)


def frame(body, flags=0):
    """A frame of the wire; flag 1: more follow, 4: a command."""
    if len(body) > 255:
        return struct.pack(">BQ", flags | 2, len(body)) + body
    return bytes([flags, len(body)]) + body


def command(name, data=b""):
    """A command of this name."""
    return frame(bytes([len(name)]) + name + data, 4)


def opening(kind, minor=1):
    """What a peer of this kind and minor version sends first: a greeting and READY."""
    return greeting(minor) + command(b"READY", b"\x0bSocket-Type" + struct.pack(">I", len(kind)) + kind)


def subscription(prefix, minor=1):
    """What subscribes to a prefix: of a peer of 3.0 a message, of one of 3.1 a command."""
    return command(b"SUBSCRIBE", prefix) if minor else frame(b"\1" + prefix)


def ping(context=b"ab", time_to_live=0):
    return command(b"PING", struct.pack(">H", time_to_live) + context)


def signed(msg_type, content, msg_id, key=KEY):
    header = {"msg_id": msg_id, "msg_type": msg_type, "session": "check", "username": "", "version": "5.3"}
    parts = [json.dumps(it).encode() for it in (header, {}, {}, content)]
    return [b"<IDS|MSG>", hmac.new(key, b"".join(parts), hashlib.sha256).hexdigest().encode(), *parts]


class Kernel:
    """A kernel of its own, with its five ports. Words may stand before the program, by which it is run."""

    def __init__(self, program, folder, errors=None, before=()):
        free = [socket.socket() for _ in PORTS]
        for it in free:
            it.bind(("127.0.0.1", 0))
        self.ports = [it.getsockname()[1] for it in free]
        for it in free:
            it.close()
        self.path = f"{folder}/{self.ports[0]}.json"
        with open(self.path, "w", encoding="utf-8") as it:
            json.dump({"transport": "tcp", "ip": "127.0.0.1", "key": KEY.decode(), "signature_scheme": "hmac-sha256", **dict(zip(PORTS, self.ports))}, it)
        self.process = subprocess.Popen([*before, program, self.path], stdout=subprocess.PIPE, stderr=errors)
        if self.process.stdout.readline() != b"ready\n":
            raise SystemExit("the kernel did not start")

    def megabytes(self, field="VmRSS"):
        """How much memory it has now, or by VmHWM at most so far."""
        with open(f"/proc/{self.process.pid}/status", encoding="ascii") as it:
            return next(int(line.split()[1]) / 1024 for line in it if line.startswith(field))

    def is_alive(self):
        return self.process.poll() is None

    def end(self):
        self.process.kill()
        self.process.wait()
        self.process.stdout.close()


class Silent(Exception):
    """No answer came in time."""


class Frontend:
    """A frontend that shows the key: shell, control and broadcasts."""

    def __init__(self, ports, seconds=10, hears=True):
        self.context = zmq.Context()
        self.seconds, self.count, self.name = seconds, 0, os.urandom(6).hex()
        self.shell = self.socket(zmq.DEALER, ports[SHELL])
        self.control = self.socket(zmq.DEALER, ports[CONTROL])
        self.iopub = self.socket(zmq.SUB, ports[IOPUB]) if hears else None

    def socket(self, kind, port):
        made = self.context.socket(kind)
        made.linger = 0
        if kind == zmq.SUB:
            made.rcvhwm = 0
            made.subscribe(b"")
        made.connect(f"tcp://127.0.0.1:{port}")
        return made

    def send(self, msg_type, content, to=None):
        self.count += 1
        msg_id = f"{self.name}-{self.count}"
        (to or self.shell).send_multipart(signed(msg_type, content, msg_id))
        return msg_id

    def ask(self, msg_type, content, to=None):
        """The content of the reply."""
        where = to or self.shell
        msg_id, until = self.send(msg_type, content, where), time.monotonic() + self.seconds
        while where.poll(max(0, int(1000 * (until - time.monotonic())))):
            parts = where.recv_multipart()
            if json.loads(parts[3]).get("msg_id") == msg_id:
                return json.loads(parts[5])
        raise Silent(msg_type)

    def run(self, code, wishes=None):
        return self.ask("execute_request", {"code": code, "silent": False, "store_history": True, "user_expressions": wishes or {}})

    def value(self, name):
        told = self.run("", {"v": name})["user_expressions"]["v"]
        return int(told["data"]["text/plain"]) if told["status"] == "ok" else None

    def interrupt(self):
        return self.ask("interrupt_request", {}, self.control)

    def open_comm(self):
        self.send("comm_open", {"comm_id": COMM, "target_name": "janus.undo", "data": {}})
        self.ask("kernel_info_request", {})

    def comm(self, data):
        """What the kernel answers on the comm."""
        msg_id, until = self.send("comm_msg", {"comm_id": COMM, "data": data}), time.monotonic() + self.seconds
        while self.iopub.poll(max(0, int(1000 * (until - time.monotonic())))):
            parts = self.iopub.recv_multipart()
            if json.loads(parts[4]).get("msg_id") == msg_id and json.loads(parts[3])["msg_type"] == "comm_msg":
                return json.loads(parts[6])["data"]
        raise Silent(str(data))

    def wait_until_heard(self):
        """Waits until the subscription holds: broadcasts of a request come."""
        for _ in range(200):
            self.ask("kernel_info_request", {})
            if self.iopub.poll(50):
                return
        raise Silent("broadcasts")

    def pass_over(self):
        """Passes over what was broadcast so far."""
        while self.iopub.poll(0):
            self.iopub.recv_multipart()

    def close(self):
        self.context.destroy(linger=0)
