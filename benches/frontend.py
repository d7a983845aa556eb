"""Measures the kernel program with a frontend that is libzmq alone: its requests are signed before the clock runs.

    python3 benches/frontend.py crates/janus_kernel/out/janus_kernel [ROUNDS]

Each round starts the program anew and tells, with nobody subscribed and then with a subscriber to all: how long half of 3,000 requests for what the
kernel is took at most, and half of 3,000 cells `x += 1`, one by one; and how many such cells a second, of 10,000 that are sent without waiting.
Needs pyzmq.
"""
import hashlib
import hmac
import json
import os
import socket
import statistics
import subprocess
import sys
import tempfile
import threading
import time

import zmq

KEY = b"a0436f6c-1916-498b-8eb9-e81ab9368e84"
SESSION = "af6834cc-5aec85a55bfd8ce5ee1b00a4"
ALONE, PIPELINED = 3_000, 10_000


def signed(number, msg_type, content):
    header = {"msg_id": f"{SESSION}_27433_{number}", "msg_type": msg_type, "username": "username", "session": SESSION,
              "date": "2025-01-01T00:00:00.000000Z", "version": "5.4"}
    parts = [json.dumps(header).encode(), b"{}", b"{}", json.dumps(content).encode()]
    signature = hmac.new(KEY, b"".join(parts), hashlib.sha256).hexdigest().encode()
    return [b"<IDS|MSG>", signature, *parts]


def cell(code):
    return {"code": code, "silent": False, "store_history": True, "user_expressions": {}, "allow_stdin": True, "stop_on_error": True}


def connection(folder):
    free = [socket.socket() for _ in range(5)]
    for it in free:
        it.bind(("127.0.0.1", 0))
    names = ["shell_port", "iopub_port", "stdin_port", "control_port", "hb_port"]
    file = {"transport": "tcp", "ip": "127.0.0.1", "key": KEY.decode(), "signature_scheme": "hmac-sha256"}
    file.update((name, it.getsockname()[1]) for name, it in zip(names, free))
    for it in free:
        it.close()
    path = os.path.join(folder, "kernel.json")
    with open(path, "w") as out:
        json.dump(file, out)
    return path, file


def one_by_one(shell, messages):
    times = []
    for message in messages:
        start = time.perf_counter()
        shell.send_multipart(message)
        shell.recv_multipart()
        times.append(time.perf_counter() - start)
    return 1000 * statistics.median(times)


def pipelined(shell, messages):
    start = time.perf_counter()
    for message in messages:
        shell.send_multipart(message)
    for _ in messages:
        shell.recv_multipart()
    return len(messages) / (time.perf_counter() - start)


def listen(context, port, stop):
    sub = context.socket(zmq.SUB)
    sub.setsockopt(zmq.SUBSCRIBE, b"")
    sub.setsockopt(zmq.RCVHWM, 0)
    sub.connect(f"tcp://127.0.0.1:{port}")
    while not stop.is_set():
        if sub.poll(100):
            while sub.poll(0):
                sub.recv_multipart()
    sub.close(0)


def measured(program, is_heard):
    with tempfile.TemporaryDirectory() as folder:
        path, file = connection(folder)
        kernel = subprocess.Popen([program, path], stdout=subprocess.PIPE)
        kernel.stdout.readline()
        context = zmq.Context()
        shell = context.socket(zmq.DEALER)
        shell.setsockopt(zmq.SNDHWM, 0)
        shell.setsockopt(zmq.RCVHWM, 0)
        shell.connect(f"tcp://127.0.0.1:{file['shell_port']}")
        stop, listener = threading.Event(), None
        if is_heard:
            listener = threading.Thread(target=listen, args=(context, file["iopub_port"], stop))
            listener.start()
            time.sleep(0.3)
        infos = [signed(i, "kernel_info_request", {}) for i in range(ALONE)]
        cells = [signed(i, "execute_request", cell("x += 1")) for i in range(PIPELINED)]
        shell.send_multipart(signed(0, "execute_request", cell("int x")))
        shell.recv_multipart()
        told = one_by_one(shell, infos), one_by_one(shell, cells[:ALONE]), pipelined(shell, cells)
        stop.set()
        if listener:
            listener.join()
        shell.send_multipart(signed(0, "kernel_info_request", {}))
        shell.recv_multipart()
        kernel.kill()
        kernel.wait()
        shell.close(0)
        context.term()
    return told


for _ in range(int(sys.argv[2]) if len(sys.argv) > 2 else 3):
    for is_heard in (False, True):
        info, execute, rate = measured(sys.argv[1], is_heard)
        heard = "with a subscriber" if is_heard else "nobody subscribed"
        print(f"{heard}: what the kernel is {info:.3f} ms, a cell {execute:.3f} ms, pipelined {rate:,.0f} a second", flush=True)
