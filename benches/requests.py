"""Writes a part of tests_replay for tests_calls: a key, and a connection on shell with many requests, signed, as jupyter_client writes them.

    python3 benches/requests.py execute 20000 > /tmp/input
    python3 benches/requests.py loop 3200000 64 > /tmp/input      (a cell of this many steps, in slices of 64; else of 4,096)
    crates/tests_calls/out/tests_calls < /tmp/input > /dev/null

Kinds: execute (x += 1), values (the same with four user expressions), info, complete (a kernel with 256 names, all of which match),
complete-few (11 of them match), judge (is_complete, over the same kernel), history (65,536 inputs, and then so many questions for the last ten),
loop (one cell).
"""
import hashlib
import hmac
import json
import sys

# how many steps a turn of the loop takes
STEPS_OF_A_TURN = 10
KEY = b"a0436f6c-1916-498b-8eb9-e81ab9368e84"
SESSION = "af6834cc-5aec85a55bfd8ce5ee1b00a4"
OPENING = (
    b"\xff" + b"\0" * 8 + b"\x7f\x03\x00NULL" + b"\0" * 48
    + b"\x04\x1c\x05READY\x0bSocket-Type\0\0\0\x06DEALER"
)


def frame(body, more):
    if len(body) < 256:
        return bytes([more, len(body)]) + body
    return bytes([more | 2]) + len(body).to_bytes(8, "big") + body


def message(number, msg_type, content):
    header = {"msg_id": f"{SESSION}_27433_{number}", "msg_type": msg_type, "username": "username", "session": SESSION,
              "date": "2025-01-01T00:00:00.000000Z", "version": "5.4"}
    parts = [json.dumps(header).encode(), b"{}", b"{}", json.dumps(content).encode()]
    signature = hmac.new(KEY, b"".join(parts), hashlib.sha256).hexdigest().encode()
    frames = [b"<IDS|MSG>", signature, *parts]
    return b"".join(frame(f, 1) for f in frames[:-1]) + frame(frames[-1], 0)


def cell(code, expressions={}):
    return {"code": code, "silent": False, "store_history": True, "user_expressions": expressions,
            "allow_stdin": True, "stop_on_error": True}


def requests(kind, count):
    names = cell(" ".join(f"int v{i}" for i in range(256)))
    tail = {"raw": True, "output": False, "hist_access_type": "tail", "n": 10}
    four = {name: "x * 2" for name in "abcd"}
    if kind == "loop":
        turns = f"from i = 0 do x += i * 3 ^ 5 i += 1 until i = {count // STEPS_OF_A_TURN}"
        return [("execute_request", cell("int x int i")), ("execute_request", cell(turns))]
    first, each = {
        "execute": ([cell("int x")], ("execute_request", cell("x += 1"))),
        "values": ([cell("int x")], ("execute_request", cell("x += 1", four))),
        "info": ([], ("kernel_info_request", {})),
        "complete": ([names], ("complete_request", {"code": "v", "cursor_pos": 1})),
        "complete-few": ([names], ("complete_request", {"code": "x + v9", "cursor_pos": 6})),
        "judge": ([names], ("is_complete_request", {"code": "if x"})),
        "history": ([cell("int x")] + [cell("x += 1")] * 65_535, ("history_request", tail)),
    }[kind]
    return [("execute_request", c) for c in first] + [each] * count


kind, count, slice_steps = sys.argv[1], int(sys.argv[2]), int((sys.argv[3:] or [0])[0])
octets = OPENING + b"".join(message(i, *r) for i, r in enumerate(requests(kind, count)))
print("== replay")
print(KEY.decode())
if slice_steps:
    print("slices " + f"{slice_steps} go, " * (count // slice_steps))
print("shell", octets.hex())
