"""The rows of the crates of tests, which stand one part behind the other in the files `stdin` and `stdout` of `tests_calls`."""
import os
import re

CALLS = f"{os.path.dirname(os.path.realpath(__file__))}/../crates/tests_calls"


def heading(crate):
    """The line that begins the part of a crate."""
    return f"== {crate.removeprefix('tests_')}\n"


def part(crate, file):
    """The part of a crate, without its first line."""
    with open(f"{CALLS}/{file}", encoding="utf-8") as it:
        return re.search(rf"^{heading(crate)}(.*?)(?=^== |\Z)", it.read(), re.M | re.S)[1]
