"""Checks that are counted, and waiting for what is to come true."""
import time

done = failed = 0
stops = False           # whether a scene ends at the first check that fails


class Stopped(Exception):
    pass


def check(good, what, *more):
    global done, failed
    done += 1
    if not good:
        failed += 1
    print('ok  ' if good else 'FAIL', what, *([repr(it)[:700] for it in more] if not good else []), flush=True)
    if stops and not good:
        raise Stopped(what)
    return good


def wait(what, ask, timeout=20, step=.1):
    """The first true value of ask, or an error that says what was waited for."""
    until, last = time.time() + timeout, None
    while time.time() < until:
        try:
            value = ask()
            if value:
                return value
        except Exception as error:
            last = error
        time.sleep(step)
    raise AssertionError(f'waited {timeout} s for: {what}' + (f' ({str(last)[:300]})' if last else ''))


def comes(what, ask, timeout=20):
    """A check that may take a while to come true. ask answers what is true, or a tuple that begins with it."""
    last = [None]

    def true():
        last[0] = ask()
        return last[0][0] is True if isinstance(last[0], tuple) else last[0] is True
    try:
        wait(what, true, timeout)
    except AssertionError as error:
        return check(False, what, last[0], str(error)[:200])
    return check(True, what)


def figure(what, value):
    print('     ' + what + ':', value, flush=True)
