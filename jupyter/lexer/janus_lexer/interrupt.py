#!/usr/bin/python3
"""Stops the cell that a kernel runs; it is taken back, and all is as before it. Jobs that wait then take their turn.

usage: janus-interrupt FILE     (the kernel's connection file)
"""
import os
import sys

try:
    from jupyter_client import BlockingKernelClient
except ImportError as missing:
    sys.exit(f"janus-interrupt: {missing}; Debian's python3-jupyter-client brings it")

VERSION = '1.0.0'
SECONDS = 10


def interrupt(file):
    """Asks on the control socket alone, since a cell that runs holds up the others. Whether the kernel answered."""
    client = BlockingKernelClient(connection_file=file)
    client.load_connection_file()
    client.start_channels(shell=False, iopub=False, stdin=False, hb=False, control=True)
    try:
        client.control_channel.send(client.session.msg('interrupt_request', {}))
        return client.get_control_msg(timeout=SECONDS)['content'].get('status', 'ok') == 'ok'
    except Exception:                                                     # of another kind in each version of jupyter_client
        return False
    finally:
        client.stop_channels()


def main(words):
    if words == ['--version']:
        print('janus-interrupt', VERSION)
        return 0
    if len(words) != 1 or words[0].startswith('-'):
        print(__doc__.split('\n')[2], file=sys.stderr)
        return 2
    if not os.path.isfile(words[0]):
        print('no connection file ' + words[0], file=sys.stderr)
        return 2
    if interrupt(words[0]):
        print('asked to stop')
        return 0
    print('no connection', file=sys.stderr)
    return 3


if __name__ == '__main__':
    sys.exit(main(sys.argv[1:]))
