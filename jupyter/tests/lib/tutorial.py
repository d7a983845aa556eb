"""The tutorial's notebook, and what its cells have to show where all are run."""
import os

TOP = os.path.dirname(os.path.dirname(os.path.dirname(os.path.dirname(os.path.abspath(__file__)))))
NODES = 17              # of the 21 cells four are to fail


def notebook():
    with open(f'{TOP}/examples/tutorial.ipynb') as file:
        return file.read()


def differs(shown):
    """The cells that show something else: pairs of what is wanted and what is shown. One after a move, for which `?` stands, is passed over."""
    with open(f'{TOP}/checks/tutorial.out') as file:
        wanted = file.read().rstrip('\n').split('\n%%\n')
    return [it for it in zip(wanted, shown) if it[0] not in ('?', it[1].strip())] + [('cells', len(wanted), len(shown))] * (len(wanted) != len(shown))
