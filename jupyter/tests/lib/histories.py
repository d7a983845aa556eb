"""Random histories of cells and moves, by which the tree of a console is tested."""
import random

from janus_lexer.tree import Heard, Tree


class Simulated:
    """A kernel without cells: the tree, the position and the ways last taken. What a console knows must agree with it."""
    def __init__(self):
        self.parent, self.favourite, self.at = [None], [None], 0

    def path(self, node):
        found = [node]
        while self.parent[found[-1]] is not None:
            found.append(self.parent[found[-1]])
        return found

    def redos(self):
        found = [self.at]
        while self.favourite[found[-1]] is not None:
            found.append(self.favourite[found[-1]])
        return found[1:]

    def state(self):
        return {'node': self.at, 'depth': len(self.path(self.at)) - 1, 'redo': len(self.redos()), 'nodes': len(self.parent) - 1, 'busy': False}

    def cell(self):
        self.parent.append(self.at)
        self.favourite.append(None)
        self.favourite[self.at] = self.at = len(self.parent) - 1

    def move(self, op, number):
        """The answer to a move, or None where it is refused."""
        up, down = self.path(self.at), self.redos()
        if not number < len(self.parent) or op == 'undo' and number >= len(up) or op == 'redo' and number > len(down):
            return None
        undone, redone = {'undo': (number, 0), 'redo': (0, number)}.get(op) or (None, None)
        if op == 'goto':
            way = self.path(number)
            redone = next(k for k, it in enumerate(way) if it in up)
            undone = up.index(way[redone])
            for low, high in zip(way[:redone], way[1:]):
                self.favourite[high] = low
        self.at = {'undo': lambda: up[number], 'redo': lambda: ([self.at] + down)[number], 'goto': lambda: number}[op]()
        return {'op': op, 'undone': undone, 'redone': redone, 'node': self.at}


def wrong_in(histories):
    """What a tree that hears random histories, from the start or from later on, knows wrongly or doesn't know; and the nodes that it knows, and all."""
    chance, known, total, wrong = random.Random(1), 0, 0, []
    for _ in range(histories):
        kernel, tree, late, told = Simulated(), Tree(), chance.choice((0, chance.randrange(40))), False
        for turn in range(late + 60):
            if turn == late:
                tree.check(kernel.state(), False)
                told = True
            op = chance.choice(('cell', 'cell', 'cell', 'undo', 'redo', 'goto'))
            if op == 'cell':
                kernel.cell()
                tree.cell('') if told else None
            else:
                answer = kernel.move(op, chance.randrange(max(1, len(kernel.parent)) if op == 'goto' else 4))
                if answer and told and not tree.move(answer):
                    wrong.append(('a move', answer))
            if told and chance.randrange(3) == 0:
                if not tree.expects(kernel.state()):
                    wrong.append(('a state', kernel.state()))
                tree.check(kernel.state(), False)
        wrong += [(node, over, kernel.parent[node]) for node, over in enumerate(tree.parent) if over is not None and over != kernel.parent[node]]
        unknown = sum(it is None for it in tree.parent[1:])
        known, total = known + len(tree.parent) - 1 - unknown, total + len(tree.parent) - 1
        wrong += [('unknown', unknown)] if unknown and late == 0 else []
    return wrong, known, total


class Crowd:
    """Two frontends of a simulated kernel, each with its own connection, whose broadcasts come in order but later than those of the other."""
    def __init__(self, chance):
        self.chance, self.kernel, self.news, self.count, self.jobs = chance, Simulated(), Heard(Tree()), 0, 0
        self.waiting = {'one': [], 'other': []}

    def tells(self, session, kind, content, parent):
        self.waiting[session].append({'msg_type': kind, 'content': content, 'parent_header': {**parent, 'session': session}})

    def job(self):
        session, op = self.chance.choice(('one', 'other')), self.chance.choice(('cell', 'cell', 'cell', 'fails', 'silent', 'undo', 'redo', 'goto'))
        self.jobs += 1
        parent = {'msg_id': self.jobs, 'msg_type': 'execute_request' if op in ('cell', 'fails', 'silent') else 'comm_msg'}
        self.tells(session, 'status', {'execution_state': 'busy'}, parent)
        if parent['msg_type'] == 'comm_msg':
            answer = self.kernel.move(op, self.chance.randrange(len(self.kernel.parent) if op == 'goto' else 4))
            self.tells(session, 'comm_msg', {'data': {'status': 'ok', **answer} if answer else {'op': op, 'status': 'refused'}}, parent)
        else:
            if op != 'silent':
                self.count += 1
                self.tells(session, 'execute_input', {'execution_count': self.count, 'code': str(len(self.kernel.parent))}, parent)
            if op == 'fails':
                self.tells(session, 'error', {'evalue': 'fault 57 DivisionByZero after 1'}, parent)
            else:
                self.kernel.cell()
        self.tells(session, 'status', {'execution_state': 'idle'}, parent)

    def comes(self, most):
        for _ in range(self.chance.randrange(most + 1)):
            queue = self.waiting[self.chance.choice(('one', 'other'))]
            if queue:
                self.news.hear(queue.pop(0))

    def asks(self):
        self.news.asks()
        state = self.kernel.state()
        self.comes(2)
        return self.news.takes(state)

    def ends(self):
        """All is heard, and states are asked for until one is taken."""
        while any(self.waiting.values()):
            self.comes(9)
        if not any(self.asks() for _ in range(3)):
            self.news.gives_up()                                          # on cells that were heard after one with a higher count
        return any(self.asks() for _ in range(3))


def wrong_in_crowds(crowds):
    """What is known wrongly after crowds whose broadcasts come late; and the nodes that are known, and all."""
    chance, known, total, wrong = random.Random(1), 0, 0, []
    for number in range(crowds):
        crowd = Crowd(chance)
        tree, kernel = crowd.news.tree, crowd.kernel
        crowd.asks()
        for _ in range(40):
            crowd.job()
            crowd.comes(chance.choice((8, 60)))
            if chance.randrange(4) == 0:
                crowd.asks()
        if not crowd.ends() or (tree.position, tree.nodes()) != (kernel.at, len(kernel.parent) - 1):
            wrong.append((number, 'the position', tree.position, kernel.at))
        wrong += [(number, node, over, kernel.parent[node]) for node, over in enumerate(tree.parent) if over is not None and over != kernel.parent[node]]
        known, total = known + sum(it is not None for it in tree.parent[1:]), total + tree.nodes()
    return wrong, known, total
