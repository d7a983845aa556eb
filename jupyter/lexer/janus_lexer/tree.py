"""The tree of cells as a console knows it: what broadcasts tell of cells and moves, and what follows from it, by the rules of page/history.js."""
from types import SimpleNamespace

MOVES = ('undo', 'redo', 'goto')


def first_line(text):
    return next((it.strip() for it in text.split('\n') if it.strip()), '')


class Wrong(Exception):
    """What was heard can't be true together with what is known."""


class Tree:
    """parent[n] is the node above node n, and depth[n] how many are above it, or None where that isn't known.

    A link [low, high, steps] says that `high` is so many steps above `low`; a bend [a, up, b, down] that the up-th node above `a` is the down-th above `b`.
    """
    def __init__(self):
        self.is_known = False                                             # whether any state was heard
        self.clear()

    def clear(self):
        self.parent, self.depth, self.text, self.position, self.redo = [None], [0], ['start'], 0, None
        self.links, self.bends, self.journal, self.sure = [], [], [], 0   # the journal: nodes whose parent was learnt since the last check

    def nodes(self):
        return len(self.parent) - 1

    def grow(self, nodes):
        while self.nodes() < nodes:
            self.parent.append(None)
            self.depth.append(None)
            self.text.append('')
        if nodes:                                                         # what stands above a node has a smaller number
            self.parent[1], self.depth[1] = 0, 1

    def depth_of(self, node):
        way = []
        while node is not None and self.depth[node] is None:
            way.append(node)
            node = self.parent[node]
        if node is None:
            return None
        for number, it in enumerate(reversed(way), 1):
            self.depth[it] = self.depth[node] + number
        return self.depth[way[0]] if way else self.depth[node]

    def above(self, node, steps):
        for _ in range(steps):
            node = None if node is None else self.parent[node]
        return node

    def set_parent(self, node, parent):
        if self.parent[node] == parent:
            return
        if self.parent[node] is not None or not 0 <= parent < node:
            raise Wrong
        self.parent[node] = parent
        self.journal.append(node)

    # ---- facts
    def bend(self, a, up, b, down):
        if up and down:
            self.bends.append([a, up, b, down])
        else:
            self.links.append([a, b, up] if up else [b, a, down])
        self.settle()

    def settle(self):
        has_news = True
        while has_news:
            links, self.links = self.links, []
            closed = [self.conclude(*it) for it in links]
            bends, self.bends = self.bends, []
            unbent = [self.unbend(*it) for it in bends]
            has_news = any(closed) or any(unbent)

    def conclude(self, low, high, steps):
        """Takes a link, or keeps it while its nodes can't be told. Answers whether anything was learnt."""
        while steps > 0 and self.parent[low] is not None:
            low, steps = self.parent[low], steps - 1
        if steps == 0:
            if low != high:
                raise Wrong
            return False
        if low - high < steps:
            raise Wrong
        if 1 < steps < low - high:
            self.links.append([low, high, steps])
            return self.learn_depth(low, high, steps)
        stride = low - high if steps == 1 else 1                          # one step, or a chain of all the numbers between
        for node in range(low, high, -stride):
            self.set_parent(node, node - stride)
        return True

    def learn_depth(self, low, high, steps):
        over = self.depth_of(high)
        if over is None or self.depth[low] is not None:
            return False
        self.depth[low] = over + steps
        return True

    def unbend(self, a, up, b, down):
        """Takes a bend as links, once the node that both ways lead to is known."""
        over_a, over_b = self.above(a, up), self.above(b, down)
        if over_a is not None:
            self.links.append([b, over_a, down])
        elif over_b is not None:
            self.links.append([a, over_b, up])
        elif self.depth_of(a) == up or self.depth_of(b) == down:
            self.links += [[a, 0, up], [b, 0, down]]
        else:
            self.bends.append([a, up, b, down])
            return False
        return True

    # ---- what was heard
    def cell(self, text):
        """A cell ended well, whose node stands under the position."""
        node, depth = self.nodes() + 1, self.depth_of(self.position)
        self.grow(node)
        self.parent[node], self.depth[node], self.text[node] = self.position, None if depth is None else depth + 1, text
        self.journal.append(node)
        self.position, self.redo = node, 0
        return node

    def fits(self, answer):
        """Whether a move is known to begin where the kernel is thought to be."""
        if answer['node'] > self.nodes():
            return False
        over = self.above(self.position, answer['undone'])
        return over is not None and over == self.above(answer['node'], answer['redone'])

    def move(self, answer):
        """A move was done; false where it doesn't fit what is known."""
        node, undone, redone = answer['node'], answer['undone'], answer['redone']
        if node > self.nodes():
            return False
        try:
            self.bend(self.position, undone, node, redone)
            is_good = True
        except Wrong:
            is_good = False
        self.position = node
        if answer['op'] == 'goto' and redone or self.redo is None:
            self.redo = None                                              # it may have gone down another way
        else:
            self.redo = max(0, self.redo + undone - redone)
        return is_good

    def expects(self, state):
        depth, redo = self.depth_of(self.position), state['redo'] if self.redo is None else self.redo
        here = (self.position, self.nodes(), redo, state['depth'] if depth is None else depth)
        return self.is_known and here == (state['node'], state['nodes'], state['redo'], state['depth'])

    def check(self, state, is_missing):
        """A state was heard. If it isn't what was expected, or if broadcasts are missing, what was concluded since the last check is dropped."""
        if is_missing or not self.expects(state):
            if self.is_known:
                self.forget()
            if state['nodes'] < self.nodes():
                self.clear()
            self.grow(state['nodes'])
            self.position = state['node']
        self.is_known, self.redo = True, state['redo']
        self.depth[self.position] = state['depth']
        try:
            self.learn(state)
        except Wrong:
            self.forget()
            self.depth[self.position] = state['depth']
        self.journal, self.sure = [], self.nodes()

    def learn(self, state):
        self.links.append([state['node'], 0, state['depth']])
        if 0 < state['redo'] == state['nodes'] - state['node']:           # all later nodes stand below, in one chain
            self.links.append([state['nodes'], state['node'], state['redo']])
        self.settle()

    def forget(self):
        for node in self.journal:
            self.parent[node] = None
        for node in range(self.sure + 1, self.nodes() + 1):
            self.parent[node], self.text[node] = None, ''
        self.depth[1:] = [None] * self.nodes()
        self.grow(self.nodes())
        self.links, self.bends, self.journal = [], [], []

    def early(self, texts):
        """Cells that ended before the first state was heard, and nothing else did: they are the newest nodes, one under the other."""
        last, many = self.nodes(), len(texts)
        if many == 0 or self.position != last or many > last:
            return
        self.text[last - many + 1:] = texts
        try:
            self.links.append([last, last - many + 1, many - 1])
            self.settle()
        except Wrong:
            self.forget()

    def told(self, texts):
        """Takes the texts of all nodes, as they are known from the kernel."""
        for node, text in enumerate(texts, 1):
            self.text[node] = self.text[node] or text

    def codes(self):
        """The texts that are known of the cells on the path, the oldest first."""
        return [self.text[node] for node in sorted(self.path()) if node]

    def nodes_above(self):
        """The nodes from the start to the position, without the start, if all of them and their texts are known, else None."""
        start, *nodes = sorted(self.path())
        return nodes if self.is_known and start == 0 and all(self.text[it].strip() for it in nodes) else None

    def way(self, answer):
        """The nodes that a move ran back, the newest first, and those that it ran again, while the position is as before it; None where they aren't known."""
        if not self.is_known or not self.fits(answer):
            return None
        back = [self.above(self.position, steps) for steps in range(answer['undone'])]
        return back, [self.above(answer['node'], steps) for steps in range(answer['redone'])][::-1]

    # ---- what is drawn
    def children(self):
        found = [[] for _ in self.parent]
        for node, above in enumerate(self.parent):
            if above is not None:
                found[above].append(node)
        return found

    def path(self):
        node, found = self.position, set()
        while node is not None and node not in found:
            found.add(node)
            node = self.parent[node]
        return found

    def rows(self):
        """The parts of each row: a branch stands below its fork and further in, the newest child of a node below it."""
        children, path, rows = self.children(), self.path(), []
        waiting = [(node, 0) for node in range(len(self.parent) - 1, -1, -1) if self.parent[node] is None]
        while waiting:
            node, depth = waiting.pop()
            mark = '>' if node == self.position else ' '
            unknown = ' ?' if node and self.parent[node] is None else ''
            rows.append([('bold' if node in path else '', f'{mark} ' + '  ' * depth + f'{node}{unknown}'), '  ' + first_line(self.text[node])[:60]])
            *older, newest = children[node] or [None]
            if newest is not None:
                waiting.append((newest, depth))
            waiting += [(it, depth + 1) for it in reversed(older)]
        return rows


class Heard:
    """What broadcasts tell the tree, whoever asked for them, as page/conversation.js takes them."""
    def __init__(self, tree):
        self.tree, self.jobs, self.held = tree, {}, {}                    # jobs that haven't ended; cells that were heard before one with a lower count
        self.clock, self.count, self.unsure = 0, 0, 0                     # ends of jobs; the highest count; moves of which it isn't known where they began
        self.early, self.asked, self.is_missing, self.doubted = [], 0, False, None  # doubted: the last state, if it wasn't taken
        self.silent, self.spoken, self.moves = 0, 0, 0                    # silent cells, other jobs, and moves among these since the last state
        self.way = None                                                   # which nodes the last move ran, as far as that is known

    def hear(self, message):
        parent, content, kind = message['parent_header'], message['content'], message['msg_type']
        if parent.get('msg_type') not in ('execute_request', 'comm_msg'):
            return
        new = SimpleNamespace(type=parent['msg_type'], session=parent.get('session'), clock=self.clock, unsure=self.unsure, count=None, text='',
                              failed=None, node=None, answer={})
        job = self.jobs.setdefault(parent['msg_id'], new)
        if kind == 'execute_input':
            job.count, job.text = content['execution_count'], content['code']
        elif kind == 'error':
            job.failed = content['evalue']
        elif kind == 'comm_msg':
            job.answer = content.get('data', {})
        elif kind == 'status' and content['execution_state'] == 'idle':
            del self.jobs[parent['msg_id']]
            self.ended(job)

    def ended(self, job):
        if job.type == 'comm_msg':
            if job.answer.get('op') in MOVES and job.answer.get('status') == 'ok':
                self.moved(job, job.answer)
            return
        self.clock += 1
        if job.count is None:                                             # it was silent: the state tells what it came to
            self.early, self.silent = None, self.silent + 1
        elif self.count and job.count > self.count + 1:                   # an earlier cell hasn't been told yet
            self.held[job.count] = job
            self.is_missing = self.is_missing or self.moves > 0           # in which order these came isn't known
        else:
            self.cell(job)
            while self.count + 1 in self.held:
                self.cell(self.held.pop(self.count + 1))

    def cell(self, job):
        self.spoken, self.count = self.spoken + 1, max(self.count, job.count)
        if job.failed:
            return
        if self.unsure > job.unsure:                                      # a move that was heard first may have come after it
            self.is_missing = True
        if self.tree.is_known:
            job.node = self.tree.cell(job.text)
        elif self.early is not None:
            self.early.append(job.text)

    def moved(self, job, answer):
        is_among_others, fits = self.clock > job.clock, self.tree.fits(answer)
        self.way = self.tree.way(answer)
        self.clock, self.spoken, self.moves, self.unsure = self.clock + 1, self.spoken + 1, self.moves + 1, self.unsure + (not fits)
        if not self.tree.is_known:
            self.early = None
        elif not self.tree.move(answer) or self.held or is_among_others and not fits:
            self.is_missing = True

    def asks(self):
        """A state is asked for."""
        self.asked = self.clock

    def takes(self, state):
        """Whether a state was taken: where nothing ended between its question and its answer, and nothing is open. One that isn't what was expected
        is taken when the same comes again."""
        is_quiet = self.asked == self.clock and not state['busy'] and not self.jobs and not self.held
        if is_quiet:
            self.silent_cells(state)
        is_odd = is_quiet and self.tree.is_known and not self.tree.expects(state)
        seen = [state[name] for name in ('node', 'depth', 'redo', 'nodes')]
        is_taken = is_quiet and (not is_odd or self.doubted == seen) or state['busy'] and not self.tree.is_known
        if is_quiet:
            self.doubted = seen if is_odd and not is_taken else None
        if is_taken:
            self.take(state, is_quiet)
        return is_taken

    def silent_cells(self, state):
        """Silent cells ended, and nothing else: they stand one under the other."""
        more = state['nodes'] - self.tree.nodes()
        if self.tree.is_known and not self.spoken and not self.is_missing and 0 < more <= self.silent and state['node'] == state['nodes']:
            for _ in range(more):
                self.tree.cell('')

    def take(self, state, is_quiet):
        is_first = not self.tree.is_known
        self.tree.check(state, self.is_missing)
        if is_first and is_quiet:
            self.tree.early(self.early or [])
        if self.is_missing:
            self.count = 0                                                # it isn't known, and what comes next is no gap
        self.early, self.silent, self.spoken, self.moves, self.is_missing = [], 0, 0, 0, False

    def gives_up(self):
        """What is open, or is waited for, was lost."""
        self.is_missing = self.is_missing or bool(self.jobs or self.held)
        self.jobs.clear()
        for count in sorted(self.held):
            self.cell(self.held.pop(count))
