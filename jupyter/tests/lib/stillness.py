"""How long a page stands still by its own doing: the gaps between its beats, without the time in which the machine had no processor for its thread; and
whether what piled up while it stood still leaves room for other work."""
import bisect
import os
import threading
import time

from checks import check, figure

EVERY = .005            # s, between two looks at how long the threads have waited
BEGIN = '''window.beats = []; var last = performance.timeOrigin + performance.now();
    window.beat = setInterval(function () { var now = performance.timeOrigin + performance.now(); window.beats.push([last, now]); last = now; }, 10)'''
END = 'clearInterval(window.beat); return window.beats'
# A meter on what parts of the page take: `meter(owner, name)` for each of its calls.
METER = '''window.work = {total: 0, goes: []};
    function meter(owner, name) { var old = owner[name]; owner[name] = function () { var begun = performance.now(), out = old.apply(this, arguments);
        var ended = performance.now(), from = performance.timeOrigin; window.work.total += ended - begun;
        if (ended - begun > 5) window.work.goes.push([from + begun, from + ended]); return out; }; }'''
HOLD, PILED = 1500, 200 # ms for which the page is held up, and cells of another frontend meanwhile
TOGETHER = 3            # broadcasts that are heard before other work has its turn, at most
# Behind `var it = the conversation;`: holds the page up for so long, and counts the broadcasts that are heard between two turns of other work.
TURNS = '''var held = arguments[0], hear = it.hear, ring = new MessageChannel(), heard = 0, last = 0, turns = window.turns = {heard: 0, longest: 0};
    it.hear = function () { heard++; return hear.apply(it, arguments); };
    ring.port1.onmessage = function () { var now = performance.now(); turns.heard = Math.max(turns.heard, heard);
        if (heard) turns.longest = Math.max(turns.longest, now - last); heard = 0; last = now; if (window.turns) ring.port2.postMessage(null); };
    ring.port2.postMessage(null);
    setTimeout(function () { var until = performance.now() + held; while (last < until) last = performance.now(); }, 20)'''
TURNED = 'var it = window.turns; window.turns = null; return it'


def renderers(driver):
    """The processes of a browser that show pages."""
    above, shows = {}, set()
    for pid in filter(str.isdigit, os.listdir('/proc')):
        try:
            with open(f'/proc/{pid}/stat') as stat, open(f'/proc/{pid}/cmdline') as words:
                above[int(pid)] = int(stat.read().rpartition(')')[2].split()[1])
                if '--type=renderer' in words.read():
                    shows.add(int(pid))
        except OSError:
            continue

    def is_ours(pid):
        while pid in above and pid != driver:
            pid = above[pid]
        return pid == driver
    return [it for it in shows if is_ours(it)]


class Watch(threading.Thread):
    """Looks at the main threads of a browser's pages: when, how long each has run and has waited for a processor, all in ms."""
    def __init__(self, driver):
        super().__init__(daemon=True)
        self.looks = {it: [] for it in renderers(driver.service.process.pid)}
        self.over = threading.Event()
        self.start()

    def run(self):
        while not self.over.wait(EVERY):
            for pid, looks in self.looks.items():
                try:
                    with open(f'/proc/{pid}/task/{pid}/schedstat') as file:
                        ran, waited = (int(it) / 1e6 for it in file.read().split()[:2])
                except OSError:
                    continue
                looks.append((time.time() * 1e3, ran, waited))

    def end(self):
        self.over.set()
        self.join()

    def own(self, beats):
        """The gaps of the page that ran most, rising, each without what its thread is known to have waited in it."""
        looks = max((it for it in self.looks.values() if it), key=lambda it: it[-1][1] - it[0][1])
        times, out = [it[0] for it in looks], []
        for begun, ended in beats:
            first, last = bisect.bisect_right(times, begun) - 1, bisect.bisect_left(times, ended)
            waited = 0
            if 0 <= first and last < len(times):                # what may have been waited before or after the gap doesn't count
                waited = looks[last][2] - looks[first][2] - (begun - times[first]) - (times[last] - ended)
            out.append(ended - begun - max(0, waited))
        return sorted(out)


def metered(page, watch):
    """The longest that a call under the meter took, without the waits for a processor, and what all took, in ms."""
    work = page.js('return window.work')
    return max(watch.own(work['goes']), default=0), work['total']


def piled_up(page, frontend, view, conversation):
    """What came while the page was held up is taken in so that clicks, timers and drawing have their turn in between."""
    page.js(f'var it = {conversation}; {TURNS}', HOLD)
    for _ in range(PILED):
        frontend.begin('n += 1')
    now = frontend.ask('state')         # behind all its cells
    view.stands(page, now['node'], now['nodes'], what=f'{PILED} cells that ran while something else held the page up are in the tree', timeout=60)
    turns = page.js(TURNED)
    figure('of what came then, the most broadcasts in one turn, and the longest turn, ms', (turns['heard'], round(turns['longest'], 1)))
    check(0 < turns['heard'] <= TOGETHER, f'and the page took in no more than {TOGETHER} broadcasts before other work had its turn', turns)
