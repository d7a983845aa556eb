"""Scenes with many nodes and many messages, with the page's speed."""
import random
import signal
import threading
import time

import panel
import stillness
from checks import check, comes, figure, wait
from panel import BRIEF, click_node, known, shown, stands

CLICK = 50              # ms, from a click to the drawing of what it brought, at 1,000 nodes
DRAW = 4                # ms, the median of a drawing while the tree is scrolled
WORK = 100              # ms, the longest that the page's own parts may take in one go
MOST_OPEN = 400         # cells that were sent and have no reply, at most
STILL, GOAL = 100, 50   # ms, the longest that the page may not look at anything, and what is aimed at
# A meter on what the page's own parts take.
METER = stillness.METER + '''
    meter(Jupyter.janus.conversation, 'hear'); meter(Jupyter.janus, 'update'); meter(Jupyter.janus, 'keep');
    meter(Jupyter.janus.panel.tree, 'place')'''


def rush(frontend, seed):
    pick = random.Random(seed)
    for _ in range(40):
        what = pick.random()
        if what < .55:
            frontend.begin(f'n += {pick.randrange(100)}' if pick.random() < .9 else 'n += 1 / 0')
        elif what < .6:
            frontend.begin('x1 += 1', silent=True)
        else:
            op = 'undo' if what < .8 else 'redo' if what < .9 else 'goto'
            n = {'undo': pick.randrange(3), 'redo': 1, 'goto': pick.randrange(1, 20)}[op]
            frontend.send('comm_msg', {'comm_id': frontend.comm, 'data': {'op': op, 'n': n}})
        if pick.random() < .3:
            time.sleep(pick.random() * .2)
    frontend.ask('state')


def crowd(stage):
    stage.page.run(1)
    crowded(stage, panel)


def crowded(stage, view):
    """Three frontends in a rush. The view is that of the page: panel or lab_page."""
    page, stands, known = stage.page, view.stands, view.known
    stands(page, 1, 1)
    frontends = [stage.frontend() for _ in range(3)]
    threads = [threading.Thread(target=rush, args=(it, seed), daemon=True) for seed, it in enumerate(frontends)]
    for it in threads:
        it.start()
    for it in threads:
        it.join(300)
    first, now = frontends[0], frontends[0].ask('state')
    stands(page, now['node'], now['nodes'], now['world'], 'behind three frontends in a rush the panel stands where the kernel stands')
    time.sleep(2)
    said, real = known(page), [-1]
    for n in range(1, now['nodes'] + 1):
        first.ask('goto', n=n)
        real.append(first.ask('undo', n=1)['node'])
    wrong = [(n, said['parent'][n], real[n]) for n in range(1, now['nodes'] + 1) if said['parent'][n] not in (-1, real[n])]
    check(not wrong, 'and what it says of the tree is so', wrong)
    figure('nodes behind the crowd, and those that were open', (now['nodes'], said['unknown']))
    first.ask('goto', n=now['node'])
    comes('a walk through all nodes told it the rest', lambda: (known(page)['unknown'] == 0 and known(page)['parent'] == real, known(page)['unknown']))


def grow(frontend, nodes, above=(-1, 0), position=1, pause=.35):
    """So many cells more, in a tree of many branches, with a pause behind each 50, whose some 220 broadcasts are so below the 1,000 a second that the
    notebook's server lets through. Answers the parents of all nodes."""
    parent = list(above)
    for i in range(nodes):
        frontend.begin(f'n += {i}')
        parent.append(position)
        position = len(parent) - 1
        if i % 10 == 9:
            position = max(1, (i * 7919) % (i + 1))
            frontend.send('comm_msg', {'comm_id': frontend.comm, 'data': {'op': 'goto', 'n': position}})
        if i % 50 == 49:
            frontend.ask('state')
            frontend.drain()
            time.sleep(pause)
    return parent


# Drawings while the tree is scrolled by what a wheel's notch is, and where it jumps elsewhere, by the page's own clock.
DRAWN = '''var t = Jupyter.janus.panel.tree, most = t.box.scrollHeight - t.box.clientHeight;
    function middle(it) { it.sort(function (a, b) { return a - b; }); return it[it.length >> 1]; }
    function draw(place) { return function (i) { t.box.scrollTop = place(i); t.scrolled(); return t.stats.last; }; }
    var many = Array.from(Array(80).keys()), scrolled = many.map(draw(function (i) { return most / 3 + i * 120; }));
    var jumped = many.map(draw(function (i) { return most * ((i * 37) % 80) / 80; }));
    return {scrolled: middle(scrolled), jumped: middle(jumped), most: Math.max.apply(null, scrolled.concat(jumped)),
        elements: t.svg.getElementsByTagName("*").length, lanes: t.layout.lines.length}'''


def drawing(page, what):
    drawn = page.js(DRAWN)
    figure(what, {it: round(drawn[it], 2) for it in drawn})
    return drawn


# From a click to the drawing of what it brought, by the page's own clock.
CLICKED = '''var node = arguments[0], done = arguments[1], page = Jupyter.janus, tree = page.panel.tree, old = tree.draw, begun;
    tree.move_cursor(node);
    tree.draw = function () { old.call(tree); if (begun === undefined || page.history.position !== node) return;
        tree.draw = old; done(performance.now() - begun); };
    setTimeout(function () { var row = document.querySelector('#janus-node-' + node + ' circle'); begun = performance.now();
        var at = row.getBoundingClientRect(); row.dispatchEvent(new MouseEvent('click', {bubbles: true, clientX: at.left + 3, clientY: at.top + 3})); }, 300)'''


def thousand(stage):
    page, frontend = stage.page, stage.frontend()
    page.run(1)
    stands(page, 1, 1)
    begun = time.time()
    parent = grow(frontend, 999)
    now = frontend.ask('state')
    comes('1,000 nodes are in the tree', lambda: (page.js(BRIEF)['nodes'] == 1000 and page.js(BRIEF)['unknown'] == 0, page.js(BRIEF)), 120)
    figure('seconds in which they were made', round(time.time() - begun, 1))
    stands(page, now['node'], 1000, now['world'])
    check(known(page)['parent'] == parent, 'each under the node under which it ran')
    drawn = drawing(page, 'a drawing at 1,000 nodes, in the middle, ms')
    check(drawn['scrolled'] < DRAW, f'a drawing while scrolling takes less than {DRAW} ms in the middle', drawn)
    check(drawn['elements'] < 800, 'few elements are drawn', drawn)
    times = sorted(page.js_later(CLICKED, node) for node in (17, 940, 333, 505, 61, 720, 999, 8, 450))
    figure('from a click to its drawing at 1,000 nodes, ms', [round(it, 1) for it in times])
    check(times[4] < CLICK, f'a click is answered and drawn within {CLICK} ms in the middle', times)
    stands(page, 450, 1000)
    stage.picture('thousand')


def fell_behind(stage):
    stage.page.run(1)
    left_behind(stage, panel)


def left_behind(stage, view):
    """The notebook's server stands still while another frontend works, so that the kernel hangs up on it or broadcasts are lost."""
    page, frontend, server, stands, known = stage.page, stage.frontend(), stage.theatre.server.process, view.stands, view.known
    stands(page, 1, 1)
    parent = grow(frontend, 100)
    stands(page, frontend.ask('state')['node'], 101)
    comes('the first 101 nodes are known', lambda: (known(page)['parent'] == parent, known(page)['parent']))
    time.sleep(1)
    server.send_signal(signal.SIGSTOP)
    try:
        parent = grow(frontend, 2900, parent, frontend.ask('state')['node'], 0)
    finally:
        server.send_signal(signal.SIGCONT)
    now = frontend.ask('state')
    stands(page, now['node'], 3001, now['world'], timeout=120)
    said = known(page)['parent']
    wrong = [(n, it, parent[n]) for n, it in enumerate(said) if it not in (-1, parent[n])]
    check(not wrong, 'what the page says of the tree is so, whatever was lost', wrong[:10])
    check(said[:102] == parent[:102], 'what it was sure of it still knows', said[:102])
    figure('nodes, and those that are open behind it', (now['nodes'], said.count(-1) - 1))
    more = grow(frontend, 60, parent, now['node'], 0)
    now = frontend.ask('state')
    stands(page, now['node'], 3061, now['world'])
    comes('and what comes afterwards is known', lambda: (known(page)['parent'][3002:] == more[3002:], known(page)['parent'][3002:]))


def paced(frontend, seconds, rate, out):
    """So many cells a second for so long, or as many as the kernel runs; what came is thrown away."""
    frontend.drain()
    begun, sent, replies = time.time(), 0, 0
    while time.time() - begun < seconds:
        due = min((time.time() - begun) * rate, replies + MOST_OPEN)
        while sent < due:
            frontend.begin('n += 1')
            sent += 1
        replies += frontend.drain()
        time.sleep(.005)
    out.append((sent, time.time() - begun))


def flood(stage):
    page, frontend = stage.page, stage.frontend()
    page.run(1)
    stands(page, 1, 1)
    stillness.piled_up(page, frontend, panel, 'Jupyter.janus.conversation')
    page.js(METER)
    out, clicks, watch = [], [], stillness.Watch(page.driver)
    page.js(stillness.BEGIN)
    thread = threading.Thread(target=paced, args=(frontend, 10, 1000, out), daemon=True)
    thread.start()
    while thread.is_alive():
        begun = time.time()
        page.click('#janus-history')
        clicks.append(time.time() - begun)
        time.sleep(.2)
    thread.join()
    beats = page.js(stillness.END)
    time.sleep(.1)
    watch.end()
    gaps, own = sorted(ended - begun for begun, ended in beats), watch.own(beats)
    figure('cells sent, in seconds', (out[0][0], round(out[0][1], 1)))
    figure('the page\'s beats of 10 ms: median, longest, ms', (round(gaps[len(gaps) // 2], 1), round(gaps[-1], 1)))
    figure('the History button while it went on, median and longest, ms', (round(sorted(clicks)[len(clicks) // 2] * 1000), round(max(clicks) * 1000)))
    longest, total = stillness.metered(page, watch)
    figure('the page\'s own parts: longest in one go, in all, ms', (round(longest, 1), round(total)))
    check(longest < WORK, f'the page\'s own parts never take {WORK} ms in one go', longest)
    figure('the longest without the waits for a processor, ms', [round(it, 1) for it in own[-3:]])
    figure(f'beats that came more than {GOAL} ms late, in all and without such waits', (sum(it > GOAL for it in gaps), sum(it > GOAL for it in own)))
    check(own[-1] < STILL, f'the page never stands still for {STILL} ms', own[-5:], gaps[-5:])
    if not shown(page)['visible']:
        page.click('#janus-history')
    now = frontend.ask('state')         # behind all its cells
    stands(page, now['node'], now['nodes'], now['world'], 'behind the flood the panel stands where the kernel stands', 120)
    figure('nodes, and those that are open since the server held broadcasts back', (now['nodes'], page.js(BRIEF)['unknown']))
    click_node(page, now['node'] - 1)
    stands(page, now['node'] - 1, now['nodes'])


def twenty_thousand(stage):
    page, frontend = stage.page, stage.frontend()
    page.run(1)
    stands(page, 1, 1)
    frontend.run_many('n += 1', 19999)
    now = frontend.ask('state')
    check(now['nodes'] == 20000, 'the kernel has 20,000 nodes', now['nodes'])
    stands(page, 20000, 20000, timeout=180)
    comes('all of them are known', lambda: (page.js(BRIEF)['unknown'] == 0, page.js(BRIEF)), 60)
    drawn = drawing(page, 'a drawing at 20,000 nodes, in the middle, ms')
    check(drawn['scrolled'] < 25, 'a drawing takes less than 25 ms', drawn)
    times = [page.js_later(CLICKED, node) for node in (19990, 19000, 12345, 19999)]
    figure('from a click to its drawing at 20,000 nodes, ms', [round(it, 1) for it in times])
    stands(page, 19999, 20000)
    page.run(page.add('x1 += 1'))
    stands(page, 20001, 20001, what='a cell there is node 20001')
    check(known(page)['parent'][20001] == 19999, 'a branch')
    comes('a state has told that it is so', lambda: (page.js('return Jupyter.janus.history.sure') == 20001, page.js(BRIEF)))
    page.load()                         # at once, before what it knows is kept by its clock
    stands(page, 20001, 20001, what='the page loaded again knows them', timeout=120)
    check(page.js(BRIEF)['unknown'] == 0, 'all of them', page.js(BRIEF))


SCENES = [crowd, thousand, fell_behind, flood, twenty_thousand]
