"""Scenes with many nodes and many messages in JupyterLab and Notebook 7, with the extension's speed."""
import threading
import time

import lab_page
import stillness
from checks import check, comes, figure
from crowds import crowded, grow, left_behind, paced
from lab_page import BRIEF, S, known, run, shown, stands

CLICK = 50              # ms, from a click to the drawing of what it brought, at 1,000 nodes
DRAW = 4                # ms, the median of a drawing while the tree is scrolled
FAR = 25                # ms, the median of a drawing where 10,000 nodes are jumped through
WORK = 50               # ms, the longest that the extension may take in one go
SHARE = .2              # of the time, at most, while cells flood it; JupyterLab itself may need all of it
STILL, GOAL = 100, 50   # ms, the longest that the page may not look at anything, with what JupyterLab itself does, and what is aimed at
# From a click to the drawing of what it brought, by the page's own clock.
CLICKED = '''var node = arguments[0], done = arguments[1], page = janus_history.found(), tree = page.panel.tree, old = tree.draw, begun;
    tree.move_cursor(node);
    tree.draw = function () { old.call(tree); if (begun === undefined || page.history.position !== node) return;
        tree.draw = old; done(performance.now() - begun); };
    setTimeout(function () { var row = document.querySelector('#janus-node-' + node + ' circle'); begun = performance.now();
        var at = row.getBoundingClientRect(); row.dispatchEvent(new MouseEvent('click', {bubbles: true, clientX: at.left + 3, clientY: at.top + 3})); }, 300)'''
# Drawings while the tree is scrolled by what a wheel's notch is, and where it jumps elsewhere.
DRAWN = '''var t = janus_history.found().panel.tree, most = t.box.scrollHeight - t.box.clientHeight;
    function middle(it) { it.sort(function (a, b) { return a - b; }); return it[it.length >> 1]; }
    function draw(place) { return function (i) { t.box.scrollTop = place(i); t.scrolled(); return t.stats.last; }; }
    var many = Array.from(Array(80).keys()), scrolled = many.map(draw(function (i) { return most / 3 + i * 120; }));
    var jumped = many.map(draw(function (i) { return most * ((i * 37) % 80) / 80; }));
    return {scrolled: middle(scrolled), jumped: middle(jumped), most: Math.max.apply(null, scrolled.concat(jumped)),
        elements: t.svg.getElementsByTagName("*").length, lanes: t.layout.lines.length}'''
# A meter on what the extension takes in one go, which is called once.
METER = S + stillness.METER + '''
    meter(s.conversation, 'hear'); meter(s.conversation, 'release_all'); meter(s, 'update'); meter(s, 'keep'); meter(s.panel.tree, 'place')'''


def crowd(stage):
    run(stage.page, 1)
    crowded(stage, lab_page)


def fell_behind(stage):
    run(stage.page, 1)
    left_behind(stage, lab_page)


def drawing(page, what):
    drawn = page.js(DRAWN)
    figure(what, {it: round(drawn[it], 2) for it in drawn})
    return drawn


def thousand(stage):
    page, frontend = stage.page, stage.frontend()
    run(page, 1)
    stands(page, 1, 1)
    begun, parent = time.time(), grow(frontend, 999)
    now = frontend.ask('state')
    comes('1,000 nodes are in the tree', lambda: (page.js(BRIEF)['nodes'] == 1000 and page.js(BRIEF)['unknown'] == 0, page.js(BRIEF)), 120)
    figure('seconds in which they were made', round(time.time() - begun, 1))
    stands(page, now['node'], 1000, now['world'])
    check(known(page)['parent'] == parent, 'each under the node under which it ran')
    drawn = drawing(page, 'a drawing at 1,000 nodes, in the middle, ms')
    check(drawn['scrolled'] < DRAW, f'a drawing while scrolling takes less than {DRAW} ms in the middle', drawn)
    check(drawn['elements'] < 800, 'few elements are drawn', drawn)
    times = sorted(page.js_later(CLICKED, node) for node in (17, 940, 333, 505, 61, 720, 999, 8, 450))
    figure('from a click to its drawing at 1,000 nodes, ms', [round(it, 1) for it in times])
    check(times[4] < CLICK, f'a click is answered and drawn within {CLICK} ms in the middle', times)


def ten_thousand(stage):
    page, frontend = stage.page, stage.frontend()
    run(page, 1)
    stands(page, 1, 1)
    page.js('window.onbeforeunload = null')
    page.driver.get('about:blank')      # the server passes on some hundreds of broadcasts a second, and these are 50,000
    frontend.run_many('n += 1', 9999)
    check(frontend.ask('state')['nodes'] == 10000, 'the kernel has 10,000 nodes')
    page.load()
    stands(page, 10000, 10000, timeout=180)
    check(page.js(BRIEF)['unknown'] == 0, 'a page that comes then knows all of them', page.js(BRIEF))
    drawn = drawing(page, 'a drawing at 10,000 nodes, in the middle, ms')
    check(drawn['scrolled'] < DRAW, f'a drawing while scrolling takes less than {DRAW} ms in the middle', drawn)
    check(drawn['jumped'] < FAR, f'and one elsewhere in the tree less than {FAR} ms', drawn)
    times = [page.js_later(CLICKED, node) for node in (9990, 9000, 6543, 9999)]
    figure('from a click to its drawing at 10,000 nodes, ms', [round(it, 1) for it in times])
    stands(page, 9999, 10000)


def beats(page, frontend, seconds):
    """The gaps between the page's beats under 1,000 cells a second, rising, the same without the machine's doing, and what the extension took."""
    out, watch = [], stillness.Watch(page.driver)
    page.js(stillness.BEGIN)
    thread = threading.Thread(target=paced, args=(frontend, seconds, 1000, out), daemon=True)
    thread.start()
    thread.join()
    came = page.js(stillness.END)
    time.sleep(.1)
    watch.end()
    figure('cells sent, in seconds', (out[0][0], round(out[0][1], 1)))
    return sorted(ended - begun for begun, ended in came), watch.own(came), *stillness.metered(page, watch)


def flood(stage):
    page, frontend = stage.page, stage.frontend()
    run(page, 1)
    stands(page, 1, 1)
    stillness.piled_up(page, frontend, lab_page, 'janus_history.found().conversation')
    page.js(METER)
    gaps, own, longest, total = beats(page, frontend, 5)
    figure('the page\'s beats of 10 ms: median, longest, ms', (round(gaps[len(gaps) // 2], 1), [round(it, 1) for it in gaps[-3:]]))
    figure('the extension: longest in one go, in all, ms', (round(longest, 1), round(total)))
    figure('the longest without the waits for a processor, ms', [round(it, 1) for it in own[-3:]])
    figure(f'beats that came more than {GOAL} ms late, in all and without such waits', (sum(it > GOAL for it in gaps), sum(it > GOAL for it in own)))
    check(own[-1] < STILL, f'the page never stands still for {STILL} ms', own[-5:], gaps[-5:])
    check(longest < WORK, f'the extension never takes {WORK} ms in one go', longest)
    check(total < SHARE * sum(gaps), 'nor a fifth of the time in all', total, sum(gaps))
    now = frontend.ask('state')         # behind all its cells
    stands(page, now['node'], now['nodes'], now['world'], 'behind the flood the panel stands where the kernel stands', 300)
    figure('nodes, and those that are open since the server held broadcasts back', (now['nodes'], page.js(BRIEF)['unknown']))
    check(shown(page)['visible'], 'and is in sight')


SCENES = [crowd, thousand, ten_thousand, fell_behind, flood]
