"""What a page of JupyterLab or Notebook 7 knows and shows, and what is done in it."""
import time

from selenium.webdriver.common.keys import Keys

from checks import comes, wait

# The session in use, its panel of the page, and the notebook in it.
S = 'var m = janus_history, s = m.found(), panel = s && s.host.widget, nb = panel && panel.content; '
SHOWN = S + '''function all(css, call) { return Array.from(document.querySelectorAll(css)).map(call); }
    function number(it) { return Number(it.dataset.node); } function text(it) { return it.textContent; }
    function seen(it) { return !!it && it.offsetParent !== null; } var slider = document.querySelector('#janus-slider');
    return {where: all('.janus-where', text)[0], message: all('.janus-message', text)[0], here: all('.node.here', number)[0],
    on: all('.node.on', number), drawn: all('.node', number), redo: all('.node.redo', number), others: all('.janus-others li', text),
    world: all('.janus-values tr', function (it) { return it.querySelector('th').textContent + ' = ' + it.querySelector('td').firstChild.textContent; }),
    changed: all('.janus-changed th', text), step: all('.janus-step', text)[0], slider: slider && Number(slider.value),
    longest: slider && Number(slider.max), visible: seen(document.querySelector('#janus-panel')), tools: all('.janus-tool', text).filter(Boolean),
    title: all('.janus-title', text)[0], note: all('.janus-note', text)[0]}'''
KNOWN = S + '''var h = s && s.history; return h && {known: h.known, position: h.position, nodes: h.nodes, unknown: h.unknown(), parent: h.parent.slice(),
    favourite: h.favourite.slice()}'''
BRIEF = S + 'var h = s && s.history; return h && {known: h.known, position: h.position, nodes: h.nodes, unknown: h.unknown()}'
MARKS = S + '''return s.host.cells().map(function (it) { var e = it.node, sign = e.querySelector('.janus-sign');
    var n = ((sign ? sign.textContent : '').match(/\\d+/) || ['?'])[0]; function has(it) { return e.classList.contains(it); }
    return has('janus-undone') ? '-' + n : has('janus-in') ? '+' + n : has('janus-maybe') ? n + '?' : has('janus-gone') ? 'gone' : ''; })'''
PROMPTS = S + '''return s.host.cells().map(function (it) {
    return it.node.querySelector(".jp-InputPrompt").textContent.replace(/[^0-9*]/g, ""); })'''
PLACE = S + '''return Array.from(nb.widgets[arguments[0]].node.querySelectorAll(".janus-place")).map(function (it) { return it.textContent; }).join("|")'''
ADD = S + '''var it = nb.model.sharedModel; it.insertCell(it.cells.length, {cell_type: "code", source: arguments[0], metadata: arguments[1]});
    return it.cells.length - 1'''
SELECT = S + '''jupyterapp.shell.activateById(panel.id); nb.activeCellIndex = arguments[0]; nb.mode = "command"; nb.activate(); nb.deselectAll();
    var focus = document.activeElement; return focus === nb.node || nb.activeCell.node.contains(focus)'''


def shown(page):
    return page.js(SHOWN)


def known(page):
    return page.js(KNOWN)


def marks(page):
    return page.js(MARKS)


def prompts(page):
    return page.js(PROMPTS)


def message(page):
    return page.js('return document.querySelector(".janus-message").textContent')


def words_below(page, cell):
    return page.js(S + 'var it = nb.widgets[arguments[0]].node.querySelector(".janus-words"); return it && it.textContent', cell)


def place(page, cell):
    return page.js(PLACE, cell)


def stands(page, node, nodes=None, world=None, what=None, timeout=30):
    """A check that the panel comes to stand at a node, of so many, with these values."""
    def ask():
        it, now = page.js(BRIEF), shown(page)
        good = bool(it) and it['known'] and it['position'] == node and now['here'] == node
        return good and nodes in (None, it['nodes']) and world in (None, now['world']), it, now
    of = (f' of {nodes}' if nodes is not None else '') + (f' with {world}' if world is not None else '')
    return comes(what or f'the panel stands at node {node}{of}', ask, timeout)


def marked(page, wanted, what):
    return comes(what, lambda: (marks(page) == wanted, marks(page)))


def select(page, index):
    """Selects a cell in command mode, and waits for the focus there, since JupyterLab 4.4 takes no key of a cell that it has yet to give the focus. A cell behind
    a dialog or out of sight gets none, so after three seconds it is waited for no longer."""
    until = time.time() + 3
    while not page.js(SELECT, index) and time.time() < until:
        time.sleep(.1)
    time.sleep(.2)


def edit(page, index):
    """Selects a cell and begins to edit it, by Enter."""
    select(page, index)
    page.keys(Keys.ENTER)
    wait('edit mode', lambda: page.js(S + 'return nb.mode') == 'edit')
    time.sleep(.3)


def add(page, text, tags=()):
    """The index of a new cell at the end."""
    return page.js(ADD, text, {'tags': list(tags)} if tags else {})


def source(page, cell, text=None):
    it = S + 'var it = nb.widgets[arguments[0]].model.sharedModel; '
    return page.js(it + 'return it.getSource()', cell) if text is None else page.js(it + 'it.setSource(arguments[1])', cell, text)


def run(page, index, timeout=60):
    before = page.js(S + 'return s.conversation.clock')
    select(page, index)
    page.command('notebook:run-cell')
    wait(f'cell {index}', lambda: page.js(S + 'return s.conversation.clock') > before, timeout)
    time.sleep(.15)


def run_example(page, last=4):
    for index in range(1, last + 1):
        run(page, index)
    stands(page, last, last)


def click_node(page, node):
    page.click(f'#janus-panel .node[data-node="{node}"] circle')


def go_to(page, node):
    """By the number field."""
    page.js('document.querySelector(".janus-go input").value = arguments[0]', str(node))
    page.click('.janus-go button')
