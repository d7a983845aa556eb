"""What the page's panel knows and shows, and checks on it."""
from checks import comes

KNOWN = '''var h = Jupyter.janus && Jupyter.janus.history; return h && {known: h.known, position: h.position, nodes: h.nodes, redo: h.redo,
    parent: h.parent.slice(), unknown: h.unknown(), codes: h.label.map(function (it) { return it && it.code; }),
    counts: h.label.map(function (it) { return it && it.count; })}'''
BRIEF = '''var h = Jupyter.janus && Jupyter.janus.history; return h && {known: h.known, position: h.position, nodes: h.nodes, unknown: h.unknown()}'''
SHOWN = '''function numbers(css) { return $(css).map(function () { return Number(this.getAttribute('data-node')); }).get(); }
    return {where: $('.janus-where').text(), message: $('.janus-message').text(), note: $('.janus-note').is(':visible') ? $('.janus-note').text() : '',
    world: $('.janus-values tr').map(function () { return $(this).find('th').text() + ' = ' + $(this).find('td').contents().first().text(); }).get(),
    changed: $('.janus-values tr.janus-changed th').map(function () { return $(this).text(); }).get(),
    here: numbers('#janus-panel .node.here')[0], on: numbers('#janus-panel .node.on'), drawn: numbers('#janus-panel .node'),
    others: $('.janus-others li').map(function () { return $(this).text(); }).get(), step: $('.janus-step').text(),
    slider: Number($('#janus-slider').val()), longest: Number($('#janus-slider').attr('max')), visible: $('#janus-panel').is(':visible')}'''
BARS = '''return Array.from(document.querySelectorAll('.janus-changed th')).map(function (it) { return getComputedStyle(it).borderLeftStyle; })'''
MARKS = '''return Jupyter.notebook.get_cells().filter(function (it) { return it.cell_type === 'code'; }).map(function (it) {
    var e = it.element, n = (e.find('.janus-sign').text().match(/\\d+/) || ['?'])[0];
    return e.hasClass('janus-undone') ? '-' + n : e.hasClass('janus-in') ? '+' + n : e.hasClass('janus-maybe') ? n + '?' :
        e.hasClass('janus-gone') ? 'gone' : ''; })'''
# Behind `var it = the conversation;`: nothing is heard of the next state that the page asks for.
LOSE = '''var hear = it.hear, lost = null; it.hear = function (message, type) { var of = (message.parent_header || {}).msg_id;
    if (lost === null && it.asked && of === it.asked.id) lost = of;
    return of === lost || hear.call(it, message, type); }'''
# The same: of another run only what this page asks for is heard.
DEAF = '''var hear = it.hear; it.hear = function (message, type) {
    var is_other = message.header.session !== it.run && (message.parent_header || {}).session !== it.kernel.session_id;
    return !is_other && hear.call(it, message, type); }'''
TOKENS = '''var cm = Jupyter.notebook.get_cell(arguments[0]).code_mirror, out = []; cm.eachLine(function (l) {
    cm.getLineTokens(cm.getLineNumber(l), true).forEach(function (t) { if (t.type) out.push(t.string + ':' + t.type); }); }); return out'''


def known(page):
    return page.js(KNOWN)


def shown(page):
    return page.js(SHOWN)


def marks(page):
    return page.js(MARKS)


def tokens(page, cell):
    return page.js(TOKENS, cell)


def message(page):
    return page.js('return $(".janus-message").text()')


def stands(page, node, nodes=None, world=None, what=None, timeout=20):
    """A check that the panel comes to stand at a node, of so many, with these values."""
    def ask():
        it, now = page.js(BRIEF), shown(page)
        good = bool(it) and it['known'] and it['position'] == node and now['here'] == node
        return good and nodes in (None, it['nodes']) and world in (None, now['world']), it, now
    of = (f' of {nodes}' if nodes is not None else '') + (f' with {world}' if world is not None else '')
    return comes(what or f'the panel stands at node {node}{of}', ask, timeout)


def click_node(page, node):
    page.click(f'#janus-panel .node[data-node="{node}"] circle')


def words_below(page, cell):
    return page.js('return Jupyter.notebook.get_cell(arguments[0]).element.find(".janus-words").text()', cell)
