"""The scenes of jupyter/tests/lab: each is played on a page of its own with a kernel of its own. `stage` has the page, its server and further frontends."""
import re
import time

from selenium.webdriver.common.by import By
from selenium.webdriver.common.keys import Keys

import tutorial
from browser import kill_kernel
from checks import check, comes, figure, wait
from lab_page import (S, add, click_node, edit, go_to, known, marked, marks, message, place, prompts, run, run_example, select, shown, source, stands,
                      words_below)
from lab_server import READY
from panel import BARS, DEAF, LOSE

BUTTONS = ['Undo', 'Redo', 'Backwards', 'Steps', 'History']
FORWARD = ['x1 = 5', 'x2 = 8', 'n = 0']
WORLD = ['x1 = 0', 'x2 = 0', 'n = 4']
ZEROS = ['x1 = 0', 'x2 = 0', 'n = 0']
END_SESSIONS = 'var all = jupyterapp.serviceManager.sessions; Array.from(all.running()).forEach(function (it) { all.shutdown(it.id); })'
ENDLESS = 'int z from z = 0 loop z += 2 z -= 1 until z = 0 - 1'
TOKENS = '''var out = {}; document.querySelectorAll(arguments[0] + ' .cm-line span').forEach(function (it) {
    if (!it.children.length) out[it.textContent] = getComputedStyle(it).color; }); return out'''


def only(*servers):
    """Marks a scene that is for these servers alone."""
    def mark(scene):
        scene.servers = servers
        return scene
    return mark


# ---- the page as it comes
def loads(stage):
    page = stage.page
    check(page.js('return jupyterapp.hasPlugin("janus-history:history") && jupyterapp.isPluginActivated("janus-history:language")'), 'both plugins are active')
    now = shown(page)
    check(now['tools'] == BUTTONS, 'the buttons stand in the toolbar', now['tools'])
    check(now['visible'] and now['where'].startswith('at node 0 of 0'), 'the panel stands at the right side', now)
    check(now['title'] == 'loads.ipynb', 'with the notebook\'s name', now['title'])
    marked(page, ['gone'] * 4, 'saved outputs are marked as from an earlier run')
    figure('version', page.js('return jupyterapp.name + " " + jupyterapp.version'))
    outside = page.js('''return performance.getEntriesByType('resource').map(function (it) { return it.name; })
        .filter(function (it) { return !it.startsWith(location.origin) && !it.startsWith('data:') && !it.startsWith('blob:'); })''')
    check(not outside, 'nothing is fetched from outside', outside)


def colours(stage):
    page = stage.page
    select(page, 1)
    found = page.js(TOKENS, '.jp-Notebook')
    check({'int', 'procedure', 'if', 'call', 'fi'} <= set(found), 'key words are tokens', found)
    check(found.get('procedure') == found.get('if') and found.get('fib') not in (None, found['if']) and found.get('0') not in (None, found['if']),
          'key words, procedures and numbers have colours of their own', found)
    index = add(page, 'x += 99999999999 // if a comment\n$')
    select(page, index)
    comes('a comment is one token', lambda: (any(it.startswith('// if') for it in page.js(TOKENS, '.jp-Notebook')), page.js(TOKENS, '.jp-Notebook')))
    index = add(page, '')
    edit(page, index)
    page.keys('if n = 0 then', Keys.ENTER, 'x1 += 1', Keys.ENTER, 'fi')
    comes('the next line is indented, and fi stands out again', lambda: (source(page, index) == 'if n = 0 then\n    x1 += 1\nfi', source(page, index)))
    page.keys(Keys.CONTROL, '/', Keys.NULL)
    time.sleep(.3)
    check(source(page, index).split('\n')[2] == '// fi', 'Ctrl-/ makes a comment', source(page, index))


def has_tokens(page, css, *words):
    return comes(f'{", ".join(words)} are tokens', lambda: (set(words) <= set(page.js(TOKENS, css)), page.js(TOKENS, css)), 60)


@only('lab')
def files(stage):
    page = stage.page
    stage.write('prog.janus', 'procedure f(int x)\n    x += 1 // one\n')
    stage.write('prog.janus-cells', 'int x\n%%\nx += 5 // one\n%undo 1\n')
    types = page.js('''return ["prog.janus", "prog.janus-cells"].map(function (it) {
        return (jupyterapp.docRegistry.getFileTypesForPath(it)[0] || {}).displayName; })''')
    check(types == ['Janus', 'Janus cells'], 'files of both kinds have a type', types)
    page.command('docmanager:open', path='prog.janus')
    has_tokens(page, '.jp-FileEditor', 'procedure', 'f', '// one')
    page.command('docmanager:open', path='prog.janus-cells')
    has_tokens(page, '.jp-FileEditor', 'int', '%%', '%undo 1', '// one')


# What is shared with the extension lacks a package.
LESS = '''var all = window._JUPYTERLAB = window._JUPYTERLAB || {}, name = 'janus-history';
    Object.defineProperty(all, name, {configurable: true, set: function (it) {
        var init = it.init, less = null;
        it.init = function (shared) {
            less = less || Object.assign({}, shared);
            delete less['@codemirror/view'];
            return init(less);
        };
        Object.defineProperty(all, name, {value: it});
    }})'''
OUTPUT = '''var it = jupyterapp.shell.currentWidget.content.widgets[1]; return it.outputArea.node.textContent'''
IS_IDLE = '''var it = window.jupyterapp && jupyterapp.shell.currentWidget, session = it && it.sessionContext && it.sessionContext.session;
    return !!(session && session.kernel && session.kernel.status === 'idle' && it.content.widgets.length > 1)'''


def missing_package(stage):
    page = stage.page
    page.js('window.onbeforeunload = null')
    added = page.driver.execute_cdp_cmd('Page.addScriptToEvaluateOnNewDocument', {'source': LESS})
    page.console()
    try:
        page.fetch()
        wait('the notebook and its kernel', lambda: page.js(IS_IDLE), 180, .3)
    finally:
        page.driver.execute_cdp_cmd('Page.removeScriptToEvaluateOnNewDocument', added)
    said, line = [it for it in page.console('WARNING', 'SEVERE') if 'janus-history' in it], 'janus-history: JupyterLab shares no @codemirror/view.'
    check(len(said) == 1 and line in said[0], 'one line of the console says which package is missing', said)
    check(page.js('return !jupyterapp.hasPlugin("janus-history:history") && jupyterapp.isPluginActivated("janus-history:language")'),
          'the history is left out, and the language is there')
    check(page.js('return document.querySelectorAll(".janus-tool, #janus-panel").length') == 0, 'nothing of the history is shown')
    page.js('''var nb = jupyterapp.shell.currentWidget.content; nb.activeCellIndex = 1; nb.mode = "command"; nb.activate(); nb.deselectAll();
        nb.widgets[1].model.sharedModel.setSource('int x1 x1 += 41')''')
    time.sleep(.3)
    page.keys(Keys.SHIFT, Keys.ENTER, Keys.NULL)
    comes('the notebook works without it', lambda: ('x1 = 41' in page.js(OUTPUT), page.js(OUTPUT)), 60)
    has_tokens(page, '.jp-Notebook', 'uncall', 'int')
    page.load()
    check(page.js('return jupyterapp.hasPlugin("janus-history:history")'), 'with the package the history is there again')


# ---- what is done with cells
def buttons(stage):
    page = stage.page
    select(page, 1)
    page.keys(Keys.SHIFT, Keys.ENTER, Keys.NULL)
    stands(page, 1, 1, ZEROS, 'Shift-Enter runs a cell, and it is node 1')
    for index in (2, 3, 4):
        run(page, index)
    stands(page, 4, 4, WORLD)
    marked(page, ['+1', '+2', '+3', '+4'], 'the cells bear their nodes')
    page.click('.janus-undo')
    stands(page, 3, 4, FORWARD, 'Undo goes to node 3')
    marked(page, ['+1', '+2', '+3', '-4'], 'the undone cell is marked')
    struck = page.js(S + '''var it = nb.widgets[4].node;
        return [getComputedStyle(it.querySelector('.jp-OutputArea-output')).textDecorationLine, it.querySelector('.janus-sign').textContent]''')
    check(struck == ['line-through', 'undone \u00b7 node 4'], 'its output is struck through, and it says so', struck)
    check(shown(page)['redo'] == [4] and shown(page)['changed'] == ['x1', 'x2', 'n'], 'the way of a redo and the changed values are shown', shown(page))
    check(page.js(BARS) == ['solid'] * 3, 'a bar stands before each, beside the colour', page.js(BARS))
    page.click('.janus-undo')
    stands(page, 2, 4, WORLD)
    page.click('.janus-redo')
    stands(page, 3, 4, FORWARD, 'Redo goes to node 3')
    page.click('.janus-redo')
    stands(page, 4, 4, WORLD)
    marked(page, ['+1', '+2', '+3', '+4'], 'no cell is undone')
    page.click('.janus-redo')
    comes('a redo with nothing to redo is told', lambda: (message(page) == 'There is no cell to redo (refused 73 TooFar). Nothing was done.', message(page)))
    page.click('.janus-history')
    comes('History hides the panel', lambda: not shown(page)['visible'])
    page.click('.janus-redo')
    comes('what is refused is told in a notification then', lambda: 'no cell to redo' in page.js('return document.body.textContent'))
    page.click('.janus-history')
    comes('and shows it', lambda: shown(page)['visible'])


def tree(stage):
    page = stage.page
    run_example(page)
    click_node(page, 2)
    stands(page, 2, 4, WORLD, 'a click on node 2 goes there')
    run(page, add(page, 'x1 += 100'))
    stands(page, 5, 5, ['x1 = 100', 'x2 = 0', 'n = 4'], 'a cell there makes a branch')
    check(known(page)['parent'] == [-1, 0, 1, 2, 3, 2], 'with its parent', known(page))
    click_node(page, 4)
    stands(page, 4, 5, WORLD, 'a click goes from branch to branch')
    marked(page, ['+1', '+2', '+3', '+4', '-5'], 'marks follow')
    click_node(page, 2)
    stands(page, 2, 5)
    check(shown(page)['redo'] == [3, 4], 'the favourite is the way gone last', shown(page)['redo'])
    go_to(page, 5)
    stands(page, 5, 5, what='the number field goes to node 5')
    go_to(page, 77)
    comes('a node that is not there is told', lambda: message(page).startswith('There is no node 77'))
    page.js('document.querySelector("#janus-slider").focus()')
    page.keys(Keys.HOME)
    stands(page, 0, 5, [], 'the slider leads to the start')
    page.keys(Keys.END)
    stands(page, 5, 5, what='and back along the favourites')


def slider_on_branch(stage):
    page = stage.page
    run_example(page)
    click_node(page, 2)
    stands(page, 2, 4, WORLD)
    index = add(page, 'x1 += 100')
    run(page, index)
    stands(page, 5, 5, ['x1 = 100', 'x2 = 0', 'n = 4'])
    comes('behind a new branch the slider goes along it', lambda: (shown(page)['slider'], shown(page)['longest']) == (3, 3))
    page.js('document.querySelector("#janus-slider").focus()')
    page.keys(Keys.ARROW_LEFT)
    stands(page, 2, 5, WORLD)
    page.keys(Keys.ARROW_RIGHT)
    stands(page, 5, 5, ['x1 = 100', 'x2 = 0', 'n = 4'], 'and back down the same branch')
    check(shown(page)['step'] == 'cell 3 of 3: node 5, In [5] x1 += 100', 'and it is said', shown(page)['step'])


def backwards(stage):
    page = stage.page
    run_example(page)
    select(page, 3)
    page.click('.janus-backwards')
    stands(page, 2, 4, WORLD, 'the third cell backwards leads to the node above it')
    wanted = 'Node 3 ran backwards, and before it 1 cell that ran after it, the newest first.'
    comes('and it is said', lambda: (message(page) == wanted, message(page)))
    page.click('.janus-backwards')
    wanted = 'This cell, node 3, is not in effect: there is nothing to run backwards.'
    comes('once more there is nothing to do', lambda: (message(page) == wanted, message(page)))
    select(page, add(page, 'skip'))
    page.click('.janus-backwards')
    comes('nor with a cell that did not run', lambda: (message(page).startswith('This cell is not known to have run'), message(page)))


# ---- keyboard, commands and screen readers
def keyboard(stage):
    page = stage.page
    run_example(page)
    select(page, 2)
    page.keys('u')
    stands(page, 3, 4, FORWARD, 'u in command mode is Undo')
    page.keys(Keys.SHIFT, 'u', Keys.NULL)
    stands(page, 4, 4, WORLD, 'Shift-U is Redo')
    page.keys('t')
    comes('t hides the history', lambda: not shown(page)['visible'])
    page.keys('t')
    comes('and shows it', lambda: shown(page)['visible'])
    select(page, 3)
    page.keys('w')
    stands(page, 2, 4, WORLD, 'w runs the selected cell backwards')
    page.keys('g')
    comes('g goes to the tree', lambda: page.js('return document.activeElement.className') == 'janus-tree')
    page.keys(Keys.ARROW_RIGHT, Keys.ENTER)
    stands(page, 3, 4, FORWARD, 'arrow right and Enter go to the child')
    page.keys('u')
    time.sleep(.5)
    check(known(page)['position'] == 3, 'in the tree u means nothing')
    page.keys(Keys.ESCAPE)
    time.sleep(.3)
    page.keys('u')
    stands(page, 2, 4, WORLD, 'Escape leads back to the notebook')
    edit(page, 2)
    page.keys('uw')
    time.sleep(.5)
    check(known(page)['position'] == 2 and 'uw' in source(page, 2), 'in edit mode they are letters', source(page, 2))


def completion(stage):
    page = stage.page
    run(page, 1)
    index = add(page, 'unc')
    edit(page, index)
    page.keys(Keys.END, Keys.TAB)
    offered = 'return /uncall/.test((document.querySelector(".jp-Completer") || {}).textContent)'
    wait('the list of completions', lambda: source(page, index) == 'uncall' or page.js(offered))
    if source(page, index) == 'unc':
        page.keys(Keys.ENTER)
    comes('Tab completes by the kernel', lambda: (source(page, index) == 'uncall', source(page, index)))


LABELS = ['Undo the Newest Cell', 'Redo the Cell Undone Last', 'Run Selected Cell Backwards', 'Step Through This Cell', 'Show or Hide History',
          'Go to Tree of Histories']
COMMANDS = '''var c = jupyterapp.commands, all = c.keyBindings, ours = all.filter(function (it) { return /^janus:/.test(it.command); });
    var focus = document.activeElement;
    function meets(it) { try { return !!focus.closest(it.selector) || focus.matches(it.selector); } catch (error) { return false; } }
    var keys = ours.map(function (it) { return it.keys.join(" "); });
    return {labels: c.listCommands().filter(function (it) { return /^janus:/.test(it); }).map(function (it) { return c.label(it); }),
    keys: Array.from(new Set(keys)).sort(), clash: all.filter(function (it) { return !/^janus:/.test(it.command) && meets(it) &&
        keys.some(function (k) { return it.keys.join(" ") === k || it.keys[0] === k; }); }).map(function (it) { return it.command + " " + it.keys; })}'''
ENTRIES = 'return Array.from(document.querySelectorAll(".lm-Menu-item:not(.lm-mod-hidden) .lm-Menu-itemLabel")).map(function (it) { return it.textContent; })'

PALETTE = '''return Array.from(document.querySelectorAll(".lm-CommandPalette-header, .lm-CommandPalette-itemLabel")).map(
    function (it) { return it.textContent; })'''


def commands(stage):
    page = stage.page
    run_example(page)
    select(page, 2)
    found = page.js(COMMANDS)
    check(found['labels'] == LABELS, 'the commands have labels', found)
    check(found['keys'] == ['G', 'Shift U', 'T', 'U', 'W'], 'and keys', found)
    check(not found['clash'], 'which mean nothing else in command mode', found['clash'])
    page.show()
    next(it for it in page.driver.find_elements(By.CSS_SELECTOR, '.lm-MenuBar-item') if it.text.strip() == 'Kernel').click()
    comes('they stand in the menu Kernel', lambda: (set(LABELS) <= set(page.js(ENTRIES)), page.js(ENTRIES)))
    page.keys(Keys.ESCAPE)
    page.command('apputils:activate-command-palette')
    comes('and in the command palette', lambda: ({'Janus', *LABELS} <= set(page.js(PALETTE)), page.js(PALETTE)[:20]))
    page.command('janus:undo')
    stands(page, 3, 4, FORWARD, 'a command does what its button does')


def spoken(page):
    """The rows, levels, and roles with names that a screen reader is told."""
    page.show()
    nodes = [it for it in page.driver.execute_cdp_cmd('Accessibility.getFullAXTree', {})['nodes'] if not it.get('ignored')]
    items = [it for it in nodes if it.get('role', {}).get('value') == 'treeitem' and it['name']['value'].startswith('node ')]
    levels = [[p['value']['value'] for p in it['properties'] if p['name'] == 'level'] for it in items]
    roles = {(it['role']['value'], it.get('name', {}).get('value')) for it in nodes if 'role' in it}
    return [it['name']['value'] for it in items], levels, roles


def screen_reader(stage):
    page = stage.page
    run_example(page)
    click_node(page, 3)
    stands(page, 3, 4, FORWARD)
    names, levels, roles = spoken(page)
    wanted = 'node 3 of 4, under 2, the kernel is here, In [3], call fib(x1, x2, n)'
    check(len(names) == 5 and names[3] == wanted, 'rows are tree items in words', names)
    wanted = ['node 2 of 4, under 1, in effect, In [2], n += 4', 'node 4 of 4, under 3, not in effect, In [4], uncall fib(x1, x2, n)']
    check(names[2::2] == wanted, 'with what is in effect', names)
    check(levels == [[1], [2], [3], [4], [5]], 'and their depth', levels)
    wanted = {('tree', 'Tree of histories'), ('slider', 'Step through time'), ('complementary', 'Janus history'), ('log', 'What other frontends did'),
              ('region', 'Values')} | {('button', it) for it in BUTTONS}
    check(wanted <= roles, 'panel, tree, slider, log, values and buttons have roles and names', wanted - roles)
    comes('what changed is said', lambda: page.js('return document.querySelector(".janus-said").textContent') == 'At node 3. Changed: x1 = 5, x2 = 8, n = 0')
    select(page, 2)
    page.keys('g')
    page.keys(Keys.ARROW_UP)
    comes('the row of the keyboard is the active descendant', lambda: page.js(
        'return document.activeElement.getAttribute("aria-activedescendant")') == 'janus-node-2')
    page.js('document.querySelector(".janus-undo").focus()')
    for _ in range(16):                                         # where the toolbar is one stop of the Tab key, arrows go on in it
        if page.js('return document.activeElement.classList.contains("janus-undo")'):
            break
        page.keys(Keys.ARROW_RIGHT)
    page.keys(Keys.ENTER)
    stands(page, 2, 4, WORLD, 'a button can be reached and pressed by keyboard')


# The least contrast of a text with what lies behind it: [contrast, class].
CONTRAST = '''function parts(it) { var n = it.match(/[0-9.]+/g).map(Number); return n.length < 4 ? n.concat([1]) : n; }
    function light(c) { return [.2126, .7152, .0722].reduce(function (sum, w, i) { var v = c[i] / 255;
        return sum + w * (v <= .03928 ? v / 12.92 : Math.pow((v + .055) / 1.055, 2.4)); }, 0); }
    function behind(it) { for (; it; it = it.parentElement) { var c = parts(getComputedStyle(it).backgroundColor); if (c[3] > .9) return c; }
        return [255, 255, 255]; }
    function behind_row(it) { var look = getComputedStyle(it.closest('.node').querySelector('.hit')), c = parts(look.fill);
        return c[3] > .9 ? c : behind(it.closest('.janus-tree')); }
    return Array.from(document.querySelectorAll(arguments[0])).filter(function (it) { return it.textContent.trim() && it.getClientRects().length; })
        .map(function (it) { var look = getComputedStyle(it), svg = it.namespaceURI.indexOf('svg') >= 0, a = light(parts(svg ? look.fill : look.color));
            var b = light(svg ? behind_row(it) : behind(it));
            return [Math.round(100 * (Math.max(a, b) + .05) / (Math.min(a, b) + .05)) / 100, it.className.baseVal || it.className || it.tagName]; })
        .sort(function (a, b) { return a[0] - b[0]; })[0]'''
TEXTS = ', '.join(('#janus-panel b', '.janus-where', '.janus-go label', '.janus-step', '.janus-world-head', '.janus-values th', '.janus-values td',
                   '.janus-message', '.janus-others li', '.janus-words', '.janus-tool', '.janus-sign', '.janus-past', '.janus-limits',
                   '#janus-panel .node .num', '#janus-panel .node .count', '#janus-panel .node .code'))


OUT_OF_SIGHT = '''return arguments[0].split(', ').filter(function (css) {
    return !Array.from(document.querySelectorAll(css)).some(function (it) { return it.textContent.trim() && it.getClientRects().length; }); })'''


def themes(stage):
    page = stage.page
    run_example(page)
    run(page, add(page, 'int a[40]'))
    stage.frontend().run('skip')
    stands(page, 6, 6)
    run(page, add(page, 'x1 += 1 a[39] += 1'))
    page.click('.janus-undo')
    run(page, add(page, 'x1 += x1'))
    go_to(page, 77)
    stands(page, 6, 7)
    page.js(S + 's.conversation.limits.cell(450001); s.changed()')
    comes('a text of each kind is in sight', lambda: (page.js(OUT_OF_SIGHT, TEXTS) == [], page.js(OUT_OF_SIGHT, TEXTS)))
    for theme in ('JupyterLab Dark', 'JupyterLab Light'):
        page.js('return jupyterapp.commands.execute("apputils:change-theme", {theme: arguments[0]}).then(function () { return 1; })', theme)
        comes(f'the theme is {theme}', lambda: page.js('return document.body.dataset.jpThemeName') == theme, 60)
        comes(f'all texts can be read in {theme}', lambda: (page.js(CONTRAST, TEXTS)[0] >= 4.5, page.js(CONTRAST, TEXTS)), 10)
        stage.picture('theme-' + theme.split()[1].lower())


# ---- cells that fail
def refusals(stage):
    page = stage.page
    run(page, 1)
    stands(page, 1, 1)
    index = add(page, 'if n')
    run(page, index)
    wanted = r'Line 1, column 5: .+ \(31 Expected\)\. Nothing has run\.'
    comes('refused 31 is told in words below the cell', lambda: (bool(re.fullmatch(wanted, words_below(page, index) or '')), words_below(page, index)))
    comes('and its place underlined', lambda: (place(page, index) == 'n', place(page, index)))
    output = page.js(S + 'return nb.widgets[arguments[0]].outputArea.node.textContent', index)
    check('refused 31 Expected at 4..4' in output, 'the kernel\'s line stands in the output', output)
    select(page, index)
    page.keys(Keys.ENTER)
    time.sleep(.3)
    page.keys(Keys.CONTROL, Keys.END, Keys.NULL, ' ')
    comes('a change of the text takes both away', lambda: (words_below(page, index) is None and place(page, index) == '', place(page, index)))
    source(page, index, '// \u00e4\U0001f600\nx1 += x1')
    run(page, index)
    comes('a place behind wide characters', lambda: (place(page, index) == 'x1', place(page, index)))
    check((words_below(page, index) or '').startswith('Line 2, column 7: '), 'with line and column', words_below(page, index))
    check(page.js(S + "return nb.widgets[arguments[0]].node.querySelector('.janus-place').offsetLeft", index) > 30, 'it is the second x1')
    source(page, index, 'x1 += 1 / 0')
    run(page, index)
    wanted = r'.*\(57 DivisionByZero\), after 1 step\. What ran was taken back.*'
    comes('a fault is told without a place', lambda: (
        bool(re.fullmatch(wanted, words_below(page, index) or '')) and place(page, index) == '', words_below(page, index)))
    source(page, index, 'x1 += 1')
    run(page, index)
    stands(page, 2, 2)
    check(words_below(page, index) is None and place(page, index) == '', 'a run that ends well leaves nothing of it')


def procedures(stage):
    """A statement after a procedure, on a line of its own."""
    page = stage.page
    run_example(page)
    index = add(page, 'procedure more(int x)\n    x += 1\nx += 2')
    run(page, index)
    wanted = 'Line 3 belongs to the procedure \'more\', which goes on to the next procedure or to the end of the cell, so it did not run by itself. '
    comes('a statement that belongs to a procedure is told', lambda: ((words_below(page, index) or '').startswith(wanted), words_below(page, index)))
    stands(page, 5, 5, WORLD, 'the cell ran')
    check(page.js(S + 'return !!nb.widgets[arguments[0]].node.querySelector(".janus-words.janus-warn")', index), 'as a warning')
    source(page, index, 'procedure more(int x)\n    x += 1\nn += 2')
    comes('until the text is changed', lambda: words_below(page, index) is None)
    run(page, index)
    wanted = '(41 Unknown). Nothing has run. Line 3 belongs to the procedure'
    comes('and beside a refusal', lambda: (wanted in (words_below(page, index) or ''), words_below(page, index)))


def waiting(stage):
    page = stage.page
    run_example(page, 2)
    index = add(page, ENDLESS)
    select(page, index)
    page.command('notebook:run-cell')
    time.sleep(1)
    page.click('.janus-undo')
    comes('an undo behind a cell that runs is told to wait', lambda: ('ends that cell; the undo is then done' in message(page), message(page)))
    page.js(S + 'panel.sessionContext.session.kernel.interrupt()')
    stands(page, 1, 2, what='an interrupt ends the cell, and the undo is done', timeout=120)
    comes('the cell says that it was stopped', lambda: ((words_below(page, index) or '').startswith('Stopped after'), words_below(page, index)))
    marked(page, ['+1', '-2', 'gone', 'gone', ''], 'marks are right behind it')


# ---- values and limits
def past_the_shown(stage):
    """Changes among the numbers that the kernel doesn't show."""
    page = stage.page
    run(page, add(page, 'int a[40] int b[40]'))
    stands(page, 1, 1)
    run(page, add(page, 'a[39] += 1'))
    stands(page, 2, 2)
    rows = '''return Array.from(document.querySelectorAll("#janus-panel tr.janus-may-change")).map(function (it) {
        return it.querySelector("th").textContent + it.querySelector(".janus-past").textContent; })'''
    wanted = ['a[40] may have changed past the 32nd number']
    comes('a name that may have changed past the 32nd number says so', lambda: (page.js(rows) == wanted, page.js(rows)))
    page.click('.janus-undo')
    stands(page, 1, 2)
    comes('the way back too', lambda: (page.js(rows) == wanted, page.js(rows)))
    run(page, add(page, 'b[0] += 1'))
    stands(page, 3, 3)
    comes('what is seen to change is marked as changed', lambda: (shown(page)['changed'] == ['b[40]'] and page.js(rows) == [], shown(page)['changed']))


def near_limits(stage):
    page = stage.page
    run(page, 1)
    stands(page, 1, 1)
    said = 'return document.querySelector(".janus-limits").textContent'
    check(page.js(said) == '', 'nothing is said far from the limits')
    page.js(S + 's.conversation.limits.cell(450001); s.changed()')
    comes('minutes near their limit are told', lambda: (page.js(said).startswith('At least 900,002 of 1,000,000 minutes are used'), page.js(said)))
    page.js(S + 'panel.sessionContext.session.kernel.restart()')
    stands(page, 0, 0, [], timeout=120)
    comes('a new run begins anew', lambda: (page.js(said) == '', page.js(said)))


# ---- Run All
def run_all(stage):
    page = stage.page
    source(page, 2, 'n += n')
    select(page, 1)
    page.command('notebook:run-all-cells')
    wanted = 'Stopped at cell In [2], which failed: 2 cells after it did not run.'
    comes('Run All stops at the cell that fails, and says so', lambda: (message(page) == wanted, message(page)), 60)
    stands(page, 1, 1, ZEROS)
    comes('the cells that did not run have their old prompts', lambda: (prompts(page) == ['1', '2', '3', '4'], prompts(page)))
    marked(page, ['+1', '', 'gone', 'gone'], 'and their old marks')
    source(page, 2, 'n += 4')
    select(page, 2)
    page.command('notebook:run-all-below')
    stands(page, 4, 4, WORLD, 'Run All Below runs all where none fails')
    source(page, 2, ENDLESS)
    select(page, 1)
    click_node(page, 0)
    stands(page, 0, 4)
    page.command('notebook:run-all-cells')
    comes('the others wait behind a cell that runs', lambda: (prompts(page) == ['6', '*', '*', '*'], prompts(page)), 60)
    time.sleep(1.5)                                             # an interrupt before the cell began would interrupt nothing
    page.js(S + 'panel.sessionContext.session.kernel.interrupt()')
    comes('an interrupt stops Run All', lambda: ('2 cells after it did not run' in message(page), message(page)), 120)
    comes('none waits then', lambda: ('*' not in prompts(page), prompts(page)))


def run_all_tagged(stage):
    page = stage.page
    source(page, 4, 'x1 += x1')
    page.js(S + 'nb.widgets[4].model.setMetadata("tags", ["raises-exception"])')
    add(page, 'n += 7')
    add(page, 'n += n', ['other'])
    add(page, 'n += 1')
    select(page, 1)
    page.command('notebook:run-all-cells')
    wanted = 'Stopped at cell In [6], which failed: 1 cell after it did not run.'
    comes('Run All goes on behind a cell that is tagged to fail, and stops at one that is not', lambda: (message(page) == wanted, message(page)), 60)
    stands(page, 4, 4, ['x1 = 5', 'x2 = 8', 'n = 7'])
    marked(page, ['+1', '+2', '+3', '', '+4', '', ''], 'with the marks of those that ran')


# The counts and outputs of all cells, also of those that are not drawn.
RESULTS = S + '''return s.host.cells().map(function (it) {
    var outputs = it.model.outputs.toJSON().map(function (out) { return out.evalue || [].concat(out.data['text/plain']).join(''); });
    return [it.model.executionCount, outputs.join('\\n')]; })'''


def run_tutorial(stage):
    page = stage.page
    stage.write('tutorial.ipynb', tutorial.notebook())
    page.js(END_SESSIONS)
    time.sleep(1)
    page.notebook = 'tutorial.ipynb'
    page.load()
    page.command('notebook:run-all-cells')
    stands(page, tutorial.NODES, tutorial.NODES, what='Run All of the tutorial goes through to its end', timeout=120)
    comes('and stops nowhere', lambda: ([it[0] for it in page.js(RESULTS)] == list(range(1, 22)) and message(page) == '', page.js(RESULTS), message(page)))
    came = [it[1] for it in page.js(RESULTS)]
    check(tutorial.differs(came) == [], 'each cell shows what it has to', tutorial.differs(came))


# ---- several frontends, and kernels that come and go
def second_frontend(stage):
    page = stage.page
    run_example(page)
    other = stage.frontend()
    other.run('x2 += 7')
    stands(page, 5, 5, ['x1 = 0', 'x2 = 7', 'n = 4'], 'a cell of another frontend comes into the tree')
    comes('and is told', lambda: (shown(page)['others'][-1] == 'another frontend ran [5] x2 += 7: node 5', shown(page)['others']))
    other.ask('undo', n=3)
    stands(page, 2, 5, WORLD, 'another frontend undoes three')
    marked(page, ['+1', '+2', '-3', '-4'], 'the cells are marked')
    comes('and it is told', lambda: (shown(page)['others'][-1] == 'another frontend undid 3 cells; the kernel is at node 2', shown(page)['others']))
    page.click('.janus-redo')
    stands(page, 3, 5, FORWARD, 'Redo goes on from there')
    check(other.ask('state')['node'] == 3, 'the other frontend is told the same')
    run(page, add(page, 'skip'))
    stands(page, 6, 6)
    check(known(page)['parent'][6] == 3, 'a cell of the page stands under it')
    comms = [it for it in other.comms() if it != other.comm]
    check(len(comms) == 1, 'the page has one comm', comms)
    page.js(S + 'var it = s.conversation; ' + LOSE)
    other.run('x2 += 1')
    stands(page, 7, 7, ['x1 = 5', 'x2 = 9', 'n = 0'], 'the page asks again if an answer is lost')


def late_join(stage):
    page = stage.page
    page.js('window.onbeforeunload = null')
    other = stage.frontend()
    for code in ('int x', 'x += 1', 'x += 2'):
        other.run(code)
    other.ask('undo', n=1)
    other.run('x += 3')
    stands(page, 4, 4)
    page.js('''window.addEventListener('pagehide', function () { localStorage.clear(); sessionStorage.clear(); })''')
    page.load()
    stands(page, 4, 4, ['x = 4'], 'a page that joins late stands where the kernel does')
    it = known(page)
    check(all(n in (-1, real) for n, real in zip(it['parent'], [-1, 0, 1, 2, 2])), 'nothing wrong is known', it)
    check(it['parent'][1] == 0 and 'marked ?' in shown(page)['note'], 'and what is open is marked', it)


def reload_page(stage):
    page = stage.page
    run_example(page)
    page.click('.janus-undo')
    stands(page, 3, 4, FORWARD)
    page.command('docmanager:save')
    time.sleep(1.5)
    page.load()
    stands(page, 3, 4, FORWARD, 'after a reload the page stands where the kernel does')
    marked(page, ['+1', '+2', '+3', '-4'], 'and the cells bear their nodes')
    check(known(page)['unknown'] == 0 and shown(page)['redo'] == [4], 'the tree is known', known(page))
    page.click('.janus-redo')
    stands(page, 4, 4, WORLD, 'and Redo works')
    other = stage.frontend()
    comms = [it for it in other.comms() if it != other.comm]
    check(len(comms) == 1, 'there is one comm still', comms)


def restart(stage):
    page = stage.page
    run_example(page)
    page.js(S + 'panel.sessionContext.session.kernel.restart()')
    stands(page, 0, 0, [], 'after a restart the kernel stands at node 0', 120)
    marked(page, ['gone'] * 4, 'the cells are from an earlier run')
    run(page, 1)
    stands(page, 1, 1, ZEROS, 'a cell of the new run is node 1')
    marked(page, ['+1', 'gone', 'gone', 'gone'], 'and marked')
    page.click('.janus-undo')
    stands(page, 0, 1, [], 'Undo works')
    marked(page, ['-1', 'gone', 'gone', 'gone'], 'and is marked')
    page.command('notebook:restart-run-all')
    wait('the question', lambda: page.js('return document.querySelectorAll(".jp-Dialog button.jp-mod-accept").length') == 1)
    page.click('.jp-Dialog button.jp-mod-accept')
    stands(page, 4, 4, WORLD, 'Restart and Run All runs all in a new kernel', 120)
    marked(page, ['+1', '+2', '+3', '+4'], 'and all are marked')


def connection(stage):
    """The page's connection to the server is made anew, and the kernel dies."""
    page = stage.page
    run_example(page)
    other = stage.frontend()
    page.js(S + 'panel.sessionContext.session.kernel.reconnect()')
    other.run('x2 += 7')
    stands(page, 5, 5, ['x1 = 0', 'x2 = 7', 'n = 4'], 'behind a new connection the page stands where the kernel does', 60)
    page.click('.janus-undo')
    stands(page, 4, 5, WORLD, 'and Undo works')
    marked(page, ['+1', '+2', '+3', '+4'], 'the marks are as they were')
    check(kill_kernel(stage.connection) == 1, 'the kernel of this page was killed')
    stands(page, 0, 0, [], 'the server starts it anew, and the page stands at node 0', 120)
    marked(page, ['gone'] * 4, 'the cells are from an earlier run')
    run(page, 1)
    stands(page, 1, 1, what='a cell of the new run is node 1')


def ended_kernel(stage):
    """The kernel dies while cells wait for the one that runs, and is shut down for good."""
    page = stage.page
    source(page, 2, ENDLESS)
    select(page, 1)
    page.command('notebook:run-all-cells')
    comes('two cells wait behind one that runs', lambda: (prompts(page) == ['1', '*', '*', '*'], prompts(page)), 60)
    page.js(S + 'var it = s.conversation; ' + LOSE)             # what the new kernel says before the server listens to it
    check(kill_kernel(stage.connection) == 1, 'the kernel of this page was killed')
    stands(page, 0, 0, [], 'the server starts it anew, and the page stands at node 0', 120)
    wanted = 'Stopped because the kernel ended: 2 cells after it did not run.'
    comes('it is said why the others did not run', lambda: (message(page) == wanted, message(page)))
    comes('none waits then', lambda: ('*' not in prompts(page), prompts(page)))
    page.js(S + 'window.kept = panel; kept.sessionContext.shutdown()')
    comes('behind a kernel that was shut down there are no buttons', lambda: page.js('return document.querySelectorAll(".janus-tool").length') == 0, 60)
    check(not page.js('return jupyterapp.commands.isEnabled("janus:undo")'), 'nor its commands')
    page.js('kept.sessionContext.changeKernel({name: "janus"})')
    comes('with a new one they come back', lambda: (shown(page)['tools'] == BUTTONS, shown(page)['tools']), 60)
    wait('the state', lambda: page.js(READY), 60)
    run(page, 1)
    stands(page, 1, 1, ZEROS, 'and serve it')


def second_page(stage):
    page = stage.page
    run_example(page)
    other = stage.other_page()
    stands(other, 4, 4, WORLD, 'a second page of the notebook stands where the kernel does')
    check(known(other)['unknown'] == 0, 'a straight history is known whole', known(other))
    other.click('.janus-undo')
    stands(other, 3, 4, FORWARD, 'Undo in the second page')
    stands(page, 3, 4, FORWARD, 'is seen in the first')
    marked(page, ['+1', '+2', '+3', '-4'], 'and marked there')
    page.click('.janus-redo')
    stands(other, 4, 4, WORLD, 'Redo in the first is seen in the second')
    comms = stage.frontend().comms()
    check(len([it for it in comms if it.startswith('janus-panel-')]) == 1, 'both share one comm', comms)
    page.js(S + 'panel.sessionContext.session.kernel.restart()')
    stands(page, 0, 0, [], 'after a restart the first stands at node 0', 120)
    stands(other, 0, 0, [], 'and so does the second, which nobody told', 60)
    marked(other, ['gone'] * 4, 'its cells are from an earlier run')
    run(page, 1)
    stands(other, 1, 1, ZEROS, 'it hears what the next run does')
    other.js(S + 'var it = s.conversation; ' + DEAF)
    page.js(S + 'panel.sessionContext.session.kernel.restart()')
    stands(page, 0, 0, [], 'after another restart the first stands at node 0', 120)
    stands(other, 0, 0, [], 'and so does the second, which heard nothing of the next run', 60)


def other_kernel(stage):
    page = stage.page
    run(page, 1)
    stands(page, 1, 1)
    page.js(S + 'window.kept = panel; panel.sessionContext.changeKernel({name: "python3"})')
    comes('with a kernel of Python there are no buttons', lambda: (page.js('return document.querySelectorAll(".janus-tool").length') == 0, shown(page)), 60)
    check(page.js('return !janus_history.found() && !kept.node.classList.contains("janus-kernel") && !kept.node.querySelector(".janus-sign")'),
          'and nothing else of Janus')
    check(not page.js('return jupyterapp.commands.isEnabled("janus:undo") || jupyterapp.commands.isVisible("janus:undo")'), 'nor its commands')
    page.js('kept.sessionContext.changeKernel({name: "janus"})')
    comes('with Janus again they come back', lambda: (shown(page)['tools'] == BUTTONS, shown(page)['tools']), 60)
    wait('the state', lambda: page.js(READY), 60)
    marked(page, ['gone'] * 4, 'what ran is from an earlier run')
    run(page, 1)
    stands(page, 1, 1, ZEROS, 'and serve the new kernel')


# ---- several notebooks and consoles in one page
CONSOLE = '''window.kept = panel; jupyterapp.commands.execute('console:create', {path: panel.context.path, preferredLanguage: 'janus', activate: true,
    insertMode: 'split-bottom', kernelPreference: {id: panel.sessionContext.session.kernel.id}})'''
EXECUTE = S + 'panel.console.promptCell.model.sharedModel.setSource(arguments[0]); return panel.console.execute(true).then(function () { return 1; })'


@only('lab')
def console(stage):
    """A console beside the notebook, on the same kernel."""
    page = stage.page
    run_example(page, 2)
    page.js(S + CONSOLE)
    wait('the console', lambda: page.js('return janus_history.sessions.size') == 2, 60)
    time.sleep(1)                                               # on a busy machine the notebook may take the focus back
    page.js('jupyterapp.shell.activateById(Array.from(janus_history.sessions.keys()).find(function (it) { return it !== kept; }).id)')
    in_console = S + 'return !!panel && panel !== kept'         # its title may be the notebook's
    comes('a console of the same kernel has buttons', lambda: (page.js(in_console) and shown(page)['tools'] == BUTTONS * 2, shown(page)), 60)
    stands(page, 2, 2, WORLD, 'and its own panel')
    check(page.js('return Array.from(janus_history.sessions.keys()).length') == 2, 'there are two sessions')
    page.js(EXECUTE, 'x1 += 9')
    stands(page, 3, 3, ['x1 = 9', 'x2 = 0', 'n = 4'], 'a cell of the console is node 3')
    comes('and marked there', lambda: (marks(page)[:1] == ['+3'], marks(page)))
    page.click('.jp-ConsolePanel .janus-undo')
    stands(page, 2, 3, WORLD, 'Undo in the console takes it back')
    page.click('.jp-ConsolePanel .janus-redo')
    stands(page, 3, 3, ['x1 = 9', 'x2 = 0', 'n = 4'], 'and Redo brings it again')
    page.click('.jp-ConsolePanel .janus-history')
    comes('History in the console hides the panel', lambda: not shown(page)['visible'])
    page.click('.jp-ConsolePanel .janus-history')
    comes('and shows it', lambda: shown(page)['visible'])
    page.js(S + 'panel.console.promptCell.model.sharedModel.setSource("uncall fib(x1, x2, n) // back")')
    has_tokens(page, '.jp-CodeConsole', 'uncall', '// back')
    page.js(S + 'panel.console.promptCell.model.sharedModel.setSource("")')
    page.js('jupyterapp.shell.activateById(kept.id)')
    comes('the panel follows to the notebook', lambda: (not page.js(in_console), shown(page)['title']))
    stands(page, 3, 3, ['x1 = 9', 'x2 = 0', 'n = 4'], 'which has heard the console\'s cell')
    page.click('.jp-NotebookPanel .janus-undo')
    stands(page, 2, 3, WORLD, 'Undo in the notebook takes it back')
    comes('the console\'s cell is marked', lambda: page.js('''var s = Array.from(janus_history.sessions.values())[1];
        return s.host.cells()[0].node.classList.contains('janus-undone')'''))


EMPTY = {'cells': [{'cell_type': 'code', 'id': 'one', 'metadata': {}, 'outputs': [], 'execution_count': None, 'source': 'int y y += 3'}],
         'nbformat': 4, 'nbformat_minor': 5, 'metadata': {'kernelspec': {'name': 'janus', 'display_name': 'Janus', 'language': 'janus'}}}


@only('lab')
def two_notebooks(stage):
    page = stage.page
    run_example(page, 2)
    stage.write('second.ipynb', EMPTY)
    page.js(S + 'window.kept = panel; jupyterapp.commands.execute("docmanager:open", {path: "second.ipynb"})')
    comes('the panel follows to a second notebook', lambda: (shown(page)['title'] == 'second.ipynb', shown(page)['title']), 60)
    stands(page, 0, 0, [], 'which has a kernel of its own', 60)
    run(page, 0)
    stands(page, 1, 1, ['y = 3'], 'its cell is node 1')
    page.js('jupyterapp.shell.activateById(kept.id)')
    stands(page, 2, 2, WORLD, 'the first stands where it stood')
    page.js('jupyterapp.commands.execute("janus:undo")')
    stands(page, 1, 2, ZEROS, 'and Undo is for the one that is in use')
    page.js('''var it = Array.from(janus_history.sessions.keys()).find(function (w) { return w !== kept; }); it.context.model.dirty = false; it.dispose()''')
    comes('a closed notebook leaves nothing', lambda: page.js('return janus_history.sessions.size') == 1)


@only('lab')
def one_kernel(stage):
    """Two notebooks on one kernel."""
    page = stage.page
    run_example(page, 2)
    stage.write('beside.ipynb', {**EMPTY, 'cells': [{**EMPTY['cells'][0], 'source': 'x1 += 7'}]})
    page.js(S + '''window.kept = panel;
        jupyterapp.commands.execute("docmanager:open", {path: "beside.ipynb", kernel: {id: panel.sessionContext.session.kernel.id}})''')
    comes('the panel follows to a second notebook', lambda: (shown(page)['title'] == 'beside.ipynb', shown(page)['title']), 60)
    stands(page, 2, 2, WORLD, 'which stands where the kernel does', 60)
    run(page, 0)
    stands(page, 3, 3, ['x1 = 7', 'x2 = 0', 'n = 4'], 'its cell is node 3, and has the names of the first')
    marked(page, ['+3'], 'and is marked')
    page.js('jupyterapp.commands.execute("janus:undo")')
    stands(page, 2, 3, WORLD)
    page.js('jupyterapp.commands.execute("janus:undo")')
    stands(page, 1, 3, ZEROS, 'it undoes a cell of the first')
    page.js('jupyterapp.shell.activateById(kept.id)')
    stands(page, 1, 3, ZEROS, 'which stands there too')
    marked(page, ['+1', '-2', 'gone', 'gone'], 'and marks its cell')
    comms = stage.frontend().comms()
    check(len([it for it in comms if it.startswith('janus-panel-')]) == 1, 'both share one comm', comms)
    page.js('''var it = Array.from(janus_history.sessions.keys()).find(function (w) { return w !== kept; }); it.context.model.dirty = false; it.dispose()''')
    comes('where the second is closed', lambda: page.js('return janus_history.sessions.size') == 1)
    page.click('.janus-redo')
    stands(page, 2, 3, WORLD, 'the first goes on')


def big(stage):
    """A notebook of which most cells are out of sight, in each way that Lab has to leave them out."""
    page = stage.page
    cells = [{'cell_type': 'code', 'id': f'c{i}', 'metadata': {}, 'outputs': [], 'execution_count': None,
              'source': 'x += 1\n' + '// filler\n' * 8 if i else 'int x'} for i in range(120)]
    stage.write('big.ipynb', {**EMPTY, 'cells': cells})
    page.js(END_SESSIONS)
    time.sleep(1)
    page.notebook = 'big.ipynb'
    page.load()
    page.command('notebook:run-all-cells')
    stands(page, 120, 120, ['x = 119'], 'Run All of 120 cells', 180)
    comes('each is marked', lambda: (marks(page) == ['+%d' % (i + 1) for i in range(120)], marks(page)[:10]))
    page.js('janus_history.found().move({op: "goto", n: 60})')
    stands(page, 60, 120, ['x = 59'])
    comes('and those behind node 60 as undone', lambda: marks(page) == [('+%d' if i < 60 else '-%d') % (i + 1) for i in range(120)])
    run(page, add(page, 'x += x'))
    index = page.js(S + 'return nb.widgets.length - 1')
    comes('a refusal far down is shown', lambda: ((words_below(page, index) or '').startswith('Line 1, column 6'), words_below(page, index)))


@only('notebook')
def other_pages(stage):
    """Notebook 7 has a page of its own for each thing."""
    page, server = stage.page, stage.server
    page.driver.get(f'{server.url}/tree')
    active = 'return !!window.jupyterapp && !!window.janus_history && jupyterapp.isPluginActivated("janus-history:history")'
    comes('the page of files has the plugins too', lambda: page.js(active), 60)
    check(page.js('return document.querySelectorAll(".janus-tool, #janus-panel").length') == 0, 'and shows nothing of it')
    stage.write('prog.janus', 'procedure f(int x)\n    x += 1 // one\n')
    page.driver.get(f'{server.url}/edit/prog.janus')
    has_tokens(page, '.jp-FileEditor', 'procedure', 'f', '// one')
    page.driver.get(f'{server.url}/consoles/console-1')
    wait('the console', lambda: page.js('return !!window.janus_history && janus_history.sessions.size > 0'), 60)
    time.sleep(2)
    page.js('Array.from(document.querySelectorAll(".jp-Dialog button.jp-mod-accept")).forEach(function (it) { it.click(); })')
    time.sleep(1)
    page.js('Array.from(janus_history.sessions.values())[0].host.context.changeKernel({name: "janus"})')
    wait('its kernel', lambda: page.js(READY), 90)
    check(shown(page)['tools'] == BUTTONS, 'a console has the buttons', shown(page))
    time.sleep(3)                                               # the console makes its prompt anew as the kernel changes
    page.js(EXECUTE, 'int x x += 9')
    stands(page, 1, 1, ['x = 9'], 'its cell is node 1')
    page.click('.janus-undo')
    stands(page, 0, 1, [], 'Undo takes it back')
    comes('and it is marked', lambda: (marks(page)[:1] == ['-1'], marks(page)))


def pose(stage):
    """The page as the guide shows it: the example with a branch, and a cell that was refused."""
    page = stage.page
    run_example(page)
    click_node(page, 2)
    stands(page, 2, 4)
    run(page, add(page, 'x1 += 100'))
    stands(page, 5, 5)
    index = add(page, 'if n = 4 the x2 += 1 fi n = 4')
    run(page, index)
    comes('the refusal', lambda: bool(words_below(page, index)))
    page.click('.janus-undo')
    stands(page, 2, 5)
    page.click('.janus-redo')
    stands(page, 5, 5)
    page.js(S + '''if (jupyterapp.shell.collapseLeft) jupyterapp.shell.collapseLeft();
        nb.widgets[arguments[0]].node.scrollIntoView({block: "end"}); document.activeElement.blur()''', index)
    time.sleep(1.5)


SCENES = [loads, colours, files, buttons, tree, slider_on_branch, backwards, keyboard, completion, commands, screen_reader, themes, refusals, procedures,
          waiting, past_the_shown, near_limits, run_all, run_all_tagged, run_tutorial, second_frontend, late_join, reload_page, restart, connection,
          ended_kernel, second_page, other_kernel, console, two_notebooks, one_kernel, big, other_pages, missing_package]
