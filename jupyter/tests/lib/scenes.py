"""The page's scenes: each is played on a page of its own with a kernel of its own. `stage` has the page, its server and further frontends."""
import time

from selenium.webdriver.common.action_chains import ActionChains
from selenium.webdriver.common.keys import Keys

import tutorial
from browser import kill_kernel
from checks import check, comes, figure, wait
from panel import BARS, LOSE, click_node, known, marks, message, shown, stands, tokens, words_below

ENDLESS = 'int turn from turn = 0 loop turn += 1 until 0'
WORLD = ['x1 = 0', 'x2 = 0', 'n = 4']
FORWARD = ['x1 = 5', 'x2 = 8', 'n = 0']


def run_all(page):
    page.menu('#celllink', '#run_all_cells a')


def run_example(page):
    """The example's four cells, of which the last undoes the third by an uncall."""
    run_all(page)
    for cell in range(1, 5):
        page.answered(cell)
    stands(page, 4, 4, WORLD)


def branch(page):
    """Behind the example's cells a second way down from node 2: node 5."""
    click_node(page, 2)
    stands(page, 2, 4, WORLD)
    cell = page.add('x1 += 100')
    page.run(cell)
    stands(page, 5, 5, ['x1 = 100', 'x2 = 0', 'n = 4'], 'a cell at node 2 is node 5')


# ---- the editor
def highlighting(stage):
    page = stage.page
    comes('the mode is janus', lambda: page.js('return Jupyter.notebook.get_cell(1).code_mirror.getMode().name') == 'janus')
    found = tokens(page, 1)
    words = [it.split(':')[0] for it in found if it.endswith(':keyword')]
    check(words == 'int int int procedure int int int if then else call fi'.split(), 'keywords of the first cell', found)
    check({'fib:def', '0:number', '+=:operator'} <= set(found), 'definition, number and operator', found)
    colours = page.js('''var e = Jupyter.notebook.get_cell(1).element;
        return [e.find("span.cm-keyword").first().css("color"), e.find(".CodeMirror-line").css("color")]''')
    check(colours[0] != colours[1], 'a keyword has a colour of its own', colours)
    cell = page.add('// until the end\nx1 += 1 $')
    wanted = ['// until the end:comment', 'x1:variable', '+=:operator', '1:number', '$:error']
    check(tokens(page, cell) == wanted, 'a comment and a bad character in a new cell', tokens(page, cell))
    every = 'call delocal do else empty fi from if int local loop main nil pop procedure push skip stack then top uncall until'
    page.js('Jupyter.notebook.get_cell(arguments[0]).set_text(arguments[1])', cell, every)
    check(tokens(page, cell) == [it + ':keyword' for it in every.split()], 'all 22 reserved words', tokens(page, cell))
    time.sleep(6)
    check(page.js('return Jupyter.notebook.get_cell(1).code_mirror.getMode().name') == 'janus', 'the mode is still janus after 6 s')


# ---- undo, redo and goto
def buttons(stage):
    page = stage.page
    names = 'return $("#janus-buttons:visible button").map(function () { return $(this).text().trim(); }).get()'
    comes('the five buttons', lambda: (page.js(names) == ['Undo', 'Redo', 'Backwards', 'Steps', 'History'], page.js(names)))
    run_example(page)
    check(known(page)['parent'] == [-1, 0, 1, 2, 3], 'the tree is a chain of four', known(page))
    check(marks(page) == ['+1', '+2', '+3', '+4'], 'cells are marked with their nodes', marks(page))
    check(known(page)['codes'][2] == 'n += 4' and known(page)['counts'][2] == 2, 'node 2 has its text and count')
    second = stage.frontend()
    page.click('#janus-undo')
    stands(page, 3, 4, FORWARD, 'Undo by the button brings the third cell\'s values back')
    check(shown(page)['changed'] == ['x1', 'x2', 'n'], 'the values that changed are marked', shown(page)['changed'])
    check(page.js(BARS) == ['solid'] * 3, 'a bar stands before each, beside the colour', page.js(BARS))
    check(second.ask('state')['world'] == FORWARD, 'the kernel says so to another frontend')
    comes('the undone cell is marked', lambda: marks(page) == ['+1', '+2', '+3', '-4'])
    page.click('#janus-redo')
    stands(page, 4, 4, WORLD, 'Redo by the button')
    comes('the cell is in effect again', lambda: marks(page) == ['+1', '+2', '+3', '+4'])
    page.click('#janus-history')
    check(not shown(page)['visible'], 'History hides the panel')
    page.click('#janus-history')
    check(shown(page)['visible'], 'and shows it')


def clicks(stage):
    page = stage.page
    run_example(page)
    click_node(page, 2)
    stands(page, 2, 4, WORLD, 'a click on node 2 goes there')
    comes('two cells are marked as undone', lambda: marks(page) == ['+1', '+2', '-3', '-4'])
    look = page.js('''var e = Jupyter.notebook.get_cell(4).element;
        return [Number(e.find(".output").css("opacity")), Number(e.find(".input_prompt").css("opacity")),
            e.find(".output").css("text-decoration-line"), e.find(".janus-sign").text()]''')
    check(look == [.45, .55, 'line-through', 'undone · node 4'], 'output and prompt of an undone cell are struck through', look)
    branch(page)
    check(known(page)['parent'] == [-1, 0, 1, 2, 3, 2], 'node 5 stands under node 2: a branch', known(page))
    lane = page.js('return Jupyter.janus.panel.tree.layout.lane')
    check(lane[5] != lane[3] and lane[3] == lane[2], 'the branch is drawn in a lane of its own', lane)
    check(shown(page)['on'] == [0, 1, 2, 5], 'the path is 0, 1, 2, 5', shown(page)['on'])
    comes('and the marks say so', lambda: (marks(page)[:5] == ['+1', '+2', '-3', '-4', '+5'], marks(page)))
    click_node(page, 4)
    stands(page, 4, 5, what='a click goes over to the other branch')
    comes('marks follow', lambda: (marks(page)[:5] == ['+1', '+2', '+3', '+4', '-5'], marks(page)))
    click_node(page, 2)
    stands(page, 2, 5)
    redos = page.js('return [$("#janus-panel .node.redo").map(function () { return this.getAttribute("data-node"); }).get(), $("path.redos").attr("d") !== ""]')
    check(redos == [['3', '4'], True], 'the way of a redo is drawn', redos)


def refused_moves(stage):
    page = stage.page
    run_example(page)
    click_node(page, 0)
    stands(page, 0, 4, [])
    page.click('#janus-undo')
    comes('an undo at the start is refused in words', lambda: message(page) == 'There is no cell to undo (refused 73 TooFar). Nothing was done.')
    check('73' in page.js('return $("#notification_janus:visible").text()'), 'the notification area says so too')
    page.js('$(".janus-go input").val("999")')
    page.click('.janus-go button')
    comes('there is no node 999', lambda: message(page) == 'There is no node 999 (refused 71 NoNode). Nothing was done.')
    stands(page, 0, 4, what='nothing was done')
    page.js('$(".janus-go input").val("4")')
    page.click('.janus-go button')
    stands(page, 4, 4, WORLD, 'the field goes to node 4')
    comes('the refusal is gone', lambda: message(page) == '')


# ---- cells that fail
def refusals(stage):
    page = stage.page
    run_example(page)
    cell = page.add('// größer\nx1 += 1\nif x1 = 1 the x1 += 1 fi x1 = 2')
    page.run(cell)
    place = 'return Jupyter.notebook.get_cell(arguments[0]).element.find(".janus-place").text()'
    comes('the place of a refusal is underlined', lambda: page.js(place, cell) == 'the')
    wanted = 'Line 3, column 11: the test ends here, so \'then\' is needed here, or an operator is missing (31 Expected). Nothing has run.'
    check(words_below(page, cell) == wanted, 'what to do stands below, with line and column', words_below(page, cell))
    page.js('Jupyter.notebook.get_cell(arguments[0]).set_text("x1 += 7 / (n - 4)")', cell)
    check(page.js(place, cell) == '' and words_below(page, cell) == '', 'both are gone once the text is changed')
    page.run(cell)
    wanted = '\'/\' or \'%\' by 0 (57 DivisionByZero), after 1 step. What ran was taken back: everything is as it was before the cell.'
    comes('a fault is told in words', lambda: (words_below(page, cell) == wanted, words_below(page, cell)))
    page.js('Jupyter.notebook.get_cell(arguments[0]).set_text("x1 += zz")', cell)
    page.run(cell)
    comes('an unknown name', lambda: (page.js(place, cell), words_below(page, cell)[:21]) == ('zz', 'Line 1, column 7: no '))
    stands(page, 4, 4, WORLD, 'the cells that failed are no nodes')
    check(marks(page)[-1] == '', 'and have no mark', marks(page))
    page.js('Jupyter.notebook.get_cell(arguments[0]).set_text("skip")', cell)
    page.run(cell)
    stands(page, 5, 5)
    check(words_below(page, cell) == '', 'a cell that runs well has no words below')


def procedures(stage):
    """A statement after a procedure, on a line of its own."""
    page = stage.page
    run_example(page)
    cell = page.add('procedure more(int x)\n    x += 1\nx += 2')
    page.run(cell)
    wanted = ('Line 3 belongs to the procedure \'more\', which goes on to the next procedure or to the end of the cell, so it did not run by itself. '
              'Put it before the procedures, or in a cell of its own.')
    comes('a statement that belongs to a procedure is told', lambda: (words_below(page, cell) == wanted, words_below(page, cell)))
    stands(page, 5, 5, WORLD, 'the cell ran')
    check(page.js('return Jupyter.notebook.get_cell(arguments[0]).element.find(".janus-words").is(".janus-warn")', cell), 'as a warning')
    page.js('Jupyter.notebook.get_cell(arguments[0]).set_text("procedure more(int x)\\n    x += 1\\nn += 2")', cell)
    check(words_below(page, cell) == '', 'until the text is changed')
    page.run(cell)
    wanted = '(41 Unknown). Nothing has run. Line 3 belongs to the procedure'
    comes('and beside a refusal', lambda: (wanted in words_below(page, cell), words_below(page, cell)))


def interrupt(stage):
    page = stage.page
    run_example(page)
    before = known(page)
    cell = page.add(ENDLESS)
    page.start(cell)
    time.sleep(1.5)
    check(page.cells()[cell]['prompt'] == '*', 'the endless cell runs')
    page.interrupt()
    output = page.answered(cell, 200)['output']
    check(output.startswith('interrupted after'), 'the stop button ends it', output)
    stands(page, 4, 4, WORLD, 'the values are as before it')
    comes('and the tree, node for node', lambda: all(known(page)[it] == before[it] for it in ('position', 'nodes', 'parent')))
    check(marks(page)[-1] == '', 'the interrupted cell has no node', marks(page))
    check('What ran was taken back' in words_below(page, cell), 'and is told in words', words_below(page, cell))


def waiting(stage):
    page, second = stage.page, None
    run_example(page)
    second = stage.frontend()
    asked = second.begin(ENDLESS)
    time.sleep(1)
    page.click('#janus-undo')
    comes('an undo behind another frontend\'s endless cell says that it waits, and that it is done behind a stop',
          lambda: ('is waiting for the running cell' in message(page) and 'ends that cell; the undo is then done' in message(page), message(page)))
    page.interrupt()
    second.heard(asked, 'idle', 200)
    stands(page, 3, 4, FORWARD, 'after the stop the undo is done', 120)
    comes('and the message says which cell it took back',
          lambda: (message(page) == 'Undid node 4, In [4] uncall fib(x1, x2, n).', message(page)))


# ---- several frontends
def second_frontend(stage):
    page = stage.page
    run_example(page)
    second = stage.frontend()
    second.run('n += 10')
    stands(page, 5, 5, ['x1 = 0', 'x2 = 0', 'n = 14'], 'a cell of the second frontend is node 5')
    check(known(page)['parent'][5] == 4 and known(page)['codes'][5] == 'n += 10', 'it stands under node 4, with its text', known(page))
    comes('and is told', lambda: shown(page)['others'][-1] == 'another frontend ran [5] n += 10: node 5')
    second.ask('undo', n=3)
    stands(page, 2, 5, WORLD, 'its undo of 3 cells moves the panel')
    comes('and is told', lambda: shown(page)['others'][-1] == 'another frontend undid 3 cells; the kernel is at node 2')
    second.ask('redo', n=1)
    stands(page, 3, 5, FORWARD, 'its redo')
    second.run('x2 += 1', silent=True)
    stands(page, 6, 6, ['x1 = 5', 'x2 = 9', 'n = 0'], 'its silent cell is node 6')
    check(known(page)['parent'][6] == 3, 'the silent cell stands under node 3', known(page))
    second.run('x2 += 1 / 0')
    second.run('nonsense')
    comes('cells that failed are told', lambda: shown(page)['others'][-1] == 'another frontend ran [7] nonsense: refused 31 Expected at 8..8')
    stands(page, 6, 6, what='and are no nodes')
    page.click('#janus-undo')
    stands(page, 3, 6, FORWARD)
    check(not any('undid 1' in it for it in shown(page)['others']), 'this page\'s own moves are not told as another\'s', shown(page)['others'])


def late_join(stage):
    page = stage.page
    run_example(page)
    branch(page)
    click_node(page, 4)
    stands(page, 4, 5)
    second = stage.frontend()
    second.run('skip')
    stands(page, 6, 6)
    late = stage.other_page()
    stands(late, 6, 6, what='a page that joins late stands at node 6 of 6', timeout=120)
    it = known(late)
    check(it['unknown'] == 5 and it['parent'][1] == 0 and 'marked ?' in shown(late)['note'],
          'it knows that 5 of 6 nodes stand above, of which only node 1 for sure, and says so', it)
    check(len(late.js('return $("#janus-panel .node.loose").get()')) == 5, 'these nodes are marked')
    comes('but have their texts', lambda: (all(known(late)[it] == known(page)[it] for it in ('codes', 'counts')), known(late), known(page)))
    late.js('Jupyter.janus.go(4)')
    stands(late, 4, 6, what='it goes to node 4')
    comes('which tells all of the path', lambda: known(late)['parent'][1:5] == [0, 1, 2, 3] and known(late)['unknown'] == 1)
    stands(page, 4, 6, what='the first page follows')
    comes('cells of which it cannot know the node are marked so', lambda: (marks(late)[:1] == ['??'], marks(late)))
    late.js('Jupyter.janus.go(5)')
    stands(late, 5, 6)
    comes('and node 5 tells where it stands', lambda: known(late)['parent'][5] == 2 and known(late)['unknown'] == 0)
    second.run('skip skip +')
    late.js('localStorage.clear(); sessionStorage.clear(); Storage.prototype.setItem = function () {}')
    late.load()
    stands(late, 5, 6, what='it joins anew', timeout=120)
    time.sleep(3)
    check(known(late)['codes'] == [None] * 7, 'and knows no texts where a cell failed', known(late))


def reload_page(stage):
    page = stage.page
    run_example(page)
    branch(page)
    page.js('Jupyter.notebook.save_notebook()')
    time.sleep(3)
    page.load()
    stands(page, 5, 5, ['x1 = 100', 'x2 = 0', 'n = 4'], 'the page loaded again stands at node 5, with its values', 120)
    check(known(page)['parent'] == [-1, 0, 1, 2, 3, 2] and known(page)['unknown'] == 0, 'and knows the tree', known(page))
    comes('and the marks of its cells', lambda: (marks(page)[:5] == ['+1', '+2', '-3', '-4', '+5'], marks(page)))
    second = stage.frontend()
    ours = [it for it in second.comms() if it.startswith('janus-panel-')]
    check(len(ours) == 1, 'two loads of the page hold one comm', ours)
    page.js('clearTimeout(Jupyter.janus.keep_timer); Jupyter.janus.keep_timer = 0')            # so nothing is kept by the page's clock
    page.run(page.add('x1 += 1'))
    comes('a state tells of node 6', lambda: (page.js('return Jupyter.janus.history.sure') == 6, known(page)))
    page.load()
    stands(page, 6, 6, what='the page loaded again at once stands at node 6', timeout=120)
    check(known(page)['parent'] == [-1, 0, 1, 2, 3, 2, 5], 'and knows the node of the last cell', known(page))
    page.click('#janus-undo')
    stands(page, 5, 6)
    second.send('comm_close', {'comm_id': ours[0], 'data': {}})
    time.sleep(.5)
    page.click('#janus-undo')
    comes('a comm that somebody closed is opened anew', lambda: page.js('return Jupyter.janus.conversation.comm') not in (None, ours[0]))
    time.sleep(1)
    if known(page)['position'] == 5:
        page.click('#janus-undo')
    stands(page, 2, 6, what='and Undo works')


def restart(stage):
    page = stage.page
    run_example(page)
    late = stage.other_page()
    stands(late, 4, 4)
    page.restart()
    stands(page, 0, 0, [], 'after a restart the tree is empty', 120)
    stands(late, 0, 0, [], 'the other page, which nobody told, is empty too', 60)
    comes('cells of the earlier run are marked', lambda: (marks(page) == ['gone'] * 4, marks(page)))
    comes('in the other page too', lambda: (marks(late) == ['gone'] * 4, marks(late)))
    page.run(1)
    stands(page, 1, 1, ['x1 = 0', 'x2 = 0', 'n = 0'])
    check(marks(page) == ['+1', 'gone', 'gone', 'gone'], 'the cell that ran again is not', marks(page))
    page.click('#janus-undo')
    stands(page, 0, 1, [], 'undo works after the restart')


def earlier_run(stage):
    page = stage.page
    stands(page, 0, 0, [])
    comes('outputs that the notebook\'s file has are from an earlier run', lambda: (marks(page) == ['gone'] * 4, marks(page)))
    look = page.js('return Jupyter.notebook.get_cell(1).element.find(".janus-sign").text()')
    check(look == 'from an earlier run', 'and it is said', look)
    page.run(1)
    comes('a cell that runs is no more', lambda: (marks(page) == ['+1', 'gone', 'gone', 'gone'], marks(page)))


# ---- Run All
def run_all_stops(stage):
    page = stage.page
    page.js('Jupyter.notebook.get_cell(3).set_text("n += 1 / 0"); Jupyter.notebook.insert_cell_at_index("markdown", 3)')
    page.add('')
    last = page.add('n += 1')
    run_all(page)
    wanted = 'Stopped at cell In [3], which failed: 2 cells after it did not run.'
    comes('Run All stops at the cell that fails', lambda: (message(page) == wanted, message(page)))
    stands(page, 2, 2, WORLD)
    prompts = [it['prompt'] for it in page.cells() if it['type'] == 'code']
    check(prompts[:4] == [1, 2, 3, 4] and prompts[-1] is None, 'cells that did not run have their old prompts', prompts)
    page.js('Jupyter.notebook.get_cell(4).set_text("skip"); Jupyter.notebook.get_cell(5).set_text("x1 += 2")')
    page.select(4)
    page.menu('#celllink', '#run_all_cells_below a')
    page.answered(last)
    stands(page, 5, 5, ['x1 = 2', 'x2 = 0', 'n = 5'], 'Run All Below runs all where none fails')
    page.js('Jupyter.notebook.get_cell(5).set_text("zz += 2")')
    page.select(4)
    page.menu('#celllink', '#run_all_cells_below a')
    comes('Run All Below stops too', lambda: 'which failed: 1 cell after it did not run' in message(page))
    stands(page, 6, 6)


def run_all_goes_on(stage):
    """Behind a cell that is marked as failing."""
    page = stage.page
    page.js('''var it = Jupyter.notebook.get_cell(3); it.set_text("n += 1 / 0"); it.metadata.tags = ["raises-exception"];
        Jupyter.notebook.get_cell(4).set_text("n += 1")''')
    run_all(page)
    stands(page, 3, 3, ['x1 = 0', 'x2 = 0', 'n = 5'], 'Run All goes on after a cell that is to fail')


def run_all_interrupted(stage):
    page = stage.page
    page.js('Jupyter.notebook.get_cell(2).set_text(arguments[0])', ENDLESS)
    run_all(page)
    stands(page, 1, 1, what='the first cell ran')
    comes('the others wait', lambda: [it['prompt'] for it in page.cells()][2:5] == ['*'] * 3)
    page.interrupt()
    comes('an interrupt stops Run All', lambda: '2 cells after it did not run' in message(page), 120)
    stands(page, 1, 1, ['x1 = 0', 'x2 = 0', 'n = 0'])
    page.restart()
    stands(page, 0, 0, [], timeout=120)
    page.js('Jupyter.notebook.get_cell(2).set_text("n += 4")')
    run_all(page)
    stands(page, 4, 4, WORLD, 'Run All works after it')


def ended_kernel(stage):
    """The kernel dies while cells wait for the one that runs."""
    page = stage.page
    page.js('Jupyter.notebook.get_cell(2).set_text(arguments[0])', ENDLESS)
    run_all(page)
    stands(page, 1, 1, what='the first cell ran')
    comes('the others wait', lambda: [it['prompt'] for it in page.cells()][2:5] == ['*'] * 3)
    page.js('var it = Jupyter.janus.conversation; ' + LOSE)     # what the new kernel says before the server listens to it
    check(kill_kernel(stage.connection) == 1, 'the kernel of this page was killed')
    stands(page, 0, 0, [], 'the server starts it anew, and the page stands at node 0', 120)
    wanted = 'Stopped because the kernel ended: 2 cells after it did not run.'
    comes('it is said why the others did not run', lambda: (message(page) == wanted, message(page)))
    comes('none waits then', lambda: '*' not in [it['prompt'] for it in page.cells()][3:5])
    page.js('$(".modal").modal("hide")')
    page.run(1)
    stands(page, 1, 1, what='a cell of the new run is node 1')


def run_tutorial(stage):
    page = stage.page
    stage.write('tutorial.ipynb', tutorial.notebook())
    page.js('Jupyter.notebook.set_dirty(false); Jupyter.notebook.session.delete()')
    time.sleep(1)
    page.notebook = 'tutorial.ipynb'
    page.load()
    run_all(page)
    stands(page, tutorial.NODES, tutorial.NODES, what='Run All of the tutorial goes through to its end', timeout=120)
    code = [it for it in page.cells() if it['type'] == 'code']
    check([it['prompt'] for it in code] == list(range(1, 22)) and message(page) == '', 'and stops nowhere', message(page))
    shown = [it['output'] for it in code]
    check(tutorial.differs(shown) == [], 'each cell shows what it has to', tutorial.differs(shown))


# ---- keyboard and screen reader
def keyboard(stage):
    page = stage.page
    run_example(page)
    page.select(1)
    page.keys('u')
    stands(page, 3, 4, FORWARD, 'u in command mode is Undo')
    page.keys(Keys.SHIFT, 'u', Keys.NULL)
    stands(page, 4, 4, WORLD, 'shift-u is Redo')
    page.keys('t')
    check(not shown(page)['visible'], 't hides the history')
    page.keys('t')
    check(shown(page)['visible'], 'and shows it')
    page.keys('g')
    check(page.js('return document.activeElement.className') == 'janus-tree', 'g goes to the tree')
    cursor = 'return Jupyter.janus.panel.tree.cursor'
    page.keys(Keys.ARROW_UP, Keys.ARROW_LEFT)
    check(page.js(cursor) == 2, 'arrow up and left lead to node 2', page.js(cursor))
    page.keys('u')
    check(page.js('return document.activeElement.getAttribute("aria-activedescendant")') == 'janus-node-2', 'it is the active descendant')
    page.keys(Keys.ENTER)
    stands(page, 2, 4, WORLD, 'Enter goes there, and keys of the notebook mean nothing in the tree')
    page.keys(Keys.ARROW_RIGHT, Keys.ENTER)
    stands(page, 3, 4, FORWARD, 'arrow right leads down the way of a redo')
    page.keys(Keys.HOME, Keys.ENTER)
    stands(page, 0, 4, [], 'Home leads to the start')
    page.keys(Keys.END, Keys.ENTER)
    stands(page, 4, 4, WORLD, 'End to the newest node')
    page.keys(Keys.ESCAPE)
    page.keys('u')
    stands(page, 3, 4, FORWARD, 'Escape leads back to the notebook')
    page.select(1)
    page.keys(Keys.ENTER, 'u')
    time.sleep(.5)
    check(known(page)['position'] == 3 and page.cells()[1]['text'].startswith('uint'), 'in edit mode u is a letter', page.cells()[1]['text'])


def screen_reader(stage):
    page = stage.page
    run_example(page)
    click_node(page, 3)
    stands(page, 3, 4, FORWARD)
    page.show()
    tree = page.driver.execute_cdp_cmd('Accessibility.getFullAXTree', {})['nodes']
    items = [it for it in tree if not it.get('ignored') and it.get('role', {}).get('value') == 'treeitem']
    names = [it['name']['value'] for it in items]
    wanted = 'node 3 of 4, under 2, the kernel is here, In [3], call fib(x1, x2, n)'
    check(len(names) == 5 and names[3] == wanted, 'rows are tree items in words', names)
    wanted = ['node 2 of 4, under 1, in effect, In [2], n += 4', 'node 4 of 4, under 3, not in effect, In [4], uncall fib(x1, x2, n)']
    check(names[2::2] == wanted, 'with what is in effect', names)
    levels = [[p['value']['value'] for p in it['properties'] if p['name'] == 'level'] for it in items]
    check(levels == [[1], [2], [3], [4], [5]], 'and their depth', levels)
    roles = {(it['role']['value'], it.get('name', {}).get('value')) for it in tree if not it.get('ignored')}
    wanted = {('tree', 'Tree of histories'), ('slider', 'Step through time'), ('complementary', 'Janus history'), ('log', 'What other frontends did'),
              ('region', 'Values')}
    check(wanted <= roles, 'panel, tree, slider, log and values have roles and names', wanted - roles)
    comes('what changed is said', lambda: page.js('return $(".janus-said").text()') == 'At node 3. Changed: x1 = 5, x2 = 8, n = 0')
    look = page.js('return [$(".janus-said").attr("aria-live"), $(".janus-message").attr("aria-live"), $("#janus-undo").attr("aria-label")]')
    check(look == ['polite', 'polite', 'Undo'], 'in live regions', look)


# ---- time
def slider(stage):
    page = stage.page
    run_example(page)
    stands(page, 4, 4)
    now = shown(page)
    check((now['slider'], now['longest']) == (4, 4), 'the slider stands at the path\'s end', now)
    page.js('''window.seen = []; var v = Jupyter.janus.panel.values, old = v.show;
        v.show = function (world, node) { window.seen.push([node, world.join(' ')]); return old.call(v, world, node); }; $("#janus-slider").focus()''')
    page.keys(Keys.ARROW_LEFT)
    stands(page, 3, 4, FORWARD, 'a step to the left goes to node 3')
    check(shown(page)['step'] == 'cell 3 of 4: node 3, In [3] call fib(x1, x2, n)', 'and it is said', shown(page)['step'])
    page.keys(Keys.ARROW_RIGHT)
    stands(page, 4, 4, WORLD, 'a step to the right goes on again')
    page.js('window.seen = []')
    page.keys(Keys.HOME)
    stands(page, 0, 4, [], 'the slider at its begin leads to the start')
    seen = [it[0] for it in page.js('return window.seen')]
    check(seen == [3, 2, 1, 0], 'through each node on the way, with its values', page.js('return window.seen'))
    box = page.find('#janus-slider')
    ActionChains(page.driver).move_to_element_with_offset(box, -box.size['width'] // 2 + 10, 0).click_and_hold() \
        .move_by_offset(box.size['width'] // 2 - 10, 0).move_by_offset(2, 0).release().perform()
    stands(page, 2, 4, WORLD, 'the mouse draws it to the middle')
    now = shown(page)
    check((now['slider'], now['longest']) == (2, 4), 'it stands there, and leads on as far as redos do', now)
    click_node(page, 4)
    stands(page, 4, 4, WORLD)
    comes('it follows a click in the tree', lambda: shown(page)['slider'] == 4)


def slider_on_branch(stage):
    page = stage.page
    run_example(page)
    branch(page)
    comes('behind a new branch the slider goes along it', lambda: (shown(page)['slider'], shown(page)['longest']) == (3, 3))
    page.js('$("#janus-slider").focus()')
    page.keys(Keys.ARROW_LEFT)
    stands(page, 2, 5, WORLD)
    page.keys(Keys.ARROW_RIGHT)
    stands(page, 5, 5, ['x1 = 100', 'x2 = 0', 'n = 4'], 'and back down the same branch')
    cell = page.add('x1 += 1')
    for _ in range(40):
        page.run(cell)
    stands(page, 45, 45)
    page.js('$("#janus-slider").focus()')
    page.keys(Keys.HOME)
    stands(page, 0, 45, [], 'a long way is gone in strides')


def past_the_shown(stage):
    """Changes among the numbers that the kernel doesn't show."""
    page = stage.page
    page.run(page.add('int a[40] int b[40]'))
    stands(page, 1, 1)
    page.run(page.add('a[39] += 1'))
    stands(page, 2, 2)
    rows = 'return $("#janus-panel tr.janus-may-change").map(function () { return $(this).find("th, .janus-past").text(); }).get()'
    wanted = ['a[40] may have changed past the 32nd number']
    comes('a name that may have changed past the 32nd number says so', lambda: (page.js(rows) == wanted, page.js(rows)))
    check(page.js('return $(".janus-said").text()') == 'At node 2. Changed: ' + wanted[0], 'and to a screen reader', page.js('return $(".janus-said").text()'))
    page.click('#janus-undo')
    stands(page, 1, 2)
    comes('the way back too', lambda: (page.js(rows) == wanted, page.js(rows)))
    page.run(page.add('b[0] += 1'))
    stands(page, 3, 3)
    comes('what is seen to change is marked as changed', lambda: (shown(page)['changed'] == ['b[40]'] and page.js(rows) == [], shown(page)['changed']))


def near_limits(stage):
    page = stage.page
    page.run(1)
    stands(page, 1, 1)
    said = 'return $(".janus-limits").text()'
    check(page.js(said) == '', 'nothing is said far from the limits')
    page.js('Jupyter.janus.conversation.limits.cell(450001); Jupyter.janus.changed()')
    comes('minutes near their limit are told', lambda: (page.js(said).startswith('At least 900,002 of 1,000,000 minutes are used'), page.js(said)))
    check('900,002' in page.js('return $("#notification_janus:visible").text()'), 'the notification area says so too')
    page.restart()
    stands(page, 0, 0, [], timeout=120)
    comes('a new run begins anew', lambda: (page.js(said) == '', page.js(said)))


def backwards(stage):
    page = stage.page
    run_example(page)
    page.select(3)
    page.click('#janus-backwards')
    stands(page, 2, 4, WORLD, 'the third cell backwards leads to the node above it')
    wanted = 'Node 3 ran backwards, and before it 1 cell that ran after it, the newest first.'
    comes('and it is said', lambda: (message(page) == wanted, message(page)))
    page.select(3)
    page.click('#janus-backwards')
    comes('a cell that is not in effect', lambda: message(page) == 'This cell, node 3, is not in effect: there is nothing to run backwards.')
    stands(page, 2, 4)
    cell = page.add('skip')
    page.select(cell)
    page.keys('w')
    comes('a cell that did not run, by the key w', lambda: message(page).startswith('This cell is not known to have run'))
    page.select(2)
    page.keys('w')
    stands(page, 1, 4, ['x1 = 0', 'x2 = 0', 'n = 0'], 'the newest cell on the path')
    comes('is told alone', lambda: message(page) == 'Node 2 ran backwards.')


# ---- other kernels, errors
def other_language(stage):
    page = stage.page
    keys = 'var s = Jupyter.keyboard_manager.command_shortcuts; return ["u", "shift-u", "t", "g", "w"].map(function (it) { return !!s.get_shortcut(it); })'
    check(page.js(keys) == [True] * 5, 'the keys are bound for Janus', page.js(keys))
    stage.open_python()
    time.sleep(2)
    check(not page.js('return $("#janus-panel").is(":visible") || $("#janus-buttons").is(":visible")'), 'a Python notebook shows nothing of it')
    page.js('Jupyter.notebook.kernel_selector.set_kernel("janus")')
    wait('Janus in the same page', lambda: page.js('return $("body").hasClass("janus-kernel")'), 60)
    page.ready()
    stands(page, 0, 0, [], 'the same page with a kernel of Janus')
    check(page.js(keys) == [True] * 5, 'the keys are bound')
    page.js('Jupyter.notebook.kernel_selector.set_kernel("python3")')
    wait('Python again', lambda: page.js('return !$("body").hasClass("janus-kernel")'), 60)
    check(page.js(keys) == [False] * 5, 'and mean nothing of Janus with Python', page.js(keys))


def no_errors(stage):
    page = stage.page
    run_example(page)
    errors = [it for it in page.errors() if 'kernelspecs/janus' in it or 'janus' in it and 'codemirror/mode' not in it]
    check(not errors, 'the browser\'s console has no error of the page\'s parts', errors)


SCENES = [highlighting, buttons, clicks, refused_moves, refusals, procedures, interrupt, waiting, second_frontend, late_join, reload_page, restart,
          earlier_run, run_all_stops, run_all_goes_on, run_all_interrupted, ended_kernel, run_tutorial, keyboard, screen_reader, slider, slider_on_branch,
          past_the_shown, near_limits, backwards, no_errors]
LAST = [other_language]         # behind it a server may take a minute to end the kernel of Python
