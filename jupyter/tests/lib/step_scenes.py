"""The scenes of 'Step Through This Cell', in the classic notebook and in JupyterLab."""
import os

from checks import check, comes

MADE = '//| Made by the command Step Through This Cell\n'
SAID = 'Wrote steps-of-{0}.janus-cells, with {1} before this one. In a terminal, in the folder of the notebook: janus-steps-screen steps-of-{0}.janus-cells'


def wrote(folder, name):
    path = f'{folder}/steps-of-{name}.janus-cells'
    if not os.path.exists(path):
        return None
    with open(path, encoding='utf-8') as file:
        return file.read()


def steps(name, page, folder, act):
    """`act` has `example`, which runs the example's cells, `text`, the text of a cell, `add`, `run`, `ask`, which asks for the command at a cell, and
    `message`."""
    act.example()
    texts = [act.text(it) for it in range(1, 5)]
    act.ask(3)
    wanted = MADE + '\n%%\n'.join(texts[:3]) + '\n'
    comes('a cell in effect is written with those before it', lambda: (wrote(folder, name) == wanted, wrote(folder, name)))
    comes('and it is said how to start', lambda: (act.message() == SAID.format(name, '2 cells'), act.message()))
    cell = act.add('x1 += 1 / 0')
    act.run(cell)
    act.ask(cell)
    wanted = MADE + '\n%%\n'.join([*texts, 'x1 += 1 / 0']) + '\n'
    comes('a cell that failed is written behind all in effect', lambda: (wrote(folder, name) == wanted, wrote(folder, name)))
    with open(f'{folder}/steps-of-{name}.janus-cells', 'w') as file:
        file.write('int mine\n')
    act.ask(2)
    comes('a file of the user is left as it is', lambda: (act.message().startswith('There is another file'), act.message()))
    check(wrote(folder, name) == 'int mine\n', 'as it was', wrote(folder, name))


class Classic:
    def __init__(self, page):
        from panel import message
        from scenes import run_example
        self.page, self.add, self.run = page, page.add, page.run
        self.example, self.message = lambda: run_example(page), lambda: message(page)

    def text(self, cell):
        return self.page.cells()[cell]['text']

    def ask(self, cell):
        self.page.select(cell)
        self.page.click('#janus-steps')


class Lab:
    def __init__(self, page):
        import lab_page as it
        self.page, self.it = page, it
        self.example, self.message = lambda: it.run_example(page), lambda: it.message(page)
        self.text, self.add, self.run = lambda cell: it.source(page, cell), lambda text: it.add(page, text), lambda cell: it.run(page, cell)

    def ask(self, cell):
        self.it.select(self.page, cell)
        self.page.click('.janus-steps')


def step_through(stage):
    steps(stage.name, stage.page, stage.theatre.folder, Classic(stage.page))


def lab_step_through(stage):
    steps(stage.name, stage.page, stage.server.folder, Lab(stage.page))


SCENES, LAB_SCENES = [step_through], [lab_step_through]
