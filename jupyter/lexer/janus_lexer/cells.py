#!/usr/bin/python3
"""Notebooks of Janus as files of cells for janus-cells, and back: `%%` between the cells, text cells as comments that begin with `//|`.

A cell here is a pair of its kind, `code`, `text` or `commands`, and its source. Commands, as `%undo 1`, are a notebook's raw cells.
"""
import json
import re
import sys

VERSION = '1.0.0'
RUN, PART = '%%', '//|%%'
KINDS = {'markdown': 'text', 'raw': 'commands', 'code': 'code'}
METADATA = {'kernelspec': {'display_name': 'Janus', 'language': 'janus', 'name': 'janus'},
            'language_info': {'file_extension': '.janus', 'mimetype': 'text/x-janus', 'name': 'janus', 'version': '2008'}}


def is_text(line):
    return line in ('//|', PART) or line.startswith('//| ')


def code_lines(source):
    """The lines of a cell that runs; one that would be read as a command or as text gets a character more, which means nothing to the program."""
    return [re.sub(r'^( *)%', r' \1%', re.sub(r'^//\|', '//||', line)) for line in source.split('\n')]


def code_of(lines):
    return '\n'.join(re.sub(r'^ ( *)%', r'\1%', re.sub(r'^//\|\|', '//|', line)) for line in lines)


def text_lines(texts):
    parts = [[PART] + ['//| ' + line if line else '//|' for line in text.split('\n')] for text in texts]
    return sum(parts, [])[1:]


def texts_of(lines):
    return [text[1:] for text in ''.join('\n' + line[4:] if line != PART else '\0' for line in lines).split('\0')] if lines else []


def written(cells):
    """The file of a list of cells."""
    lines, texts, is_open = [], [], False
    for kind, source in cells:
        if kind == 'text':
            texts.append(source)
        elif kind == 'commands':
            lines += (text_lines(texts) if is_open else []) + source.split('\n')
            texts, is_open = [] if is_open else texts, False
        elif source.strip():
            lines += ([RUN] if is_open else []) + text_lines(texts) + code_lines(source)
            texts, is_open = [], True
    return '\n'.join([*lines, *text_lines(texts), ''])


def gathered(lines, row):
    """The cells of the lines that run together, of which the first is the given row of the file, each with its own first row."""
    first = next((at for at, line in enumerate(lines) if not is_text(line)), len(lines))
    last = next((at for at in range(len(lines), first, -1) if not is_text(lines[at - 1])), first)
    code = [('code', code_of(lines[first:last]), row + first)] if lines[first:last] else []
    return [('text', it, row) for it in texts_of(lines[:first])] + code + [('text', it, row + last) for it in texts_of(lines[last:])]


def placed(text):
    """The cells of a file, each with the row where it begins. A blank cell that runs becomes a comment, since no frontend sends a blank one."""
    cells, lines, rows = [], [], text.removesuffix('\n').split('\n')
    for row, line in enumerate(rows, 1):
        if not line.startswith('%'):
            lines.append(line)
            continue
        is_run, has_text, begin = line.rstrip() == RUN, any(it.strip() for it in lines), row - len(lines)
        if is_run or has_text:
            cells += gathered(lines if has_text else ['//'], begin)
        lines = []
        if not is_run:
            if cells and cells[-1][0] == 'commands':
                _, above, row = cells.pop()
                line = above + '\n' + line
            cells.append(('commands', line, row))
    return cells + (gathered(lines, len(rows) + 1 - len(lines)) if any(it.strip() for it in lines) else [])


def read(text):
    """The cells of a file."""
    return [it[:2] for it in placed(text)]


def source_of(cell):
    return cell['source'] if isinstance(cell['source'], str) else ''.join(cell['source'])


def of_notebook(notebook):
    """The cells of a notebook. A raw cell whose lines aren't all commands is text."""
    about = notebook.get('metadata', {})
    names = {about.get('kernelspec', {}).get('language'), about.get('language_info', {}).get('name')} - {None}
    if names and names != {'janus'}:
        raise ValueError('a notebook of ' + ' and '.join(sorted(names)) + ', not of janus')
    for cell in notebook['cells']:
        kind, source = KINDS.get(cell['cell_type'], 'text'), source_of(cell)
        is_command = all(line.startswith('%') and line.rstrip() != RUN for line in source.split('\n'))
        yield ('text' if kind == 'commands' and not is_command else kind), source


def to_notebook(cells):
    """A notebook without outputs."""
    kinds, made = {kind: name for name, kind in KINDS.items()}, []
    for kind, source in cells:
        more = {'execution_count': None, 'outputs': []} if kind == 'code' else {}
        made.append({'cell_type': kinds[kind], 'metadata': {}, **more, 'source': source.splitlines(keepends=True)})
    return {'cells': made, 'metadata': METADATA, 'nbformat': 4, 'nbformat_minor': 4}


def main(words):
    """to-cells NOTEBOOK writes on standard output a file of its cells; to-cells --back FILE writes the notebook of such a file."""
    if words == ['--version']:
        print('janus-to-cells', VERSION)
        return 0
    back = words[:1] == ['--back']
    if len(words) != 1 + back or words[-1].startswith('-'):
        print('usage:', main.__doc__, file=sys.stderr)
        return 2
    try:
        with open(words[-1], encoding='utf-8') as file:
            text = file.read()
        made = json.dumps(to_notebook(read(text)), indent=1, ensure_ascii=False) + '\n' if back else written(of_notebook(json.loads(text)))
    except (OSError, ValueError, KeyError, TypeError, AttributeError) as error:
        why = error.strerror if isinstance(error, OSError) else str(error) if isinstance(error, ValueError) else 'no notebook'
        print(f'{words[-1]}: {why}', file=sys.stderr)
        return 1
    sys.stdout.write(made)
    return 0


if __name__ == '__main__':
    sys.exit(main(sys.argv[1:]))
