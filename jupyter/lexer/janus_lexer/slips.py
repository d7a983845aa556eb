"""What is probably meant where a text is refused with 30, 31 or 34, which of its causes 40 to 43 has, and what 45 counts, as page/slips.js says it in the
notebook: the same rules, and the same texts test both."""
import re
from types import SimpleNamespace

TOKEN = re.compile(r'//[^\n]*|[A-Za-z][A-Za-z0-9_]*|[0-9]+|\+=|-=|\^=|&&|\|\||!=|<=>|<=|>=|\S')
KEYWORDS = set('call delocal do else empty fi from if int local loop main nil pop procedure push skip stack then top uncall until'.split())
OPENS = {'fi': 'if', 'until': 'from', 'delocal': 'local', ')': '(', ']': '['}
CLOSER = {'if': '`fi` with its second test', 'from': '`until` with its test', 'local': '`delocal`', '(': '`)`', '[': '`]`'}
CHANGES = ('+=', '-=', '^=')
SHIFT = 'there are no shifts: multiply or divide by a power of two'
FOREIGN, CHARACTERS, CALLED, COLONS = {}, {}, {}, {}
USES = {'push': '`push(x, s)` moves the number of the variable `x` onto the stack `s`', 'top': '`top(s)` is the newest number of the stack `s`',
        'pop': '`pop(x, s)` moves the newest number of the stack `s` into the variable `x`', 'empty': '`empty(s)` is 1 if the stack `s` is empty'}


def told(table, sentence, *words):
    for it in words:
        table[it] = sentence


told(FOREIGN, 'a loop is `from .. loop .. until ..`', 'while', 'for', 'repeat')
told(FOREIGN, 'a cell shows the names that it mentions', 'print', 'printf', 'show', 'write')
told(FOREIGN, 'a cell reads no input: write the number into it', 'read', 'input')
told(FOREIGN, 'words such as `then` and `fi` enclose statements, so leave it out', 'begin')
told(FOREIGN, 'nothing can be imported; the procedures of earlier cells can be called', 'import', 'include')
told(FOREIGN, 'here type %undo', 'undo')
told(FOREIGN, 'here type %redo', 'redo')
told(FOREIGN, 'a procedure returns nothing: it changes its parameters', 'return')
told(FOREIGN, 'a procedure begins with `procedure`', 'def', 'function', 'proc')
told(FOREIGN, 'write `&&`', 'and')
told(FOREIGN, 'write `||`', 'or')
told(FOREIGN, 'compare with 0, as in `y = 0`', 'not')
told(FOREIGN, 'write `%`', 'mod')
told(FOREIGN, 'write `/`', 'div')
told(FOREIGN, 'write 1', 'true')
told(FOREIGN, 'write 0', 'false')
told(FOREIGN, '`if` ends with `fi`, `from` with `until`', 'end')
told(FOREIGN, '`if` ends with `fi` and its second test', 'endif')
told(FOREIGN, 'write `else if .. fi .. fi ..`: each `if` has its own `fi`, with a second test', 'elif', 'elseif', 'elsif')
told(FOREIGN, 'write `int` or `stack`', 'var', 'let')
told(FOREIGN, 'write `int`: 0 is false', 'bool')
told(FOREIGN, 'numbers are whole: write `int`', 'float', 'double')
told(FOREIGN, 'the kinds are `int` and `stack`', 'bit', 'nat', 'char', 'string', 'unsigned', 'integer', 'i32', 'u32', 'long')
told(FOREIGN, 'an array is declared by `int a[10]`', 'array')
told(FOREIGN, 'there are no constants: a number that nothing changes is one', 'const')
told(FOREIGN, 'a console is left by Ctrl-D, and a notebook by closing it', 'exit', 'quit', 'bye')
told(FOREIGN, 'the language is on one page of the documents, and Tab completes names', 'help')
told(FOREIGN, 'write `^`', 'xor')
told(FOREIGN, SHIFT, 'shl', 'shr')
told(FOREIGN, 'write `x += 1`', 'inc')
told(FOREIGN, 'write `x -= 1`', 'dec')
told(FOREIGN, 'a variable is changed by `+=`, `-=` or `^=`', 'set')
told(FOREIGN, 'write `skip`, which does nothing', 'nop', 'pass')
told(FOREIGN, 'the second test of an `if` or a loop asserts', 'assert')
told(FOREIGN, 'a procedure is run backward by `uncall p(..)`', 'reverse', 'inverse', 'invert')
told(FOREIGN, 'a loop is `from .. loop .. until ..`', 'od', 'done')
told(FOREIGN, 'a loop ends only where the test after `until` holds', 'break', 'continue')
told(FOREIGN, 'write an `if` for each case', 'switch', 'case')
told(CHARACTERS, 'there are no texts, only numbers', '"', "'", '`', '\u201c', '\u201d', '\u2018', '\u2019')
told(CHARACTERS, 'statements follow one another without `;`', ';')
told(CHARACTERS, 'there is no `?`: write an `if`', '?')
told(CHARACTERS, 'there are no braces: words such as `fi`, `until` and `delocal` close what is open', '{')
told(CHARACTERS, 'there are no braces: words such as `fi` close what is open', '}')
told(CHARACTERS, 'a comment begins with `//`', '#')
told(CHARACTERS, 'a statement may go on over several lines without this sign: leave it out', '\\')
told(CHARACTERS, 'there is no `!`: compare with 0, as in `y = 0`', '!')
told(CHARACTERS, 'there is no `~`: `-1 ^ y` flips all bits of `y`', '~')
told(CHARACTERS, 'numbers are whole: leave out the point and the digits after it', '.')
told(CHARACTERS, 'a name begins with a letter', '_')
told(CHARACTERS, 'this is not a plain space, perhaps because it was copied from a page: type it again', '\u00a0')
told(CHARACTERS, 'there is an invisible character here: remove it', '\u200b')
told(CHARACTERS, 'there is an invisible character (a BOM) here: remove it', '\ufeff')
told(CHARACTERS, 'multiply by `*`', '\u00d7')
told(CHARACTERS, 'this minus is another character: type `-`', '\u2212')
told(CHARACTERS, 'this dash is another character: type `-`', '\u2013')
told(CHARACTERS, 'write `!=`', '\u2260')
told(CHARACTERS, 'write `<=`', '\u2264')
told(CHARACTERS, 'write `>=`', '\u2265')
told(CHARACTERS, 'no assignment forgets the old value: write `+=`, `-=` or `^=`', '\u2190')
told(CALLED, 'two numbers are swapped by `x <=> y`; a procedure of your own is called by `call swap(..)`', 'swap')
told(CALLED, 'no function gives a length: an array has that of its declaration, and `empty(s)` is 1 if the stack `s` is empty', 'len', 'length', 'size')
told(CALLED, 'there are no functions that give a value: an `if` chooses between two', 'abs', 'max', 'min')
told(CALLED, 'there are no functions that give a value: a loop finds it', 'sqrt')
told(CALLED, 'there are no powers: multiply', 'pow')
told(CALLED, 'nothing is left to chance, since it could not be taken back', 'random')
told(COLONS, 'after the test of an `if` comes `then`, without a `:`', 'if', 'elif')
told(COLONS, 'a loop is `from .. loop .. until ..`', 'while', 'for', 'from')
told(COLONS, 'a procedure begins with `procedure`, and no `:` follows its head', 'def', 'function', 'proc')
told(COLONS, 'no `:` follows the head of a procedure', 'procedure')
for word in 'else', 'then', 'do', 'loop':
    told(COLONS, f'no `:` follows `{word}`', word)


def is_name(text):
    return bool(re.match('[A-Za-z]', text)) and text not in KEYWORDS


def is_number(text):
    return bool(re.fullmatch('[0-9]+', text))


def wants_value(text):
    return text in CHANGES or bool(re.fullmatch(r'&&|\|\||!=|<=|>=|[-+*/%^&|<>=(\[]|if|fi|from|until', text))


def open_before(tokens):
    """What the tokens leave open, innermost last."""
    found = []
    for it in tokens:
        if it[0] in CLOSER:
            found.append(it)
        places = [at for at, one in enumerate(found) if one[0] == OPENS.get(it[0])]
        if places:
            del found[places[-1]:]
    return found


def tokens_of(code):
    return [(it[0], it.start()) for it in TOKEN.finditer(code) if not it[0].startswith('//')]


def declared_in(lists):
    """The names that texts declare or define."""
    return {after[0] for tokens in lists for before, after in zip(tokens, tokens[1:]) if before[0] in ('int', 'stack', 'procedure')}


def look(code, at, cells=()):
    """The place and what stands around it; a text is empty where there is no token."""
    tokens = tokens_of(code)
    index = next((k for k, it in enumerate(tokens) if it[1] >= at), len(tokens))

    def text(k):
        return tokens[index + k][0] if 0 <= index + k < len(tokens) else ''
    is_open = open_before(tokens[:index])
    inner, begun = is_open[-1] if is_open else ('', 0)
    first = tokens.index((inner, begun)) if inner else 0
    around = [tokens[k][0] if k >= 0 else '' for k in (first - 1, first - 2)] if inner == '(' else ['', '']
    return SimpleNamespace(code=code, tokens=tokens, index=index, text=text, here=text(0), before=text(-1), earlier=text(-2), after=text(1), inner=inner,
                           begun=first + 1 if inner else index, line=code.count('\n', 0, begun) + 1, called=around[0], word=around[1],
                           declared=declared_in([tokens, *map(tokens_of, cells)]))


def foreign(it):
    if it.here + it.after in ('/*', '(*') or it.before + it.here == '/*' or it.index == 0 and it.here + it.after == '--':
        return 'a comment begins with `//`'
    k = foreign_word(it)
    if k is None:
        return None
    said = word_of_others(it.text(k))
    if it.text(k) == 'end' and not it.inner and any(one[0] == 'procedure' for one in it.tokens[:it.index]):
        said = 'a procedure goes on to the next one, or to the end of the cell'
    if it.text(k) == 'not' and is_name(it.text(k + 1)):
        said = f'write `{it.text(k + 1)} = 0`'
    return f'`{it.text(k)}` is not a word of Janus: {said}'


def word_of_others(text):
    """What is said of a word of another language, or of one of this with capitals, or None."""
    has_capitals = text not in KEYWORDS and text.lower() in KEYWORDS
    return FOREIGN.get(text) or ('words of the language are written in lower case' if has_capitals else None)


def foreign_word(it):
    """Where a word of another language is: 0 at the place, -1 before it, -2 where it was read as a name and a statement after it, or None."""
    for k in (0, -1):
        is_head = it.text(k - 1) in ('call', 'uncall', 'procedure', 'int', 'stack', '(', ',', '[')
        is_used = is_head or it.text(k + 1) in (*CHANGES, '=') or it.text(k) in it.declared
        if word_of_others(it.text(k)) and not is_used:
            return k
    return -2 if it.earlier == 'not' and is_name(it.before) and wants_value(it.text(-3)) else None


def number(it):
    hexadecimal = re.fullmatch('x([0-9A-Fa-f]+)', it.before)
    if hexadecimal and it.earlier == '0':
        return f'there are no hexadecimal numbers: `0{it.before}` is {int(hexadecimal[1], 16)}'
    for base, found in (2, re.fullmatch('b([01]+)', it.before)), (8, re.fullmatch('o([0-7]+)', it.before)):
        if found and it.earlier == '0':
            return f'numbers are decimal: `0{it.before}` is {int(found[1], base)}'
    if it.here == ',' and is_number(it.before) and is_number(it.after):
        return 'an array has one index' if it.inner == '[' else f'a number is written without a comma: `{it.before}{it.after}`'
    exponent = re.fullmatch('[eE]([0-9]*)', it.before)
    if exponent and is_number(it.earlier) and it.tokens[it.index - 2][1] + len(it.earlier) == it.tokens[it.index - 1][1]:
        value = int(it.earlier) * 10 ** int(exponent[1]) if exponent[1] and len(exponent[1]) < 4 else 2 ** 31
        return 'a number has only digits' + (f': `{it.earlier}{it.before}` is {value}' if value < 2 ** 31 else ', and no exponent')
    return 'a name begins with a letter' if is_number(it.here) and is_name(it.after) and it.before in ('int', 'stack') else None


def equals(it):
    if it.here != '=':
        return None
    if it.before == '=':
        return 'equality is one `=`'
    if it.word == 'procedure':
        return 'a parameter has no value of its own: a call lends it a variable'
    if it.after == '=' and is_name(it.before) and it.earlier not in ('int', 'stack'):
        return f'a test alone is not a statement, and equality is one `=`: change `{it.before}` by `+=`, `-=` or `^=`'
    if it.before in ('<', '>'):
        return f'write `{it.before}=` without a space'
    if is_name(it.before) and it.earlier == 'stack':
        return f'a stack starts empty: write `stack {it.before}`'
    if is_name(it.before) and it.earlier == 'int':
        return f'a number starts at 0: write `int {it.before}`, and then `{it.before} += ..`'
    if it.before == ']' and (it.text(-5) == 'int' and it.text(-3) == '[' or it.text(-4) == 'int'):
        return 'the elements of an array start at 0: give them their values with `+=`'
    if is_name(it.before) and it.after in ('+', '-', '^'):
        return f'the sign comes first: write `{it.before} {it.after}= ..`'
    target = 'the element' if it.before == ']' else f'`{it.before}`'
    return f'`=` would forget the old value: change {target} by `+=`, `-=` or `^=`' if is_name(it.before) or it.before == ']' else None


def operator(it):
    if it.after == '=' and it.here in ('-', '*', '/', '%', '&', '|', '+', '^', '&&', '||'):
        return f'write `{it.here}=` without a space' if it.here in ('-', '+', '^') else 'only `+=`, `-=` and `^=` can be taken back'
    if (it.here, it.after, it.text(2)) == ('*', '*', '=') or it.here in ('<', '>') and it.after == it.here + '=':
        return 'only `+=`, `-=` and `^=` can be taken back'
    if it.here in ('+', '-') and it.after == it.here:
        return f'write `{changed(it) or "x"} {it.here}= 1`'
    if (it.here, it.after, it.text(2)) == ('<', '-', '>') or (it.here, it.after) == ('<', '>') and is_name(it.before):
        return 'a swap is written `<=>`' + (', and different `!=`' if it.after == '>' else '')
    if (it.here, it.after) == ('-', '>'):
        return 'there is no `->`: `x += y` adds `y` to `x`, and `x <=> y` swaps them'
    if it.here == it.earlier == '<=>':
        return '`<=>` swaps two variables: write a statement for each swap'
    if it.here == '<=>' and not is_name(it.before) and it.before != ']' and not is_number(it.before):
        return 'before `<=>` the name of a variable is needed'
    if it.here == '<' and it.after == '-' and is_name(it.before):
        return CHARACTERS['\u2190']
    if it.here in ('<', '>') and it.before == it.here:
        return SHIFT
    if it.here == it.before == '*':
        return 'there are no powers: multiply'
    if it.here == '+' and it.before in (*CHANGES, '-', '+', '*', '/', '%', '(', '=', '<', '>'):
        return 'a number has no sign `+`: leave it out'
    if it.here == '>' and it.before == '<':
        return 'write `!=` for different'
    if is_number(it.here) and '<=>' in (it.before, it.after):
        return f'`<=>` swaps two variables, and `{it.here}` is none: put it into a variable or a local first'
    if it.here == '<=>' and it.before == ']' or it.before == '<=>' and it.here and not is_name(it.here) or it.here == '[' and it.earlier == '<=>':
        return '`<=>` swaps variables, not elements: use two locals, as examples/sort does'
    return None


def stacks(it):
    if it.here in ('push', 'pop') and wants_value(it.before):
        return f'after `{it.before}` a value is needed, and `{it.here}` is a statement: {USES[it.here]}'
    if it.before in USES and it.here != '(':
        return 'parentheses are missing: ' + USES[it.before]
    return 'two names are needed here: ' + USES[it.called] if it.here == ')' and it.called in ('push', 'pop') else None


def changed(it):
    """What a sign such as `++` at the place is to change: the name or the element around it, or None."""
    if it.before == ']':
        begin, depth = it.index - 1, 1
        while begin > 0 and depth:
            begin -= 1
            depth += {']': 1, '[': -1}.get(it.tokens[begin][0], 0)
        if begin > 0:
            return it.code[it.tokens[begin - 1][1]:it.tokens[it.index - 1][1] + 1]
    return next((one for one in (it.before, it.text(2)) if is_name(one)), None)


def head(it):
    """In the head of a procedure."""
    is_first, name = it.before in ('(', ','), it.text(3) if (it.after, it.text(2)) == ('[', ']') else it.after
    if it.here == ')' and it.before == ',':
        return 'after `,` a parameter is needed'
    if it.here in ('int', 'stack') and not is_first:
        return 'a `,` is missing before this parameter'
    if it.here in ('&', '*') and it.before == 'int':
        return f'leave out `{it.here}`: a procedure works on the variables that a call lends it'
    if is_first and is_name(it.here) and is_name(name):
        return f'`{it.here}` is not a kind: write `int {name}{"[]" if it.after == "[" or it.here == "array" else ""}`'
    return None


def lent(it):
    """Among the names of a call."""
    if not it.here and is_name(it.before):
        return None                                                       # the parenthesis is open
    if is_name(it.here) and is_name(it.before):
        return f'a `,` is missing between `{it.before}` and `{it.here}`'
    if (it.here, it.after) == ('[', ']'):
        return f'an array is lent by its name alone: write `{it.before}`'
    if it.here in ('int', 'stack'):
        return 'a call names its variables without their kinds'
    if it.before in ('(', ',') and it.here in (',', ')', ''):
        return 'the name of a variable is missing here'
    return 'only names of variables can be used here: put the value into a variable or a local first'


def parameters(it):
    said = head(it) if it.word == 'procedure' else None
    if said:
        return said
    if it.word == 'procedure' and it.before in ('(', ',') and is_name(it.here):
        return f'each parameter needs its kind: `int {it.here}`, `int {it.here}[]` or `stack {it.here}`'
    if it.before == '[' and it.text(-3) == 'int' and it.text(-4) in ('(', ','):
        return f'a parameter has no length: `int {it.earlier}[]`'
    if it.here in ('call', 'uncall') and wants_value(it.before):
        return f'after `{it.before}` a value is needed, and a procedure returns none: `{it.here}` changes the variables that are lent to it'
    if it.called in ('push', 'pop') or it.word in ('call', 'uncall'):
        return lent(it)
    if it.called in ('empty', 'top'):
        return 'the name of a stack is needed here'
    if it.before in ('call', 'uncall'):
        return f'after `{it.before}` the name of a procedure is needed'
    if it.earlier in ('call', 'uncall', 'procedure') and is_name(it.before) and it.here != '(':
        return f'write `{it.earlier} {it.before}(..)`, with the names in parentheses'
    if it.here != '(' or not is_name(it.before):
        return None
    if it.before in CALLED:
        return CALLED[it.before]
    if it.earlier == 'int' and is_number(it.after):
        return f'the length of an array is in brackets: `int {it.before}[{it.after}]`'
    if wants_value(it.earlier):
        element = f', and an element of an array is `{it.before}[{it.after}]`' if it.text(2) == ')' else ''
        return f'a procedure returns no value: `call {it.before}(..)` changes the variables that are lent to it{element}'
    return f'a procedure is called by `call {it.before}(..)`'


def declaration(it):
    return kinds(it) or brackets(it) or places(it)


def kinds(it):
    """Of what declares a name."""
    is_test = (it.earlier if it.before == '(' else it.before) in ('if', 'from', 'until', 'fi')
    if it.here == 'int' and is_test:
        return f'a test declares nothing: declare `{it.after or ".."}` in front of it, or as a `local`'
    if (it.here, it.before, it.after) == ('[', 'int', ']') and is_name(it.text(2)):
        is_head = it.word == 'procedure'
        return f'the brackets come after the name: `int {it.text(2)}[]`' if is_head else f'the length comes after the name: `int {it.text(2)}[10]`'
    if it.here == '[' and is_name(it.before) and it.earlier == 'stack':
        return f'a stack has no length: write `stack {it.before}`'
    if it.here == ',' and is_name(it.before) and it.earlier == 'int' and it.after in ('int', 'stack'):
        return 'declarations follow one another without `,`'
    if is_name(it.before) and is_name(it.earlier) and it.text(-3) in ('int', 'stack') and it.text(-4) not in ('local', 'delocal'):
        return f'each name needs its own kind: `{it.text(-3)} {it.earlier} {it.text(-3)} {it.before}`'
    if is_name(it.before) and it.earlier in ('int', 'stack') and it.text(-3) == 'delocal':
        return f'the value at its end is missing: `delocal {it.earlier} {it.before} = {"nil" if it.earlier == "stack" else ".."}`'
    if it.here == 'main' or (it.before, it.earlier) == ('main', 'procedure'):
        return 'a whole program has `procedure main()`, with the parentheses'
    if it.here == 'nil' and wants_value(it.before):
        return '`nil` is no value: a local stack begins and ends with it'
    return '`uncall` is one word' if (it.here, it.before) == ('call', 'un') else None


def brackets(it):
    if (it.earlier, it.before, it.here) == ('main', '(', 'int'):
        return '`main` has no parameters: its declarations follow `main()`'
    is_sized = it.here == '[' and is_number(it.after) and it.text(2) == ']' and is_name(it.text(3))
    if it.here == '[' and it.before == 'int':
        return f'the length comes after the name: `int {it.text(3) + "[" + it.after if is_sized else "a[10"}]`'
    if it.here == '[' and it.before == 'stack':
        return f'a stack has no length: write `stack {it.text(3) if is_sized else "s"}`'
    if it.here == ',' and is_name(it.before) and it.earlier == 'int':
        return f'each name needs its own kind: `int {it.before} int {it.after or ".."}`'
    return None


def places(it):
    if it.here in KEYWORDS and it.before in ('int', 'stack', 'procedure', 'call', 'uncall'):
        return f'`{it.here}` is a word of the language: a name is needed here'
    if it.before in ('local', 'delocal'):
        return f'its kind is missing: `{it.before} int {it.here or ".."}`'
    if it.text(-3) == 'local' and is_name(it.before):
        if it.here == '[':
            return 'there are no local arrays: use a parameter, or a local stack'
        if it.earlier == 'int':
            return f'a local begins with a value: `local int {it.before} = 0`'
        if it.earlier == 'stack':
            return f'a local stack begins empty: `local stack {it.before} = nil`'
    if it.before == '=' and it.text(-3) == 'stack' and it.text(-4) in ('local', 'delocal'):
        how = 'begins' if it.text(-4) == 'local' else 'ends'
        return f'`nil` is needed, because a local stack {how} empty: `{it.text(-4)} stack {it.earlier} = nil`'
    if it.before == '[' and it.text(-3) == 'int' and is_name(it.here):
        return f'the length of an array is a number written in digits, as in `int {it.earlier}[10]`'
    if it.before == '[' and it.text(-3) == 'int' and it.here == ']':
        return f'an array needs its length: `int {it.earlier}[10]`'
    return 'declarations come first in a cell, before its statements and procedures' if it.here in ('int', 'stack') else None


def missing(it):
    tested = it.before if it.before in ('fi', 'until') else it.earlier if is_name(it.before) and it.earlier in ('fi', 'until') else ''
    starts = it.here in CHANGES or it.here == '<=>'
    if it.here == ')' and it.inner not in ('(', '[') or it.here == ']' and it.inner != '[':
        return f'this `{it.here}` closes nothing'
    if tested and tested == it.before:
        return f'after `{tested}` its test is missing'
    if tested and starts:
        return f'after `{tested}` its test is missing: `{it.before}` was read as that test'
    if it.here in ('fi', 'else') and it.inner != 'if':
        return f'`{it.here}` belongs to an `if`, and none is open here'
    if it.here in ('until', 'loop', 'do') and it.inner != 'from':
        return f'`{it.here}` belongs to a `from`, and none is open here'
    if it.here == 'delocal' and it.inner != 'local':
        return '`delocal` closes a `local`, and none is open here'
    if it.before in ('then', 'else', 'loop', 'do'):
        return f'after `{it.before}` a statement is needed; `skip` is one that does nothing'
    if it.here == 'to' and it.inner == 'from':
        return 'a loop ends with a test, as in `from i = 0 loop i += 1 until i = 10`'
    if it.inner and (not it.here or (it.here in KEYWORDS or starts) and it.inner in ('(', '[')):
        return f'the `{it.inner}` of line {it.line} has no {CLOSER[it.inner]}'
    return None


def after_test(it):
    """What is needed after the test of an `if` or a `from` that is open, where none of it has come yet."""
    wanted = {'if': ['then'], 'from': ['do', 'loop']}.get(it.inner, [])
    since = [one[0] for one in it.tokens[it.begun:it.index]]
    return None if not since or any(one in wanted for one in since) else ' or '.join(f'`{one}`' for one in wanted) or None


def lists(it):
    if it.here == '[' and it.before == ']':
        return 'an array has one index'
    if it.here == ']' and it.before == '[':
        return 'the index is missing'
    if it.here != ',' or it.inner in ('(', '['):
        return None
    if is_number(it.before) or it.before == ')':
        return 'statements follow one another without `,`'
    return 'a statement changes one variable: write a statement for each' if is_name(it.before) or it.before == ']' else None


def test(it):
    wanted = after_test(it)
    if wanted is None or wants_value(it.before):
        return None
    if it.here in CHANGES:
        return 'a test changes nothing: compare by `=`, `!=`, `<` and the like'
    if is_name(it.here):
        return f'the test ends here, so {wanted} is needed here, or an operator is missing'
    return f'the test ends here, so {wanted} is needed here' if it.here in KEYWORDS else None


def statement(it):
    if it.before == ')' and any(one[0] == 'procedure' for one in it.tokens[:it.index]):
        return 'a procedure has at least one statement after its head'
    if it.before in CALLED:
        return CALLED[it.before]
    is_on_line = it.index > 1 and '\n' not in it.code[it.tokens[it.index - 2][1]:it.tokens[it.index - 1][1]]
    if not it.here and is_name(it.before) and (is_name(it.earlier) or is_number(it.earlier)) and is_on_line:
        return f'between `{it.earlier}` and `{it.before}` an operator is missing, or a statement begins there: `{it.before} += ..`'
    if not it.here and is_name(it.before):
        return f'a name alone is not a statement: `{it.before} += ..` changes it, and a cell shows what it mentions'
    if it.before in CHANGES or re.fullmatch(r'&&|\|\||!=|<=|>=|[-+*/%^&|<>=]', it.before):
        return f'after `{it.before}` a value is needed'
    if it.here in CHANGES and not is_name(it.before) and it.before != ']':
        return f'before `{it.here}` the name of a variable is needed'
    if it.before == '<=>':
        return 'after `<=>` the name of a variable is needed'
    if is_name(it.before):
        return f'after `{it.before}` an operator is missing: a statement goes on with `+=`, `-=`, `^=` or `<=>`'
    return 'a value alone is not a statement: a variable is changed by `+=`, `-=` or `^=`' if re.match('[0-9(]', it.here) else None


RULES = (foreign, number, equals, operator, stacks, parameters, declaration, lists, missing, test, statement)


def character(code, at):
    """What is meant by a character that means nothing."""
    one, last, it = code[at:at + 1], code[at - 1:at] if at else '', look(code, at)
    names = [it for it in TOKEN.findall(code[:at]) if not it.startswith('//')]
    is_line_begin, is_line_end = not code[:at].split('\n')[-1].strip(' \t'), not code[at + 1:].split('\n')[0].strip(' \t\r')
    if one == ':':
        return f'the kind comes before the name: `int {it.before or "x"}`' if it.word == 'procedure' else colon(code, at)
    if one == ';' and it.inner == '(':
        return 'names in parentheses are separated by `,`'
    if one == '?' and (is_line_begin or is_line_end):
        return 'there is no `?`: a cell shows the names that it mentions'
    if one == '!' and is_line_begin:
        return "commands of a shell can't be given here"
    if one == '{' and it.before == '=':
        return 'there are no lists: the elements of an array start at 0, and `+=` gives them their values'
    if one == '.' and names and is_name(names[-1]):
        return 'there is no `.` after a name: a stack is used by `push(x, s)`, `pop(x, s)`, `top(s)` and `empty(s)`'
    if one == '.' and not is_number(last):
        return 'numbers are whole: there is no point'
    if one == '_' and is_number(last):
        return 'a number has only digits: leave out the `_`'
    return CHARACTERS.get(one) or ('names have the letters a to z and A to Z, digits and `_`' if one.isalpha() else None)


def colon(code, at):
    head = next((it for it in reversed(TOKEN.findall(code[code.rfind('\n', 0, at) + 1:at])) if it in COLONS), '')
    if code[at + 1:at + 2] == '=':
        return 'there is no `:=`: a variable is changed by `+=`, `-=` or `^=`'
    return COLONS.get(head, 'there is no `:`: leave it out')


def other_end(it):
    """Of a `delocal` that fits no local that is open, what it has to be."""
    at = it.index - 1 if it.before == 'delocal' else it.index - 2
    texts = [one[0] for one in it.tokens]
    opened = [it.tokens.index(one) for one in open_before(it.tokens[:max(at, 0)]) if one[0] == 'local']
    if not opened or opened[-1] + 2 >= len(texts):
        return None
    kind, name = texts[opened[-1] + 1:opened[-1] + 3]
    said = f'`{name}` of line {it.code.count(chr(10), 0, it.tokens[opened[-1]][1]) + 1}'
    ended = texts[at + 2] if at + 2 < len(texts) else ''
    if ended != name and any(texts[one + 2] == ended for one in opened):
        return f'the local {said} began later, so it ends first: write its `delocal` before that of `{ended}`'
    return f'this ends the local {said}: write `delocal {kind} {name} = ..`'


def declared(it):
    """Of 40 to 43, which name a name, the cause that the text shows."""
    begun = [one[0] for one in it.tokens[:max(it.index - 1, 0)]]
    if it.before == 'procedure':
        return f'the procedure `{it.here}` is defined twice in this cell: rename one of them, or leave it out'
    if it.word == 'procedure':
        return f'two parameters are named `{it.here}`: rename one of them'
    here = begun[len(begun) - begun[::-1].index('procedure'):] if 'procedure' in begun else begun
    if any(one == it.here and kind in ('int', 'stack') for kind, one in zip(here, here[1:])):
        return f'`{it.here}` is declared twice in this cell: leave one of them out'
    return f'`{it.here}` is already declared: choose another name, or undo the cell that declared it; to run all cells again, go to node 0 first'


def unknown(it):
    small, is_outside = it.here.lower(), all(one[0] != 'procedure' for one in it.tokens[:it.index])
    other = next((one[0] for one in it.tokens if one[0] != it.here and one[0].lower() == small), small)
    if small in ('true', 'false'):
        return f'`{it.here}` is not a word of Janus: {FOREIGN[small]}'
    if it.before in ('call', 'uncall'):
        return f'there is no procedure `{it.here}`: define it, in this cell or in an earlier one'
    if other != it.here:
        return f'no such name is in scope: `{it.here}` is not `{other}`, because upper and lower case differ; or declare it'
    return f'no such name is in scope: declare it, as in `int {it.here}`' if is_outside else None


def kind_of(it):
    """What the text itself declares a name as, if it does."""
    texts = [one[0] for one in it.tokens]
    if ('stack', it.here) in zip(texts, texts[1:]):
        return 'stack'
    return 'array' if ('int', it.here, '[') in zip(texts, texts[1:], texts[2:]) else None


def other_kind(it):
    if it.after == '[':
        return f'`{it.here}` is not an array, so it has no elements'
    if it.called in ('push', 'pop'):
        wanted = 'number' if it.before == '(' else 'stack'
        return f'`{it.called}(x, s)` names a variable first and a stack second, and `{it.here}` is not a {wanted}'
    if it.called in ('top', 'empty'):
        return f'`{it.called}` needs a stack, and `{it.here}` is not one'
    if it.word in ('call', 'uncall'):
        return f'`{it.here}` is of a different kind (number, array or stack) from its parameter'
    if '<=>' in (it.before, it.after):
        return f'`<=>` swaps two numbers, and `{it.here}` is not one'
    is_changed, pushed = it.after in CHANGES, 'a stack is changed by `push` and `pop`'
    either = f'an element of an array has an index in brackets, and {pushed if is_changed else "the newest number of a stack is read by `top`"}'
    said = {'stack': ('a stack', pushed if is_changed else f'the newest number of a stack is `top({it.here})`'),
            'array': ('an array', f'an element of an array is `{it.here}[0]`'), None: ('an array or a stack', either)}[kind_of(it)]
    return f'`{it.here}` is {said[0]}, and a number is needed here: {said[1]}'


def closed(tokens, begin):
    """The place of the bracket that closes the one at a place."""
    depth = 0
    for k in range(begin, len(tokens)):
        depth += {'[': 1, ']': -1}.get(tokens[k][0], 0)
        if depth == 0:
            return k
    return len(tokens)


def itself(it):
    def text(k):
        return it.tokens[k][0] if 0 <= k < len(it.tokens) else ''
    for k in range(it.index - 1, -1, -1):
        if text(k) == '[' and text(k - 1) == it.here and text(closed(it.tokens, k) + 1) in CHANGES:
            return f'the index names `{it.here}`, whose element is changed, so this could not be undone: copy the index into a local first'
        if text(k) == '=' and text(k - 1) == it.here and text(k - 3) in ('local', 'delocal'):
            return f"the value of the local `{it.here}` can't name `{it.here}` itself: it has to be known without it"
        if text(k) in CHANGES:
            return f'the right side names `{it.here}`, which is changed, so this could not be undone: use a second variable'
    return None


def names_in(texts, begin):
    """How many names are in the parentheses that open at a token, or None where they don't close."""
    return sum(is_name(one) for one in texts[begin + 1:texts.index(')', begin)]) if ')' in texts[begin:] else None


def arity(it, earlier):
    """How many names are given at a call, and how many parameters the procedure has, if the text or an earlier cell shows it."""
    given = names_in([one[0] for one in it.tokens], it.index + 1)
    if given is None:
        return None
    said = f'{given} name is given here' if given == 1 else f'{given} names are given here'
    cells = [[one for one in TOKEN.findall(text) if not one.startswith('//')] for text in (it.code, *earlier)]
    heads = ((texts, k) for texts in cells for k in range(1, len(texts)) if texts[k - 1:k + 1] == ['procedure', it.here])
    wanted = next((names_in(texts, k + 1) for texts, k in heads), None)
    if wanted is None:
        return f'the procedure `{it.here}` has a different number of parameters: {said}'
    return f'the procedure `{it.here}` has {wanted} parameter{"" if wanted == 1 else "s"}, and {said}'


NAMES = {34: other_end, 40: declared, 41: unknown, 42: other_kind, 43: itself, 45: arity}


def word(refused, code, at, earlier=()):
    """Where the word begins that the sentence is about, where the kernel's place is behind it, or None."""
    it = look(code, at, earlier) if refused == 31 else None
    k = foreign_word(it) if it and ' is not a word of Janus' in (foreign(it) or '') else None
    return None if k is None else it.tokens[it.index + k][1]


def meant(refused, code, at, earlier=()):
    """The sentence for a refusal's number at a place of the text, or None. Some need the texts of earlier cells."""
    said = None
    if refused == 31:
        it = look(code, at, earlier)
        said = next((words for words in (rule(it) for rule in RULES) if words), None)
    elif refused == 30:
        said = character(code, at)
    elif refused in NAMES:
        it = look(code, at)
        said = NAMES[refused](it, *([earlier] if refused == 45 else [])) if it.here else None
    return said and re.sub('`([^`]*)`', r"'\1'", said)
