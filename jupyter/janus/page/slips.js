// What is probably meant where a text is refused with 30, 31 or 34, which of its causes 40 to 43 has, and what 45 counts: by what stands at the place, its
// neighbours and what is open. No parser; where nothing better than the guide's table is known the answer is null.
define([], function () {
'use strict';

const TOKEN = /\/\/[^\n]*|[A-Za-z][A-Za-z0-9_]*|[0-9]+|\+=|-=|\^=|&&|\|\||!=|<=>|<=|>=|\S/gu;
const KEYWORDS = new Set(('call delocal do else empty fi from if int local loop main nil pop procedure push skip stack then top uncall until').split(' '));
const OPENS = {fi: 'if', until: 'from', delocal: 'local', ')': '(', ']': '['};
const CLOSER = {if: '`fi` with its second test', from: '`until` with its test', local: '`delocal`', '(': '`)`', '[': '`]`'};
const LOOP = 'a loop is `from .. loop .. until ..`', SHOWN = 'a cell shows the names that it mentions';
const SMALL = 'words of the language are written in lower case', TEXTS = 'there are no texts, only numbers';
const PROCEDURE = 'a procedure begins with `procedure`', READS = 'a cell reads no input: write the number into it';
const LENGTH = 'no function gives a length: an array has that of its declaration, and `empty(s)` is 1 if the stack `s` is empty';
const BLOCK = 'words such as `then` and `fi` enclose statements, so leave it out';
const IMPORT = 'nothing can be imported; the procedures of earlier cells can be called';
const KIND = 'the kinds are `int` and `stack`', NOTHING = 'write `skip`, which does nothing';
const SHIFT = 'there are no shifts: multiply or divide by a power of two';
const LEAVE = 'a console is left by Ctrl-D, and a notebook by closing it', BACKWARD = 'a procedure is run backward by `uncall p(..)`';
const LAST = 'a loop ends only where the test after `until` holds', NO_FUNCTION = 'there are no functions that give a value: an `if` chooses between two';
const ELSE_IF = 'write `else if .. fi .. fi ..`: each `if` has its own `fi`, with a second test';
const COMMAND = 'commands such as `%undo 1` are lines for janus-cells and janus-repl: here press Undo';
const FOREIGN = {
    while: LOOP, for: LOOP, repeat: LOOP, print: SHOWN, printf: SHOWN, show: SHOWN, write: SHOWN,
    read: READS, input: READS, begin: BLOCK, import: IMPORT, include: IMPORT,
    undo: 'here press Undo', redo: 'here press Redo',
    return: 'a procedure returns nothing: it changes its parameters', def: PROCEDURE, function: PROCEDURE, proc: PROCEDURE,
    and: 'write `&&`', or: 'write `||`', not: 'compare with 0, as in `y = 0`', mod: 'write `%`', div: 'write `/`', true: 'write 1', false: 'write 0',
    end: '`if` ends with `fi`, `from` with `until`', endif: '`if` ends with `fi` and its second test', elif: ELSE_IF, elseif: ELSE_IF, elsif: ELSE_IF,
    var: 'write `int` or `stack`', let: 'write `int` or `stack`', bool: 'write `int`: 0 is false', float: 'numbers are whole: write `int`',
    double: 'numbers are whole: write `int`', bit: KIND, nat: KIND, char: KIND,
    string: KIND, unsigned: KIND, integer: KIND, i32: KIND, u32: KIND, long: KIND, array: 'an array is declared by `int a[10]`',
    const: 'there are no constants: a number that nothing changes is one', exit: LEAVE, quit: LEAVE, bye: LEAVE,
    help: 'the language is on one page of the documents, and Tab completes names',
    xor: 'write `^`', shl: SHIFT, shr: SHIFT, inc: 'write `x += 1`', dec: 'write `x -= 1`', set: 'a variable is changed by `+=`, `-=` or `^=`',
    nop: NOTHING, pass: NOTHING, assert: 'the second test of an `if` or a loop asserts', reverse: BACKWARD, inverse: BACKWARD, invert: BACKWARD,
    od: LOOP, done: LOOP, break: LAST, continue: LAST, switch: 'write an `if` for each case', case: 'write an `if` for each case',
};
// Names that other languages call as functions.
const CALLED = {
    swap: 'two numbers are swapped by `x <=> y`; a procedure of your own is called by `call swap(..)`', len: LENGTH, length: LENGTH, size: LENGTH,
    abs: NO_FUNCTION, max: NO_FUNCTION, min: NO_FUNCTION, sqrt: 'there are no functions that give a value: a loop finds it',
    pow: 'there are no powers: multiply', random: 'nothing is left to chance, since it could not be taken back',
};
const USES = {
    push: '`push(x, s)` moves the number of the variable `x` onto the stack `s`', top: '`top(s)` is the newest number of the stack `s`',
    pop: '`pop(x, s)` moves the newest number of the stack `s` into the variable `x`', empty: '`empty(s)` is 1 if the stack `s` is empty',
};
// What is said of `:` by the last word in front of it on its line that begins something.
const TEST = 'after the test of an `if` comes `then`, without a `:`', HEAD = PROCEDURE + ', and no `:` follows its head';
const COLONS = {
    if: TEST, elif: TEST, while: LOOP, for: LOOP, from: LOOP, def: HEAD, function: HEAD, proc: HEAD, procedure: 'no `:` follows the head of a procedure',
    else: 'no `:` follows `else`', then: 'no `:` follows `then`', do: 'no `:` follows `do`', loop: 'no `:` follows `loop`',
};
const CHARACTERS = {
    ';': 'statements follow one another without `;`', '?': 'there is no `?`: write an `if`',
    '{': 'there are no braces: words such as `fi`, `until` and `delocal` close what is open', '}': 'there are no braces: words such as `fi` close what is open',
    '"': TEXTS, '\'': TEXTS, '`': TEXTS, '\u201c': TEXTS, '\u201d': TEXTS, '\u2018': TEXTS, '\u2019': TEXTS, '#': 'a comment begins with `//`',
    '\\': 'a statement may go on over several lines without this sign: leave it out', '!': 'there is no `!`: compare with 0, as in `y = 0`',
    '~': 'there is no `~`: `-1 ^ y` flips all bits of `y`', _: 'a name begins with a letter',
    '.': 'numbers are whole: leave out the point and the digits after it',
    '\u00a0': 'this is not a plain space, perhaps because it was copied from a page: type it again',
    '\u200b': 'there is an invisible character here: remove it',
    '\ufeff': 'there is an invisible character (a BOM) here: remove it', '\u00d7': 'multiply by `*`', '\u2212': 'this minus is another character: type `-`',
    '\u2013': 'this dash is another character: type `-`', '\u2260': 'write `!=`', '\u2264': 'write `<=`', '\u2265': 'write `>=`',
    '\u2190': 'no assignment forgets the old value: write `+=`, `-=` or `^=`',
};

const own = function (table, key) { return key !== undefined && Object.prototype.hasOwnProperty.call(table, key) ? table[key] : null; };
const is_name = function (it) { return it !== undefined && /^[A-Za-z]/.test(it) && !KEYWORDS.has(it); };
const is_change = function (it) { return it === '+=' || it === '-=' || it === '^='; };
const is_number = function (it) { return /^[0-9]+$/.test(it || ''); };
const wants_value = function (it) { return is_change(it) || /^(&&|\|\||!=|<=|>=|[-+*/%^&|<>=([]|if|fi|from|until)$/.test(it || ''); };

function tokens(code) {
    return Array.from(code.matchAll(TOKEN), function (it) { return {text: it[0], at: it.index}; }).filter(function (it) { return !it.text.startsWith('//'); });
}

// What is open in front of a token, innermost last.
function open_before(all, index) {
    const open = [];
    for (const it of all.slice(0, index)) {
        if (own(CLOSER, it.text)) open.push(it);
        const from = own(OPENS, it.text), last = open.map(function (one) { return one.text; }).lastIndexOf(from);
        if (from && last >= 0) open.splice(last);
    }
    return open;
}

// The names that texts declare or define.
function declared_in(lists) {
    const found = new Set();
    for (const all of lists) for (let k = 1; k < all.length; k++) if (['int', 'stack', 'procedure'].includes(all[k - 1].text)) found.add(all[k].text);
    return found;
}

// The place and what stands around it: `here`, `before`, `earlier` and `after` are texts of tokens, undefined where there is none.
function look(code, at, cells = []) {
    const all = tokens(code), found = all.findIndex(function (it) { return it.at >= at; }), index = found < 0 ? all.length : found;
    const text = function (k) { return all[index + k] && all[index + k].text; };
    const open = open_before(all, index), inner = open[open.length - 1], from = inner ? all.indexOf(inner) : -1;
    const list = inner && inner.text === '(' ? [all[from - 1], all[from - 2]].map(function (it) { return it && it.text; }) : [];
    return {code, all, index, text, here: text(0), before: text(-1), earlier: text(-2), after: text(1), inner: inner && inner.text, opened: inner, list,
        declared: declared_in([all].concat(cells.map(tokens)))};
}

function line(code, at) { return code.slice(0, at).split('\n').length; }

// ---- rules: each answers a sentence or null
function foreign(it) {
    if (it.index === 0 && it.here === '%') return COMMAND;
    if (['/*', '(*'].includes(it.here + it.after) || it.before + it.here === '/*' || it.here + it.after === '--' && it.index === 0)
        return 'a comment begins with `//`';
    const at = foreign_word(it), word = it.text(at), is_alone = word === 'end' && it.opened === undefined && it.all.slice(0, it.index).some(is_procedure);
    if (!word) return null;
    const said = is_alone ? 'a procedure goes on to the next one, or to the end of the cell' : word_of_others(word);
    return '`' + word + '` is not a word of Janus: ' + (word === 'not' && is_name(it.text(at + 1)) ? 'write `' + it.text(at + 1) + ' = 0`' : said);
}

function is_procedure(one) { return one.text === 'procedure'; }

// What is said of a word of another language, or of one of this with capitals, or null.
function word_of_others(word) {
    const has_capitals = word !== undefined && !KEYWORDS.has(word) && KEYWORDS.has(word.toLowerCase());
    return own(FOREIGN, word) || (has_capitals ? SMALL : null);
}

// Where a word of another language is: at the place, or before it; otherwise NaN.
function foreign_word(it) {
    for (const k of [0, -1]) {
        const word = it.text(k), ahead = it.text(k - 1);
        const is_head = ['call', 'uncall', 'procedure', 'int', 'stack', '(', ',', '['].includes(ahead);
        const is_used = is_head || is_change(it.text(k + 1)) || it.text(k + 1) === '=' || it.declared.has(word);
        if (word_of_others(word) && !is_used) return k;
    }
    return it.earlier === 'not' && is_name(it.before) && wants_value(it.text(-3)) ? -2 : NaN;      // it was read as a name, and a statement after it
}

function number(it) {
    const hexadecimal = /^x([0-9A-Fa-f]+)$/.exec(it.before || '');
    if (hexadecimal && it.earlier === '0') return 'there are no hexadecimal numbers: `0' + it.before + '` is ' + parseInt(hexadecimal[1], 16);
    const binary = /^b([01]+)$/.exec(it.before || ''), octal = /^o([0-7]+)$/.exec(it.before || ''), other = binary || octal;
    if (other && it.earlier === '0')
        return 'numbers are decimal: `0' + it.before + '` is ' + parseInt(other[1], binary ? 2 : 8);
    if (it.here === ',' && is_number(it.before) && is_number(it.after))
        return it.inner === '[' ? 'an array has one index' : 'a number is written without a comma: `' + it.before + it.after + '`';
    const exponent = /^[eE]([0-9]*)$/.exec(it.before || ''), end = exponent && it.index > 1 ? it.all[it.index - 2] : null;
    if (end && is_number(end.text) && end.at + end.text.length === it.all[it.index - 1].at) {
        const value = exponent[1] ? end.text * 10 ** exponent[1] : Infinity;
        return 'a number has only digits' + (value < 2 ** 31 ? ': `' + end.text + it.before + '` is ' + value : ', and no exponent');
    }
    if (is_number(it.here) && is_name(it.after) && (it.before === 'int' || it.before === 'stack')) return 'a name begins with a letter';
    return null;
}

function equals(it) {
    const target = it.before === ']' ? 'the element' : '`' + it.before + '`';
    const declares = it.before === ']' && it.text(-5) === 'int' && it.text(-3) === '[';
    if (it.here !== '=') return null;
    if (it.before === '=') return 'equality is one `=`';
    if (it.list[1] === 'procedure') return 'a parameter has no value of its own: a call lends it a variable';
    if (it.after === '=' && is_name(it.before) && it.earlier !== 'int' && it.earlier !== 'stack')
        return 'a test alone is not a statement, and equality is one `=`: change `' + it.before + '` by `+=`, `-=` or `^=`';
    if (it.before === '<' || it.before === '>') return 'write `' + it.before + '=` without a space';
    if (is_name(it.before) && it.earlier === 'stack') return 'a stack starts empty: write `stack ' + it.before + '`';
    if (is_name(it.before) && it.earlier === 'int')
        return 'a number starts at 0: write `int ' + it.before + '`, and then `' + it.before + ' += ..`';
    if (declares || it.before === ']' && it.text(-4) === 'int') return 'the elements of an array start at 0: give them their values with `+=`';
    if (is_name(it.before) && ['+', '-', '^'].includes(it.after)) return 'the sign comes first: write `' + it.before + ' ' + it.after + '= ..`';
    if (is_name(it.before) || it.before === ']') return '`=` would forget the old value: change ' + target + ' by `+=`, `-=` or `^=`';
    return null;
}

function operator(it) {
    if (/^[-*/%&|+^]$/.test(it.here || '') && it.after === '=')
        return /^[-+^]$/.test(it.here) ? 'write `' + it.here + '=` without a space' : 'only `+=`, `-=` and `^=` can be taken back';
    const is_doubled = it.here === '*' && it.after === '*' && it.text(2) === '=' || ['<', '>'].includes(it.here) && it.after === it.here + '=';
    if (is_doubled || it.here === '&&' && it.after === '=' || it.here === '||' && it.after === '=') return 'only `+=`, `-=` and `^=` can be taken back';
    if ((it.here === '+' || it.here === '-') && it.after === it.here) return 'write `' + (changed(it) || 'x') + ' ' + it.here + '= 1`';
    if (it.here === '<' && it.after === '-' && it.text(2) === '>' || it.here === '<' && it.after === '>' && is_name(it.before))
        return 'a swap is written `<=>`' + (it.after === '>' ? ', and different `!=`' : '');
    if (it.here === '-' && it.after === '>') return 'there is no `->`: `x += y` adds `y` to `x`, and `x <=> y` swaps them';
    if (it.here === '<=>' && it.earlier === '<=>') return '`<=>` swaps two variables: write a statement for each swap';
    if (it.here === '<=>' && !is_name(it.before) && it.before !== ']' && !is_number(it.before)) return 'before `<=>` the name of a variable is needed';
    if (it.here === '<' && it.after === '-' && is_name(it.before)) return CHARACTERS['\u2190'];
    if ((it.here === '<' || it.here === '>') && it.before === it.here) return SHIFT;
    if (it.here === '*' && it.before === '*') return 'there are no powers: multiply';
    if (it.here === '+' && (is_change(it.before) || /^[-+*/%(=<>]$/.test(it.before || ''))) return 'a number has no sign `+`: leave it out';
    if (it.here === '>' && it.before === '<') return 'write `!=` for different';
    if (it.before === '<=>' && is_number(it.here) || is_number(it.here) && it.after === '<=>')
        return '`<=>` swaps two variables, and `' + it.here + '` is none: put it into a variable or a local first';
    if (it.here === '<=>' && it.before === ']' || it.before === '<=>' && it.here && !is_name(it.here) || it.here === '[' && it.earlier === '<=>')
        return '`<=>` swaps variables, not elements: use two locals, as examples/sort does';
    return null;
}

// What a sign such as `++` at the place is to change: the name or the element around it, or null.
function changed(it) {
    const begin = it.before === ']' ? opening(it.all, it.index - 1) : -1, last = it.all[it.index - 1];
    if (begin > 0) return it.code.slice(it.all[begin - 1].at, last.at + 1);
    return is_name(it.before) ? it.before : is_name(it.text(2)) ? it.text(2) : null;
}

// The place of the bracket that the one at a place closes.
function opening(all, from) {
    for (let depth = 0, k = from; k >= 0; k--) {
        depth += all[k].text === ']' ? 1 : all[k].text === '[' ? -1 : 0;
        if (depth === 0) return k;
    }
    return -1;
}

function declaration(it) {
    const in_head = it.list[1] === 'procedure', is_test = ['if', 'from', 'until', 'fi'].includes(it.before === '(' ? it.earlier : it.before);
    if (it.here === 'int' && is_test) return 'a test declares nothing: declare `' + (it.after || '..') + '` in front of it, or as a `local`';
    if (it.here === '[' && it.before === 'int' && it.after === ']' && is_name(it.text(2)))
        return in_head ? 'the brackets come after the name: `int ' + it.text(2) + '[]`' : 'the length comes after the name: `int ' + it.text(2) + '[10]`';
    if (it.here === '[' && is_name(it.before) && it.earlier === 'stack') return 'a stack has no length: write `stack ' + it.before + '`';
    if (it.here === ',' && is_name(it.before) && it.earlier === 'int' && ['int', 'stack'].includes(it.after))
        return 'declarations follow one another without `,`';
    if (is_name(it.before) && is_name(it.earlier) && ['int', 'stack'].includes(it.text(-3)) && it.text(-4) !== 'local' && it.text(-4) !== 'delocal')
        return 'each name needs its own kind: `' + [it.text(-3), it.earlier, it.text(-3), it.before].join(' ') + '`';
    if (is_name(it.before) && ['int', 'stack'].includes(it.earlier) && it.text(-3) === 'delocal')
        return 'the value at its end is missing: `delocal ' + it.earlier + ' ' + it.before + ' = ' + (it.earlier === 'stack' ? 'nil' : '..') + '`';
    if (it.here === 'main' || it.before === 'main' && it.earlier === 'procedure') return 'a whole program has `procedure main()`, with the parentheses';
    if (it.here === 'nil' && wants_value(it.before)) return '`nil` is no value: a local stack begins and ends with it';
    if (it.here === 'call' && it.before === 'un') return '`uncall` is one word';
    if (it.here === 'int' && it.before === '(' && it.earlier === 'main') return '`main` has no parameters: its declarations follow `main()`';
    const is_sized = it.here === '[' && is_number(it.after) && it.text(2) === ']' && is_name(it.text(3));
    if (it.here === '[' && it.before === 'int') return 'the length comes after the name: `int ' + (is_sized ? it.text(3) + '[' + it.after : 'a[10') + ']`';
    if (it.here === '[' && it.before === 'stack') return 'a stack has no length: write `stack ' + (is_sized ? it.text(3) : 's') + '`';
    if (it.here === ',' && is_name(it.before) && it.earlier === 'int')
        return 'each name needs its own kind: `int ' + it.before + ' int ' + (it.after || '..') + '`';
    if (KEYWORDS.has(it.here) && ['int', 'stack', 'procedure', 'call', 'uncall'].includes(it.before))
        return '`' + it.here + '` is a word of the language: a name is needed here';
    if (it.before === 'local' || it.before === 'delocal') return 'its kind is missing: `' + it.before + ' int ' + (it.here || '..') + '`';
    if (it.here === '[' && is_name(it.before) && it.text(-3) === 'local') return 'there are no local arrays: use a parameter, or a local stack';
    if (is_name(it.before) && it.earlier === 'int' && it.text(-3) === 'local') return 'a local begins with a value: `local int ' + it.before + ' = 0`';
    if (is_name(it.before) && it.earlier === 'stack' && it.text(-3) === 'local') return 'a local stack begins empty: `local stack ' + it.before + ' = nil`';
    if (it.before === '=' && it.text(-3) === 'stack' && it.text(-4) === 'local')
        return '`nil` is needed, because a local stack begins empty: `local stack ' + it.earlier + ' = nil`';
    if (it.before === '=' && it.text(-3) === 'stack' && it.text(-4) === 'delocal')
        return '`nil` is needed, because a local stack ends empty: `delocal stack ' + it.earlier + ' = nil`';
    if (it.before === '[' && is_name(it.here) && it.text(-3) === 'int')
        return 'the length of an array is a number written in digits, as in `int ' + it.earlier + '[10]`';
    if (it.before === '[' && it.here === ']' && it.text(-3) === 'int') return 'an array needs its length: `int ' + it.earlier + '[10]`';
    if (it.here === 'int' || it.here === 'stack') return 'declarations come first in a cell, before its statements and procedures';
    return null;
}

function stacks(it) {
    if ((it.here === 'push' || it.here === 'pop') && wants_value(it.before))
        return 'after `' + it.before + '` a value is needed, and `' + it.here + '` is a statement: ' + USES[it.here];
    if (own(USES, it.before) && it.here !== '(') return 'parentheses are missing: ' + USES[it.before];
    return it.here === ')' && ['push', 'pop'].includes(it.list[0]) ? 'two names are needed here: ' + USES[it.list[0]] : null;
}

// In the head of a procedure.
function head(it) {
    const is_first = it.before === '(' || it.before === ',', name = it.after === '[' && it.text(2) === ']' ? it.text(3) : it.after;
    if (it.here === ')' && it.before === ',') return 'after `,` a parameter is needed';
    if ((it.here === 'int' || it.here === 'stack') && !is_first) return 'a `,` is missing before this parameter';
    if ((it.here === '&' || it.here === '*') && it.before === 'int')
        return 'leave out `' + it.here + '`: a procedure works on the variables that a call lends it';
    if (is_first && is_name(it.here) && is_name(name))
        return '`' + it.here + '` is not a kind: write `int ' + name + (it.after === '[' || it.here === 'array' ? '[]`' : '`');
    return null;
}

// Among the names of a call.
function lent(it) {
    const is_first = it.before === '(' || it.before === ',';
    if (it.here === undefined && is_name(it.before)) return null;      // the parenthesis is open
    if (is_name(it.here) && is_name(it.before)) return 'a `,` is missing between `' + it.before + '` and `' + it.here + '`';
    if (it.here === '[' && it.after === ']') return 'an array is lent by its name alone: write `' + it.before + '`';
    if (it.here === 'int' || it.here === 'stack') return 'a call names its variables without their kinds';
    if (is_first && (it.here === ',' || it.here === ')' || it.here === undefined)) return 'the name of a variable is missing here';
    return 'only names of variables can be used here: put the value into a variable or a local first';
}

function parameters(it) {
    const [called, word] = it.list, is_first = it.before === '(' || it.before === ',', said = word === 'procedure' ? head(it) : null;
    if (said) return said;
    if (word === 'procedure' && is_first && is_name(it.here))
        return 'each parameter needs its kind: `int ' + it.here + '`, `int ' + it.here + '[]` or `stack ' + it.here + '`';
    if (it.before === '[' && it.text(-3) === 'int' && ['(', ','].includes(it.text(-4))) return 'a parameter has no length: `int ' + it.earlier + '[]`';
    if (['call', 'uncall'].includes(it.here) && wants_value(it.before))
        return 'after `' + it.before + '` a value is needed, and a procedure returns none: `' + it.here + '` changes the variables that are lent to it';
    if (called === 'push' || called === 'pop' || word === 'call' || word === 'uncall') return lent(it);
    if (called === 'empty' || called === 'top') return 'the name of a stack is needed here';
    if (['call', 'uncall'].includes(it.before)) return 'after `' + it.before + '` the name of a procedure is needed';
    if (['call', 'uncall', 'procedure'].includes(it.earlier) && is_name(it.before) && it.here !== '(')
        return 'write `' + it.earlier + ' ' + it.before + '(..)`, with the names in parentheses';
    if (it.here !== '(' || !is_name(it.before)) return null;
    if (own(CALLED, it.before)) return CALLED[it.before];
    if (it.earlier === 'int' && is_number(it.after)) return 'the length of an array is in brackets: `int ' + it.before + '[' + it.after + ']`';
    if (wants_value(it.earlier)) {
        const element = it.text(2) === ')' ? ', and an element of an array is `' + it.before + '[' + it.after + ']`' : '';
        return 'a procedure returns no value: `call ' + it.before + '(..)` changes the variables that are lent to it' + element;
    }
    return 'a procedure is called by `call ' + it.before + '(..)`';
}

function missing(it) {
    const ends = ['fi', 'until'], tested = ends.includes(it.before) ? it.before : is_name(it.before) && ends.includes(it.earlier) ? it.earlier : null;
    const unclosed = it.opened && 'the `' + it.inner + '` of line ' + line(it.code, it.opened.at) + ' has no ' + CLOSER[it.inner];
    if (it.here === ')' && it.inner !== '(' && it.inner !== '[') return 'this `)` closes nothing';
    if (it.here === ']' && it.inner !== '[') return 'this `]` closes nothing';
    if (tested && tested === it.before) return 'after `' + tested + '` its test is missing';
    if (tested && (is_change(it.here) || it.here === '<=>')) return 'after `' + tested + '` its test is missing: `' + it.before + '` was read as that test';
    if (['fi', 'else'].includes(it.here) && it.inner !== 'if') return '`' + it.here + '` belongs to an `if`, and none is open here';
    if (['until', 'loop', 'do'].includes(it.here) && it.inner !== 'from') return '`' + it.here + '` belongs to a `from`, and none is open here';
    if (it.here === 'delocal' && it.inner !== 'local') return '`delocal` closes a `local`, and none is open here';
    if (['then', 'else', 'loop', 'do'].includes(it.before)) return 'after `' + it.before + '` a statement is needed; `skip` is one that does nothing';
    if (it.here === 'to' && it.inner === 'from') return 'a loop ends with a test, as in `from i = 0 loop i += 1 until i = 10`';
    const is_begun = KEYWORDS.has(it.here) || is_change(it.here) || it.here === '<=>';
    if (it.opened && (it.here === undefined || is_begun && (it.inner === '(' || it.inner === '['))) return unclosed;
    return null;
}

// What is needed after the test of an `if` or a `from` that is open, where none of it has come yet.
function after_test(it) {
    const wanted = it.inner === 'if' ? ['then'] : it.inner === 'from' ? ['do', 'loop'] : [], begun = it.opened ? it.all.indexOf(it.opened) + 1 : it.index;
    const has_begun = it.all.slice(begun, it.index).some(function (one) { return wanted.includes(one.text); });
    return has_begun || begun === it.index ? null : wanted.map(function (one) { return '`' + one + '`'; }).join(' or ') || null;
}

function lists(it) {
    if (it.here === '[' && it.before === ']') return 'an array has one index';
    if (it.here === ']' && it.before === '[') return 'the index is missing';
    if (it.here !== ',' || it.inner === '(' || it.inner === '[') return null;
    if (is_number(it.before) || it.before === ')') return 'statements follow one another without `,`';
    return is_name(it.before) || it.before === ']' ? 'a statement changes one variable: write a statement for each' : null;
}

function test(it) {
    const wanted = after_test(it), is_value = wants_value(it.before);
    if (wanted === null || is_value) return null;
    if (is_change(it.here)) return 'a test changes nothing: compare by `=`, `!=`, `<` and the like';
    if (is_name(it.here)) return 'the test ends here, so ' + wanted + ' is needed here, or an operator is missing';
    return KEYWORDS.has(it.here) ? 'the test ends here, so ' + wanted + ' is needed here' : null;
}

// Whether the two tokens before the place are on one line.
function is_on_one_line(it) { return !it.code.slice(it.all[it.index - 2].at, it.all[it.index - 1].at).includes('\n'); }

function statement(it) {
    if (it.before === ')' && it.all.slice(0, it.index).some(function (one) { return one.text === 'procedure'; }))
        return 'a procedure has at least one statement after its head';
    if (own(CALLED, it.before)) return CALLED[it.before];
    if (it.here === undefined && is_name(it.before) && (is_name(it.earlier) || is_number(it.earlier)) && is_on_one_line(it))
        return 'between `' + it.earlier + '` and `' + it.before + '` an operator is missing, or a statement begins there: `' + it.before + ' += ..`';
    if (it.here === undefined && is_name(it.before))
        return 'a name alone is not a statement: `' + it.before + ' += ..` changes it, and a cell shows what it mentions';
    if (is_change(it.before) || /^(&&|\|\||!=|<=|>=|[-+*/%^&|<>=])$/.test(it.before || '')) return 'after `' + it.before + '` a value is needed';
    if (is_change(it.here) && !is_name(it.before) && it.before !== ']') return 'before `' + it.here + '` the name of a variable is needed';
    if (it.before === '<=>') return 'after `<=>` the name of a variable is needed';
    if (is_name(it.before)) return 'after `' + it.before + '` an operator is missing: a statement goes on with `+=`, `-=`, `^=` or `<=>`';
    if (/^[0-9(]/.test(it.here || '')) return 'a value alone is not a statement: a variable is changed by `+=`, `-=` or `^=`';
    return null;
}

const RULES = [foreign, number, equals, operator, stacks, parameters, declaration, lists, missing, test, statement];

// What is meant where something else is expected, at a place counted as an editor does.
function expected(code, at, earlier) {
    const it = look(code, at, earlier);
    for (const rule of RULES) {
        const said = rule(it);
        if (said) return said;
    }
    return null;
}

// What is meant by a character that means nothing.
function character(code, at) {
    const one = String.fromCodePoint(code.codePointAt(at) || 0), last = code.slice(at - 1, at), it = look(code, at);
    const is_line_begin = /(^|\n)[ \t]*$/.test(code.slice(0, at)), is_line_end = /^.[ \t\r]*(\n|$)/u.test(code.slice(at));
    if (one === ':') return it.list[1] === 'procedure' ? 'the kind comes before the name: `int ' + (it.before || 'x') + '`' : colon(code, at);
    if (one === ';' && it.inner === '(') return 'names in parentheses are separated by `,`';
    if (one === '?' && (is_line_begin || is_line_end)) return 'there is no `?`: a cell shows the names that it mentions';
    if (one === '!' && is_line_begin) return 'commands of a shell can\'t be given here';
    if (one === '{' && it.before === '=') return 'there are no lists: the elements of an array start at 0, and `+=` gives them their values';
    if (one === '.' && is_name(tokens(code.slice(0, at)).map(function (it) { return it.text; }).pop()))
        return 'there is no `.` after a name: a stack is used by `push(x, s)`, `pop(x, s)`, `top(s)` and `empty(s)`';
    if (one === '.' && !/[0-9]/.test(last)) return 'numbers are whole: there is no point';
    if (one === '_' && /[0-9]/.test(last)) return 'a number has only digits: leave out the `_`';
    return own(CHARACTERS, one) || (/\p{L}/u.test(one) ? 'names have the letters a to z and A to Z, digits and `_`' : null);
}

function colon(code, at) {
    const words = tokens(code.slice(code.lastIndexOf('\n', at) + 1, at)).map(function (it) { return it.text; });
    const head = words.reverse().find(function (it) { return own(COLONS, it); });
    if (code[at + 1] === '=') return 'there is no `:=`: a variable is changed by `+=`, `-=` or `^=`';
    return head ? COLONS[head] : 'there is no `:`: leave it out';
}

// ---- of 34, 40 to 43 and 45, which name a name: the cause that the text shows
function other_end(it) {
    const at = it.before === 'delocal' ? it.index - 1 : it.index - 2, names = [it.all[at + 1], it.all[at + 2]].map(function (one) { return one && one.text; });
    const open = open_before(it.all, Math.max(at, 0)).filter(function (one) { return one.text === 'local'; }), last = open[open.length - 1], from = it.all.indexOf(last);
    if (!last || !it.all[from + 2]) return null;
    const kind = it.all[from + 1].text, name = it.all[from + 2].text, said = '`' + name + '` of line ' + line(it.code, last.at);
    const is_crossed = open.some(function (one) { return it.all[it.all.indexOf(one) + 2].text === names[1]; });
    if (name !== names[1] && is_crossed) return 'the local ' + said + ' began later, so it ends first: write its `delocal` before that of `' + names[1] + '`';
    return 'this ends the local ' + said + ': write `delocal ' + kind + ' ' + name + ' = ..`';
}

function declared(it) {
    const name = '`' + it.here + '`', begun = it.all.slice(0, Math.max(it.index - 1, 0)).map(function (one) { return one.text; });
    if (it.before === 'procedure') return 'the procedure ' + name + ' is defined twice in this cell: rename one of them, or leave it out';
    if (it.list[1] === 'procedure') return 'two parameters are named ' + name + ': rename one of them';
    const here = begun.slice(begun.lastIndexOf('procedure') + 1);
    if (here.some(function (one, k) { return one === it.here && ['int', 'stack'].includes(here[k - 1]); }))
        return name + ' is declared twice in this cell: leave one of them out';
    return name + ' is already declared: choose another name, or undo the cell that declared it; to run all cells again, go to node 0 first';
}

function unknown(it) {
    const small = it.here.toLowerCase(), is_outside = !it.all.slice(0, it.index).some(function (one) { return one.text === 'procedure'; });
    const others = it.all.map(function (one) { return one.text; }).filter(function (one) { return one !== it.here && one.toLowerCase() === small; });
    const other = others[0] || small;
    if (small === 'true' || small === 'false') return '`' + it.here + '` is not a word of Janus: ' + FOREIGN[small];
    if (it.before === 'call' || it.before === 'uncall') return 'there is no procedure `' + it.here + '`: define it, in this cell or in an earlier one';
    if (other !== it.here) return 'no such name is in scope: `' + it.here + '` is not `' + other + '`, because upper and lower case differ; or declare it';
    return is_outside ? 'no such name is in scope: declare it, as in `int ' + it.here + '`' : null;
}

// What the text itself declares a name as, if it does.
function kind_of(it) {
    const texts = it.all.map(function (one) { return one.text; }), is = function (kind, k) { return texts[k] === it.here && texts[k - 1] === kind; };
    if (texts.some(function (one, k) { return is('stack', k); })) return 'stack';
    return texts.some(function (one, k) { return is('int', k) && texts[k + 1] === '['; }) ? 'array' : null;
}

function other_kind(it) {
    const name = '`' + it.here + '`', [called, word] = it.list;
    if (it.after === '[') return name + ' is not an array, so it has no elements';
    if (called === 'push' || called === 'pop')
        return '`' + called + '(x, s)` names a variable first and a stack second, and ' + name + ' is not a ' + (it.before === '(' ? 'number' : 'stack');
    if (called === 'top' || called === 'empty') return '`' + called + '` needs a stack, and ' + name + ' is not one';
    if (word === 'call' || word === 'uncall') return name + ' is of a different kind (number, array or stack) from its parameter';
    if (it.before === '<=>' || it.after === '<=>') return '`<=>` swaps two numbers, and ' + name + ' is not one';
    const kind = kind_of(it), is_changed = is_change(it.after), pushed = 'a stack is changed by `push` and `pop`';
    const stack = is_changed ? pushed : 'the newest number of a stack is `top(' + it.here + ')`';
    const either = 'an element of an array has an index in brackets, and ' + (is_changed ? pushed : 'the newest number of a stack is read by `top`');
    const array = 'an element of an array is `' + it.here + '[0]`';
    const said = kind === 'stack' ? ['a stack', stack] : kind === 'array' ? ['an array', array] : ['an array or a stack', either];
    return name + ' is ' + said[0] + ', and a number is needed here: ' + said[1];
}

// The place of the bracket that closes the one at a place.
function closed(all, from) {
    for (let depth = 0, k = from; k < all.length; k++) {
        depth += all[k].text === '[' ? 1 : all[k].text === ']' ? -1 : 0;
        if (depth === 0) return k;
    }
    return all.length;
}

function itself(it) {
    const name = '`' + it.here + '`', text = function (k) { return it.all[k] && it.all[k].text; };
    for (let k = it.index - 1; k >= 0; k--) {
        if (text(k) === '[' && text(k - 1) === it.here && is_change(text(closed(it.all, k) + 1)))
            return 'the index names ' + name + ', whose element is changed, so this could not be undone: copy the index into a local first';
        if (text(k) === '=' && text(k - 1) === it.here && ['local', 'delocal'].includes(text(k - 3)))
            return 'the value of the local ' + name + ' can\'t name ' + name + ' itself: it has to be known without it';
        if (is_change(text(k)))
            return 'the right side names ' + name + ', which is changed, so this could not be undone: use a second variable';
    }
    return null;
}

// How many names are in the parentheses that open at a token, or null where they don't close.
function names_in(all, from) {
    const texts = all.map(function (one) { return one.text; }), end = texts.indexOf(')', from);
    return end < 0 ? null : texts.slice(from + 1, end).filter(is_name).length;
}

// How many parameters a procedure has by its head in one of these texts, or null.
function parameters_of(name, texts) {
    for (const all of texts.map(tokens)) {
        const head = all.findIndex(function (one, k) { return one.text === name && k > 0 && all[k - 1].text === 'procedure'; });
        if (head >= 0) return names_in(all, head + 1);
    }
    return null;
}

// How many names are given at a call, and how many parameters the procedure has, if the text or an earlier cell shows it.
function arity(it, earlier) {
    const name = '`' + it.here + '`', given = names_in(it.all, it.index + 1), wanted = parameters_of(it.here, [it.code].concat(earlier));
    if (given === null) return null;
    const names = given + (given === 1 ? ' name is' : ' names are');
    if (wanted === null) return 'the procedure ' + name + ' has a different number of parameters: ' + names + ' given here';
    return 'the procedure ' + name + ' has ' + (wanted === 1 ? '1 parameter' : wanted + ' parameters') + ', and ' + names + ' given here';
}

const NAMES = {34: other_end, 40: declared, 41: unknown, 42: other_kind, 43: itself, 45: arity};

// The sentence for a refusal's number, or null. The page shows plain text. `earlier` are the texts of cells before this one.
function meant(number_told, code, at, earlier = []) {
    const of_name = own(NAMES, number_told), it = of_name && look(code, at);
    const said = number_told === '31' ? expected(code, at, earlier) : number_told === '30' ? character(code, at) : it && it.here ? of_name(it, earlier) : null;
    return said && said.replace(/`([^`]*)`/g, '\'$1\'');
}

// The place of the word that the sentence is about, {from, to}, where the kernel's place is behind it, or null.
function word(number_told, code, at, earlier = []) {
    const it = number_told === '31' ? look(code, at, earlier) : null, said = it && foreign(it), one = it && it.all[it.index + foreign_word(it)];
    return said && said.includes(' is not a word of Janus') && one ? {from: one.at, to: one.at + one.text.length} : null;
}

return {meant: meant, word: word};
});
