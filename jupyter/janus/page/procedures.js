// Statements that a procedure's body takes in though they look as if they stood alone: the end of a line ends nothing, so the body goes on up to the
// next `procedure`. Where they look so is told by lines and indentation; no parser.
define([], function () {
'use strict';

const TOKEN = /\/\/[^\n]*|[A-Za-z][A-Za-z0-9_]*|[0-9]+|\+=|-=|\^=|<=>|\S/gu;
const BEGINS = new Set('if from local push pop call uncall skip'.split(' '));
const DEPTH = {if: 1, from: 1, local: 1, '(': 1, '[': 1, fi: -1, until: -1, delocal: -1, ')': -1, ']': -1};
const CHANGES = new Set(['+=', '-=', '^=', '<=>']);

// The tokens, each with its line, whether it is the line's first, how far it is indented, and whether an empty line stands above it.
function tokens(code) {
    const out = [];
    let begin = 0, line = 1, last = 1;
    for (const found of code.matchAll(TOKEN)) {
        for (let end = code.indexOf('\n', begin); end >= 0 && end < found.index; end = code.indexOf('\n', begin)) {
            begin = end + 1;
            line++;
        }
        const before = code.slice(begin, found.index), is_first = before.trim() === '';
        const is_apart = line > last + 1;
        if (!found[0].startsWith('//')) out.push({text: found[0], at: found.index, line: line, is_first: is_first, indent: before.length, is_apart: is_apart});
        last = line;
    }
    return out;
}

function is_name(it) { return it !== undefined && /^[A-Za-z]/.test(it.text); }

// The token behind an index in brackets, or the same where there is none.
function behind_index(all, from) {
    let next = from, open = 0;
    if (all[from] === undefined || all[from].text !== '[') return from;
    do open += DEPTH[all[next++].text] || 0; while (open > 0 && next < all.length);
    return next;
}

// Whether a statement begins at a token: with its word, or with a variable or an element that is changed.
function begins(all, index) {
    const next = all[behind_index(all, index + 1)];
    return BEGINS.has(all[index].text) || is_name(all[index]) && next !== undefined && CHANGES.has(next.text);
}

// Behind the parameters of the procedure at a token.
function body_of(all, index) {
    let next = index + 2;
    if (!all[next] || all[next].text !== '(') return next;
    while (next < all.length && all[next].text !== ')') next++;
    return next + 1;
}

// The first statement that looks alone in the body of the procedure at a token, or null.
function alone_in(all, index) {
    const head = all[index];
    let open = 0, is_inside = false;                                    // whether a statement of the body was met that doesn't look alone
    for (let i = body_of(all, index); i < all.length && all[i].text !== 'procedure'; i++) {
        const it = all[i], is_statement = open === 0 && begins(all, i), is_out = it.is_first && it.indent <= head.indent;
        if (is_statement && is_out && (is_inside === 'deeper' || is_inside && it.is_apart)) return it;
        if (is_statement && is_inside !== 'deeper') is_inside = is_out ? 'level' : 'deeper';
        open = Math.max(0, open + (DEPTH[it.text] || 0));
    }
    return null;
}

// The first statement of a cell that looks alone and belongs to a procedure: {at, line, name}, or null.
function taken_in(code) {
    const all = tokens(code);
    for (let i = 0; i + 1 < all.length; i++) {
        const it = all[i].text === 'procedure' && is_name(all[i + 1]) ? alone_in(all, i) : null;
        if (it) return {at: it.at, line: it.line, name: all[i + 1].text};
    }
    return null;
}

return {taken_in: taken_in};
});
