// Highlighting and indentation of Janus, as a mode of CodeMirror 5.
define([], function () {
'use strict';

const WORDS = ('call delocal do else empty fi from if int local loop main nil pop procedure push skip stack then top ' +
    'uncall until').split(' ');
const IS_WORD = new Set(WORDS);
const LARGEST = 2147483647;
const OPERATOR = /^(\+=|-=|\^=|&&|\|\||!=|<=>|<=|>=|[-+*\/%^&|=<>])/;

// Keeps which constructs are open, which says how far the next line is indented.
function follow(state, word) {
    if (word === 'if' || word === 'from') state.open.push(word);
    else if (word === 'fi' || word === 'until') state.open.pop();
    else if (word === 'procedure') state.open = [word];
}

function word(stream, state, behind) {
    const text = stream.current();
    if (!IS_WORD.has(text)) return behind ? 'def' : 'variable';
    if (text === 'call' || text === 'uncall' || text === 'procedure') state.behind = text;
    follow(state, text);
    return 'keyword';
}

function token(stream, state) {
    if (stream.eatSpace()) return null;
    const behind = state.behind;
    state.behind = null;
    if (stream.match('//')) {
        stream.skipToEnd();
        state.behind = behind;
        return 'comment';
    }
    if (stream.match(/^[A-Za-z][A-Za-z0-9_]*/)) return word(stream, state, behind);
    if (stream.match(/^[0-9]+/)) return Number(stream.current()) > LARGEST ? 'error' : 'number';
    if (stream.match(OPERATOR)) return 'operator';
    if (stream.match(/^[()\[\],]/)) return null;
    stream.next();
    return 'error';
}

function mode(config) {
    return {
        startState: function () { return {behind: null, open: []}; },
        copyState: function (state) { return {behind: state.behind, open: state.open.slice()}; },
        token: token,
        indent: function (state, text) {
            const closes = /^(fi|else|until|do|loop)\b/.test(text) && state.open.length > 0;
            const depth = state.open.length - (closes ? 1 : 0);
            return /^procedure\b/.test(text) ? 0 : depth * (config.indentUnit || 4);
        },
        electricInput: /^\s*(fi|else|until|loop|do|procedure)$/,
        lineComment: '//',
    };
}

return {WORDS: WORDS, mode: mode};
});
