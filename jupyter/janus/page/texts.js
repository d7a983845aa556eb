// Small texts that several parts of the page write.
define([], function () {
'use strict';

const ENTITIES = {'&': '&amp;', '<': '&lt;', '>': '&gt;', '"': '&quot;'};

// Text for HTML and SVG; octets that XML can't hold are spaces.
function escape(text) {
    return String(text).replace(/[&<>"]/g, function (it) { return ENTITIES[it]; }).replace(/[\u0000-\u0008\u000b\u000c\u000e-\u001f]/g, ' ');
}

function count(number, thing) { return number + ' ' + thing + (number === 1 ? '' : 's'); }

// The first line of a cell's text that isn't blank.
function first_line(code) {
    const line = code.split('\n').find(function (it) { return it.trim() !== ''; });
    return line ? line.trim() : '';
}

// The names and words in a cell's text, but for those in comments.
function names(code) { return new Set(code.replace(/\/\/.*/g, ' ').match(/[A-Za-z][A-Za-z0-9_]*/g)); }

function prompt(label) { return label && label.count ? 'In [' + label.count + ']' : ''; }

// A node with its prompt and the begin of its text, as far as they are known.
function node(number, label) {
    return 'node ' + number + (label && label.count ? ', ' + prompt(label) : '') + (label ? ' ' + first_line(label.code).slice(0, 40) : '');
}

return {escape: escape, count: count, first_line: first_line, names: names, prompt: prompt, node: node};
});
