// A session up to one of its cells as a file for janus-steps: the cells on the way to it, and it as the last. See docs/STEPS.md.
define(['./texts.js'], function (texts) {
'use strict';

const BEGIN = 'steps-of-', MADE = '//| Made by the command Step Through This Cell';
const UNKNOWN = 'Not all cells before this one are known here. janus-save-session FILE writes the whole session as a file for janus-steps-screen.';

// The nodes on the way to the cell: up to the one above the cell's own node where that is in effect, else to where the kernel is. Null where they aren't
// all known.
function way(history, node) {
    const path = history.path(), on = path.on.slice(1);
    if (!history.known || path.gaps.length) return null;
    return node !== undefined && history.in_effect(node) === true ? on.slice(0, on.indexOf(node)) : on;
}

// Whether the texts of these nodes are known, or can be had from the kernel by their prompts.
function are_named(history, nodes) { return nodes.every(function (it) { return history.label[it] && history.label[it].count; }); }

// What to ask the kernel's history for where some of the texts that are kept are cut, else null.
function asked(history, nodes) {
    if (!nodes.some(function (it) { return history.label[it].is_cut; })) return null;
    const start = history.label[nodes[0]].count, stop = history.label[nodes[nodes.length - 1]].count + 1;
    return {hist_access_type: 'range', session: 0, start: start, stop: stop, output: false, raw: true};
}

// The texts of nodes. `inputs` are what the kernel's history answers, [session, count, text]. Null where a text is missing.
function texts_of(history, nodes, inputs) {
    const whole = new Map(inputs.map(function (it) { return [it[1], it[2]]; }));
    const found = nodes.map(function (it) {
        const label = history.label[it];
        return label.is_cut ? whole.get(label.count) : label.code;
    });
    return found.every(function (it) { return it !== undefined; }) ? found : null;
}

// A line that would be read as a command or as text gets a character more, as by janus-to-cells.
function lines(code) {
    return code.split('\n').map(function (it) { return it.replace(/^\/\/\|/, '//||').replace(/^( *)%/, ' $1%'); });
}

function file(above, code) {
    return [MADE].concat(...above.concat([code]).map(function (it, i) { return (i ? ['%%'] : []).concat(lines(it)); }), ['']).join('\n');
}

// Whether a file of that content may be written over.
function is_ours(content) { return typeof content === 'string' && content.startsWith(MADE); }

// The name of the file beside a notebook.
function name(path) {
    const parts = path.split('/'), base = parts.pop().replace(/\.ipynb$/, '');
    return parts.concat([BEGIN + base + '.janus-cells']).join('/');
}

// As a word for a shell.
function quoted(word) { return /^[\w.\/-]+$/.test(word) ? word : "'" + word.replace(/'/g, "'\\''") + "'"; }

function written(path, above) {
    const own = path.split('/').pop();
    return 'Wrote ' + own + ', with ' + texts.count(above, 'cell') + ' before this one. In a terminal, in the folder of the notebook: janus-steps-screen ' +
        quoted(own);
}

return {way: way, are_named: are_named, asked: asked, texts_of: texts_of, file: file, is_ours: is_ours, name: name, written: written, UNKNOWN: UNKNOWN};
});
