// What the kernel's lines mean, in words, with what to do.
define(['./refusals.js', './slips.js', './procedures.js', './texts.js'], function (refusals, slips, procedures, texts) {
'use strict';

const REFUSED = /^refused (\d+) (\w+)(?: at (\d+)\.\.(\d+))?$/;
const FAULT = /^fault (\d+) (\w+) after (\d+)$/, INTERRUPTED = /^interrupted after (\d+)$/;
const MOST_NAMED = 3;                   // so many cells of a move are named

function capital(text) { return text.slice(0, 1).toUpperCase() + text.slice(1); }

function advice(number) { return refusals[number] ? refusals[number].advice : 'the guide says more about it'; }

// Of a fault, whose line doesn't tell which way the code ran.
function both_ways(number, may_run_backward) {
    const backward = may_run_backward && refusals[number] && refusals[number].backward;
    return advice(number) + (backward ? '. Run backward by \'uncall\': ' + backward : '');
}

// The place of octets in a text, as an editor counts it and as people do. The kernel counts octets from the text's begin.
function place(code, from_octet, to_octet) {
    const octets = new TextEncoder().encode(code);
    const before = function (octet) { return new TextDecoder().decode(octets.subarray(0, octet)); };
    const lines = before(from_octet).split('\n'), begin = before(from_octet).length;
    let from = begin, to = before(to_octet).length;
    if (from === to) {                                                  // at the text's end: its last character that is no space
        to = code.slice(0, to).trimEnd().length || to;
        from = to - (Array.from(code.slice(Math.max(0, to - 2), to)).pop() || '').length;
    }
    return {from: from, to: to, begin: begin, line: lines.length, column: Array.from(lines[lines.length - 1]).length + 1};
}

// The same of a word, {from, to}, or null.
function of_word(code, word) {
    if (word === null) return null;
    const lines = code.slice(0, word.from).split('\n'), column = Array.from(lines[lines.length - 1]).length + 1;
    return {from: word.from, to: word.to, begin: word.from, line: lines.length, column: column};
}

// Of a statement that looks alone and belongs to a procedure.
function belongs(it, so) {
    return 'Line ' + it.line + ' belongs to the procedure \'' + it.name + '\', which goes on to the next procedure or to the end of the cell' + so +
        '. Put it before the procedures, or in a cell of its own.';
}

// What is to be said of a cell that ran, as an error is said, or null.
function ran(code) {
    const it = procedures.taken_in(code);
    return it && {text: belongs(it, ', so it did not run by itself'), place: null, kind: 'warn'};
}

// What is to be said too of a refusal at such a statement or behind it.
function belongs_at(code, at) {
    const it = procedures.taken_in(code);
    return it && it.at <= at ? ' ' + belongs(it, '') : '';
}

// What an error of a cell says: {text, place, kind}, where place is null where the line has none. `earlier` are the texts of cells before this one, and
// `is_all` says whether they are all.
function error(line, code, earlier = [], is_all = false) {
    const refused = REFUSED.exec(line), fault = FAULT.exec(line), interrupted = INTERRUPTED.exec(line);
    if (refused && refused[3] !== undefined) {
        const at = place(code, Number(refused[3]), Number(refused[4])), shown = of_word(code, slips.word(refused[1], code, at.begin, earlier)) || at;
        const where = 'Line ' + shown.line + ', column ' + shown.column + ': ';
        const words = slips.meant(refused[1], code, at.begin, earlier) || advice(refused[1]);
        return {text: where + words + ' (' + refused[1] + ' ' + refused[2] + '). Nothing has run.' + belongs_at(code, at.begin), place: shown};
    }
    if (refused) return {text: capital(advice(refused[1])) + ' (' + refused[1] + ' ' + refused[2] + '). Nothing was done.', place: null};
    const may_run_backward = !is_all || earlier.concat([code]).some(function (it) { return texts.names(it).has('uncall'); });
    if (fault) return {text: capital(both_ways(fault[1], may_run_backward)) + ' (' + fault[1] + ' ' + fault[2] + '), ' + taken_back(fault[3]), place: null};
    if (interrupted) return {text: 'Stopped ' + taken_back(interrupted[1]), place: null};
    return {text: line, place: null};
}

function taken_back(steps) { return 'after ' + texts.count(Number(steps), 'step') + '. What ran was taken back: everything is as it was before the cell.'; }

function move(asked) { return asked.op === 'undo' ? 'The undo' : asked.op === 'redo' ? 'The redo' : 'The way to node ' + asked.n; }

function waits(asked) {
    const it = asked.op === 'goto' ? 'the move' : 'the ' + asked.op;
    return move(asked) + ' is waiting for the running cell. The stop button ends that cell; ' + it + ' is then done.';
}

function way(answer) {
    const undone = texts.count(answer.undone, 'cell'), redone = texts.count(answer.redone, 'cell'), end = '; the kernel is at node ' + answer.node;
    if (answer.op === 'undo') return 'undid ' + undone + end;
    if (answer.op === 'redo') return 'redid ' + redone + end;
    return 'went to node ' + answer.node + ', ' + undone + ' up and ' + redone + ' down';
}

function refused_move(asked, answer) {
    const tail = ' (refused ' + answer.number + ' ' + answer.name + '). Nothing was done.';
    if (answer.number === 73) return 'There is no cell to ' + asked.op + tail;
    if (answer.number === 71) return 'There is no node ' + asked.n + tail;
    return move(asked) + ' was refused: ' + advice(answer.number) + tail;
}

// What came of a move that was asked for here: {text, kind}, an empty text where all of it was done.
function moved(asked, answer) {
    if (answer.status === 'refused') return {text: refused_move(asked, answer), kind: 'bad'};
    if (answer.end === 'memory') return {text: move(asked) + ' ended early: there was no memory for the next cell.', kind: 'bad'};
    if (answer.end === 'asked') return {text: move(asked) + ' was stopped between two cells: it ' + way(answer) + '.', kind: 'warn'};
    return {text: '', kind: ''};
}

// Which cells an undo or a redo of this page ran, told while the history is as before it; an empty text where that isn't known.
function which(answer, history) {
    const [many, from, did] = answer.op === 'undo' ? [answer.undone, history.position, 'Undid '] : [answer.redone, answer.node, 'Redid '];
    const nodes = Array.from({length: Math.min(many, MOST_NAMED)}, function (_, i) { return history.above(from, i); });
    if (answer.op === 'goto' || many === 0 || !history.fits(answer) || nodes.some(function (it) { return it <= 0; })) return '';
    const named = nodes.map(function (it) { return texts.node(it, history.label[it]); }), more = many - nodes.length;
    if (answer.op === 'redo') named.reverse();
    return did + (many > 1 ? texts.count(many, 'cell') + ': ' : '') + named.join('; ') + (more ? ', and ' + more + ' more' : '') + '.';
}

function other_cell(job, node) {
    const what = 'another frontend ran [' + job.count + '] ' + texts.first_line(job.code).slice(0, 40);
    if (job.failed) return what + ': ' + job.line;
    return node === null ? what : what + ': node ' + node;
}

return {
    error: error, ran: ran, place: place, move: move, waits: waits, way: way, moved: moved, which: which, refused_move: refused_move, other_cell: other_cell,
};
});
