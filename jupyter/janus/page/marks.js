// Cells of a notebook and the nodes that they became: marks on the outputs and prompts of those that are undone or of an earlier run.
//
// Each frontend makes its own kind of it, with the calls `cells`, `cell`, which answers the cell that sent a message, and `element`. A cell
// has `input_prompt_number` and `get_text`, as those of the classic notebook have.
define([], function () {
'use strict';

const CLASSES = {in: 'janus-in', undone: 'janus-undone', maybe: 'janus-maybe', gone: 'janus-gone'};
const COMPARED = 200;                   // so much of a cell's text is compared with what ran

class Marks {
    constructor(history) {
        this.history = history;
        this.node_of = new Map();       // a cell to its node
        this.gone = new Set();          // cells whose outputs are of an earlier run of the kernel
        this.open = new Set();          // cells that ran in this run, as which node isn't known
        this.signs = new Map();         // elements of cells to what stands on them
    }

    // Nothing of the cell is shown any more that an earlier run of it brought.
    began(cell) {
        this.node_of.delete(cell);
        this.gone.delete(cell);
        this.open.delete(cell);
    }

    ran(cell, node) {
        this.began(cell);
        if (node === null) this.open.add(cell); else this.node_of.set(cell, node);
    }

    restarted() {
        this.cells().forEach(cell => {
            const has = this.node_of.has(cell) || this.open.has(cell);
            this.began(cell);
            if (has) this.gone.add(cell);
        });
    }

    // What was concluded lately is no longer sure.
    forgot() {
        this.node_of.forEach((node, cell) => {
            if (this.history.label[node]) return;
            this.node_of.delete(cell);
            this.open.add(cell);
        });
    }

    // Cells with a prompt of before this page listened: `items` are the kernel's inputs, [session, count, text]. One whose text the kernel did
    // not run under that count is of an earlier run; as which node the others stand isn't known.
    judge(items) {
        const texts = new Map(items.map(function (it) { return [it[1], it[2]]; })), from = items.length ? items[0][1] : Infinity;
        this.cells().forEach(cell => {
            const count = cell.input_prompt_number;
            if (typeof count !== 'number' || this.node_of.has(cell) || this.gone.has(cell)) return;
            const same = texts.get(count) === cell.get_text() || count < from && from > 1 && from !== Infinity;
            if (same) this.open.add(cell); else this.gone.add(cell);
        });
    }

    sign(cell) {
        const node = this.node_of.get(cell);
        if (node !== undefined) {
            const is = this.history.in_effect(node);
            if (is) return {kind: 'in', text: 'node ' + node};
            return is === false ? {kind: 'undone', text: 'undone · node ' + node} : {kind: 'maybe', text: 'node ' + node + ' ?'};
        }
        if (this.gone.has(cell)) return {kind: 'gone', text: 'from an earlier run'};
        return this.open.has(cell) ? {kind: 'maybe', text: 'node ?'} : {kind: '', text: ''};
    }

    mark() { this.cells().forEach(cell => this.mark_cell(cell)); }

    mark_cell(cell) {
        const sign = this.sign(cell), element = this.element(cell);
        let shown = this.signs.get(element);
        if ((shown ? shown.textContent : '') === sign.text) return;
        if (!shown) {
            shown = document.createElement('span');
            shown.className = 'janus-sign';
            this.signs.set(element, shown);
        }
        shown.textContent = sign.text;
        element.append(shown);
        for (const kind of Object.keys(CLASSES)) element.classList.toggle(CLASSES[kind], kind === sign.kind);
    }

    // Nothing of it stands any more.
    wipe() {
        this.signs.forEach(function (shown, element) {
            shown.remove();
            element.classList.remove(...Object.values(CLASSES));
        });
        this.signs.clear();
    }

    // ---- what the next page needs
    pairs() { return Array.from(this.node_of, function (it) { return [it[0].input_prompt_number, it[1]]; }); }

    recall(pairs) {
        const node_of = new Map(pairs), label = this.history.label;
        this.cells().forEach(cell => {
            const count = cell.input_prompt_number, node = node_of.get(count), ran = node === undefined ? null : label[node];
            if (ran && ran.count === count && ran.code.slice(0, COMPARED) === cell.get_text().slice(0, COMPARED)) this.node_of.set(cell, node);
        });
    }
}

return Marks;
});
