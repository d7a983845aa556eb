// The code cells of a notebook or console of JupyterLab, for their marks.
define(['../marks.js'], function (Marks) {
'use strict';

const MOST_ASKED = 4096;                // so many of the newest messages are known with their cells

// A cell as marks.js asks for it. It lasts as long as its id: the widget may be another one after a move.
class Cell {
    constructor(id) {
        this.id = id;
        this.widget = null;
    }

    get input_prompt_number() { return this.widget.model.executionCount; }

    get_text() { return this.widget.model.sharedModel.getSource(); }
}

class Cells extends Marks {
    // `widgets` answers the widgets of the code cells.
    constructor(history, widgets) {
        super(history);
        this.widgets = widgets;
        this.by_id = new Map();
        this.asked = new Map();         // messages to ids of cells
    }

    // A request to run the cell goes out: the cell, where it is one of these.
    sent(message, id) {
        this.asked.set(message, id);
        if (this.asked.size > MOST_ASKED) this.asked.delete(this.asked.keys().next().value);
        const cell = this.cell(message);
        if (cell) this.began(cell);
        return cell;
    }

    cell(message) {
        const id = this.asked.get(message);
        return id === undefined ? undefined : this.cells().find(function (it) { return it.id === id; });
    }

    cells() { return this.widgets().map(widget => this.of(widget)); }

    of(widget) {
        const id = widget.model.id;
        let cell = this.by_id.get(id);
        if (!cell) this.by_id.set(id, cell = new Cell(id));
        cell.widget = widget;
        return cell;
    }

    element(cell) { return cell.widget.node; }
}

return Cells;
});
