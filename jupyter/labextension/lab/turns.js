// Run All and the like: cells run one behind the other, and the first that fails stops the rest, but for cells that are tagged to fail.
//
// JupyterLab sends all cells at once and leaves it to the kernel to stop; this kernel runs what it is sent. All of Lab's ways to run a cell, those of
// consoles too, come to `CodeCell.execute`, so that is what is wrapped. Cells that are to run in one go are those that come in one turn of the event loop.
define(['../texts.js', '@jupyterlab/cells'], function (texts, cells) {
'use strict';

function wait_for(cell, waits) {
    if ('executionState' in cell.model) cell.model.executionState = waits ? 'running' : 'idle';
    if (cell.setPrompt) cell.setPrompt(waits ? '*' : String(cell.model.executionCount || ''));
}

function is_to_fail(cell) { return (cell.model.getMetadata('tags') || []).includes('raises-exception'); }

class Turns {
    // `tell` is called with what is to be said.
    constructor(tell) {
        this.tell = tell;
        this.batch = null;              // the cells that are to run in one go
    }

    // `run` runs the cell, and promises the reply.
    add(cell, run) {
        const batch = this.batch || this.begin(), first = batch.last === null;
        if (!first) wait_for(cell, true);
        const turn = first ? run() : batch.last.then(() => this.next(batch, cell, run));
        batch.last = turn.then(function (reply) {
            const failed = reply && reply.content.status !== 'ok' && !is_to_fail(cell);
            if (failed && !batch.why) batch.why = 'at cell In [' + reply.content.execution_count + '], which failed';
        }, function () { batch.why = batch.why || 'because the kernel ended'; });
        return turn;
    }

    begin() {
        const batch = this.batch = {last: null, why: '', left: 0};
        Promise.resolve().then(() => {
            this.batch = null;
            batch.last.then(() => this.ended(batch));
        });
        return batch;
    }

    // A cell that doesn't run answers what one without text does.
    next(batch, cell, run) {
        if (!batch.why && !cell.isDisposed) return run();
        if (cell.isDisposed) return undefined;
        if (cell.model.sharedModel.getSource().trim() !== '') batch.left++;
        wait_for(cell, false);
        return undefined;
    }

    ended(batch) {
        if (batch.left) this.tell('Stopped ' + batch.why + ': ' + texts.count(batch.left, 'cell') + ' after it did not run.', 'warn');
    }
}

// `turns_of` answers the turns of a session context whose kernel is one of Janus, else nothing.
function take_over(turns_of) {
    const old = cells.CodeCell.execute;
    cells.CodeCell.execute = function (cell, context, metadata) {
        const turns = turns_of(context), run = function () { return old.call(cells.CodeCell, cell, context, metadata); };
        return turns ? turns.add(cell, run) : run();
    };
}

return {Turns: Turns, take_over: take_over};
});
