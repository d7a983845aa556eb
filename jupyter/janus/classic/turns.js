// Run All, Run All Below and the like: cells run one behind the other, and the first that fails stops the rest, but for cells
// that are tagged to fail.
//
// The notebook sends all cells at once and leaves it to the kernel to stop; this kernel runs what it is sent.
define(['jquery', 'base/js/namespace', 'base/js/events', '../page/texts.js'], function ($, Jupyter, events, texts) {
'use strict';

const ENDS = 'kernel_restarting.Kernel kernel_killed.Kernel kernel_dead.Kernel kernel_disconnected.Kernel';

// What came of the cell: its reply's content, with another status than ok where it failed or the kernel ended. A cell without text sends nothing.
function run(cell) {
    return new Promise(function (resolve) {
        const finish = function (content) {
            events.off('shell_reply.Kernel', replied);
            events.off(ENDS, ended);
            resolve(content);
        };
        const replied = function (event, data) {
            if (data.reply.parent_header.msg_id === cell.last_msg_id) finish(data.reply.content);
        };
        const ended = function () { finish({status: 'ended'}); };
        events.on('shell_reply.Kernel', replied);
        events.on(ENDS, ended);
        cell.execute();
        if (cell.cell_type !== 'code' || cell.get_text().trim() === '' || !cell.last_msg_id) finish({status: 'ok'});
    });
}

class Turns {
    // `is_on` says whether the page's kernel is one of Janus, `tell` is called with what is to be said.
    constructor(is_on, tell) {
        this.is_on = is_on;
        this.tell = tell;
        this.waiting = [];              // cells that are to run, each with the prompt that it had
        this.running = false;
        this.take_over();
    }

    take_over() {
        const notebook = Jupyter.notebook, kind = Object.getPrototypeOf(notebook), old = kind.execute_cells;       // the notebook itself is sealed
        kind.execute_cells = indices => {
            if (!this.is_on() || indices.length < 2) return old.call(notebook, indices);
            this.add(indices.map(function (it) { return notebook.get_cell(it); }));
            notebook.select(indices[indices.length - 1]);
            notebook.command_mode();
            notebook.set_dirty(true);
            return undefined;
        };
    }

    add(cells) {
        for (const cell of cells) {
            const is_code = cell.cell_type === 'code' && cell.get_text().trim() !== '';
            this.waiting.push({cell: cell, is_code: is_code, prompt: cell.input_prompt_number});
            if (is_code) cell.set_input_prompt('*');
        }
        if (!this.running) this.go_on();
    }

    async go_on() {
        this.running = true;
        while (this.waiting.length) {
            const cell = this.waiting.shift().cell;
            if (Jupyter.notebook.find_cell_index(cell) === null) continue;           // it was deleted meanwhile
            const came = await run(cell);
            const is_meant = came.status === 'error' && ((cell.metadata || {}).tags || []).indexOf('raises-exception') >= 0;
            if (came.status !== 'ok' && !is_meant) this.stop(came);
        }
        this.running = false;
    }

    stop(came) {
        const left = this.waiting.splice(0).filter(function (it) { return it.is_code; });
        left.forEach(function (it) { it.cell.set_input_prompt(it.prompt === '*' ? undefined : it.prompt); });
        if (left.length === 0) return;
        const why = came.status === 'ended' ? 'because the kernel ended' : 'at cell In [' + came.execution_count + '], which failed';
        this.tell('Stopped ' + why + ': ' + texts.count(left.length, 'cell') + ' after it did not run.', 'warn');
    }
}

return Turns;
});
