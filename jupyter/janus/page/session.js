// A session: what a page knows of one kernel of Janus, and what follows from what the conversation tells and from what the user does.
//
// Each frontend makes its own kind of it, which has `marks`, `panel` and `places`, and the calls `is_running`, `notify`, `path`, the notebook's, and
// `contents`, by which files are read and written.
define(['./history.js', './conversation.js', './memory.js', './explain.js', './texts.js', './steps.js'],
function (History, Conversation, memory, explain, texts, steps) {
'use strict';

const FRAME = 8, PAUSE = 100, LONG_PAUSE = 300, KEEP = 1000, AT_LAST = 10000;       // ms
const MANY = 5;                         // behind so many changes that are drawn at once the pause is the long one
const INPUTS = 2000;                    // so many of the kernel's inputs are looked at as a page joins

class Session {
    constructor() {
        this.history = new History();
        this.conversation = new Conversation(this.history, this);
        this.timer = this.keep_timer = null;
        this.updated = 0;               // when the last update was
        this.pause = PAUSE;             // until the next, at least
        this.changes = 0;               // since the last
        this.is_warned = false;         // whether it was said that a limit is near
        this.inputs = null;             // the kernel's inputs, until the first state is known
        this.leaving = () => this.keep();
        window.addEventListener('pagehide', this.leaving);              // what was learnt since it was kept last
    }

    is_on() { return this.conversation.kernel !== null; }

    // ---- what the user does
    move(data) { return this.conversation.move(data); }

    go(node) { return this.move({op: 'goto', n: node}); }

    // Takes back the cell's node and all that stands below it on the path: the kernel goes to the node above.
    backwards(cell) {
        const node = this.marks.node_of.get(cell), history = this.history;
        if (node === undefined) {
            this.tell('This cell is not known to have run in this run of the kernel, so it cannot run backwards.', 'warn');
            return;
        }
        if (history.in_effect(node) !== true) {
            this.tell('This cell, node ' + node + ', is not in effect: there is nothing to run backwards.', 'warn');
            return;
        }
        const steps = history.depth_of(history.position) - history.depth_of(node) + 1, known = history.depth_of(node) >= 0;
        if (!known) this.tell('How many cells are below node ' + node + ' is not known. Undo goes there one by one.', 'warn');
        else if (history.parent[node] < 0) this.backwards_to({op: 'undo', n: steps}, node, steps);
        else this.backwards_to({op: 'goto', n: history.parent[node]}, node, steps);
    }

    backwards_to(move, node, steps) {
        const behind = steps > 1 ? ', and before it ' + texts.count(steps - 1, 'cell') + ' that ran after it, the newest first' : '';
        move.said = 'Node ' + node + ' ran backwards' + behind + '.';
        this.conversation.move(move);
    }

    // Writes the session up to the cell as a file for janus-steps, and says how to start it.
    step_through(cell) {
        const code = cell ? cell.get_text() : '', history = this.history, nodes = steps.way(history, this.marks.node_of.get(cell));
        if (code.trim() === '') this.tell('There is nothing to step through: select a cell of a notebook that has a text of Janus.', 'warn');
        else if (nodes === null || !steps.are_named(history, nodes)) this.tell(steps.UNKNOWN, 'warn');
        else if (steps.asked(history, nodes) === null) this.write_steps(nodes, code, []);
        else this.conversation.send('history_request', steps.asked(history, nodes), reply => this.write_steps(nodes, code, reply.content.history || []));
    }

    async write_steps(nodes, code, inputs) {
        const above = steps.texts_of(this.history, nodes, inputs), path = steps.name(this.path());
        try {
            const old = await this.contents().get(path, {type: 'file', format: 'text', content: true}).catch(function () { return null; });
            if (above === null) this.tell(steps.UNKNOWN, 'warn');
            else if (old !== null && !steps.is_ours(old.content)) this.tell('There is another file ' + path + ', which is left as it is: rename it.', 'warn');
            else {
                await this.contents().save(path, {type: 'file', format: 'text', content: steps.file(above, code)});
                this.tell(steps.written(path, above.length), 'done');
            }
        } catch (error) {
            this.tell('The file ' + path + ' can\'t be written: ' + error.message, 'bad');
        }
    }

    // ---- what the conversation tells
    met(run) {
        this.restarted();
        this.marks.recall(memory.recall(run, this.history, this.conversation.limits));
        this.conversation.send('history_request', {hist_access_type: 'tail', n: INPUTS, output: false, raw: true}, reply => {
            if (this.conversation.run !== run) return;
            const inputs = reply.content.history || [];
            if (inputs.length) this.conversation.limits.cell(inputs[inputs.length - 1][1]);
            this.marks.judge(inputs);
            this.inputs = inputs;
            this.joined();
            this.changed();
        });
    }

    // The texts of nodes that ran before this page listened, where the kernel's inputs are as many as its nodes: a cell that failed is an input too.
    joined() {
        const inputs = this.inputs, is_known = this.history.known && this.conversation.is_idle();
        if (inputs === null || !is_known) return;
        this.inputs = null;
        const is_whole = inputs.length < INPUTS && inputs.every(function (it, i) { return it[1] === i + 1; });
        if (is_whole && inputs.length === this.history.nodes && inputs.length >= this.conversation.count) this.conversation.name(inputs);
    }

    // Called as a run ends, and again as the next is met. What was said in between, as why cells did not run, stays.
    restarted() {
        if (this.history.known) this.message('');
        this.is_warned = false;
        this.inputs = null;
        this.marks.restarted();
        this.history.clear();
        this.panel.clear();
        this.changed();
    }

    forgot() { this.marks.forgot(); }

    cell_ended(job, node) {
        const cell = this.marks.cell(job.id);
        if (!cell) return;
        const said = job.failed ? explain.error(job.line, job.code, this.history.codes(), this.history.has_codes()) : explain.ran(job.code);
        this.marks.began(cell);
        if (said) this.places.show(cell, said, job.code);
        if (!job.failed) this.marks.ran(cell, node);
    }

    early_ran(id, node) {
        const cell = this.marks.cell(id);
        if (cell) this.marks.ran(cell, node);
    }

    move_answered(asked, answer) {
        const moved = explain.moved(asked, answer);
        if (answer.status === 'refused' || answer.end !== 'all') this.panel.timeline.stop();
        const done = asked.said || (this.panel.timeline.waits ? '' : explain.which(answer, this.history));
        if (moved.text) this.tell(moved.text, moved.kind); else this.message(done, done ? 'done' : '');
    }

    moves_lost() { this.panel.timeline.stop(); }

    // `say` answers what another frontend did, in words.
    other(say) { this.panel.other(say); }

    values(world, node) { this.panel.show_values(world, node); }

    message(text, kind) { this.panel.message(text, kind); }

    tell(text, kind) {
        this.panel.message(text, kind);
        this.notify(text, kind);
    }

    // ---- drawing: at once where nothing was drawn lately, and else once for many changes
    changed() {
        this.changes++;
        if (this.timer === null) this.timer = setTimeout(() => this.update(), Math.max(FRAME, this.updated + this.pause - performance.now()));
        if (this.keep_timer === null) this.keep_timer = setTimeout(() => this.keep_soon(), KEEP);
    }

    update() {
        clearTimeout(this.timer);
        this.timer = null;
        if (!this.is_on()) return;
        this.panel.update();
        this.marks.mark();
        this.warn(this.conversation.limits.said(this.history.nodes));
        this.pause = this.changes > MANY ? LONG_PAUSE : PAUSE;
        this.changes = 0;
        this.updated = performance.now();
    }

    warn(text) {
        this.panel.limits(text);
        if (text && !this.is_warned) this.notify(text, 'warn');
        this.is_warned = text !== '';
    }

    // As soon as the page has nothing else to do.
    keep_soon() {
        if (window.requestIdleCallback) window.requestIdleCallback(() => this.keep(), {timeout: AT_LAST}); else this.keep();
    }

    keep() {
        clearTimeout(this.keep_timer);
        this.keep_timer = null;
        memory.keep(this.conversation.run, this.history, this.conversation.limits, () => this.pairs());
    }

    // Prompts of cells with their nodes.
    pairs() { return this.marks.pairs(); }
}

return Session;
});
