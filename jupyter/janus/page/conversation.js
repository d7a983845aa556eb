// The conversation with the kernel: broadcasts that are heard, whoever asked for them, and the comm for `janus.undo` on which moves and
// states are asked for. What is heard becomes what the history knows.
define(['./explain.js', './limits.js'], function (explain, Limits) {
'use strict';

const TARGET = 'janus.undo', OURS = 'janus-panel-';
const HEARD = ['status', 'execute_input', 'error', 'stream', 'comm_msg', 'comm_close'];
const MOVES = new Set(['undo', 'redo', 'goto']);
const SOON = 40, AGAIN = 150, HOLD = 1500, PATIENCE = 3000, WAITS = 700;      // ms
const LOOK = 500, LOOKS = 6, MOST_LOOKS = 60;         // ms between two looks for an answer; looks until it is lost: in silence, and amid broadcasts
const NEXT = 1000, MOST_NEXT = 20;     // ms, as many more at each look for the run after one that ends; looks
const MOST_MISSES = 5;                  // states that came in the midst of jobs, before the first is believed all the same
const LABEL = 2000;                     // so much of a cell's text is kept

class Conversation {
    // `page` is told what comes: see the calls `this.page.…` below.
    constructor(history, page) {
        this.history = history;
        this.page = page;
        this.kernel = null;
        this.comm = null;
        this.run = null;                // the session in the kernel's headers, which names its run
        this.ask_timer = this.hold_timer = this.end_timer = null;
        this.ask_at = this.ask_due = 0;
        this.turn = 0;                  // counts the searches for a comm
        this.questions = 0;             // counts the states that were asked for
        this.heard = 0;                 // counts the broadcasts
        this.begin();
    }

    begin() {
        this.jobs = new Map();          // requests of which the end wasn't heard yet
        this.mine = new Map();          // moves that were asked for here, by the message's id
        this.asked = null;              // the state that was asked for last
        this.ask_again = false;
        this.misses = 0;                // states in a row that weren't taken
        this.doubted = false;           // whether the last state that came while all was quiet wasn't what was expected
        this.early = [];                // cells that ended before the first state; null where something else ended too
        this.silent = 0;                // silent cells, other jobs, and moves among these that ended since the last state that was taken
        this.spoken = 0;
        this.moves = 0;
        this.clock = 0;                 // counts the ends of jobs
        this.unsure = 0;                // counts moves of which it isn't known whether they fit where they were heard
        this.count = 0;                 // the highest execution count that was heard
        this.held = new Map();          // cells that were heard before one with a lower count
        this.missing = false;           // whether broadcasts are known to be lost
        this.limits = new Limits();
    }

    attach(kernel) {
        this.kernel = kernel;
        if (!kernel.janus_heard) {
            kernel.janus_heard = true;
            HEARD.forEach(type => this.listen(kernel, type));
        } else this.missing = true;     // the connection was lost for a while
        this.sync();
    }

    detach() {
        this.kernel = null;
        this.lose();
    }

    // The run of the kernel has ended.
    lose() {
        this.run = null;
        this.comm = null;
        this.turn++;
        this.begin();
    }

    listen(kernel, type) {
        const old = kernel.get_iopub_handler(type);
        kernel.register_iopub_handler(type, message => {
            let taken = false;
            try {
                taken = this.kernel === kernel && this.hear(message, type);
            } catch (error) {
                console.error('janus', error);
            }
            return !taken && old ? old(message) : undefined;
        });
    }

    // The id of the message. `replied` is called with the reply, where there is one.
    send(type, content, replied) { return this.kernel.send_shell_message(type, content, replied ? {shell: {reply: replied}} : undefined); }

    // Finds the comm of an earlier page, or opens one. All pages of a run of the kernel share one, so none is left behind.
    sync() {
        const turn = ++this.turn;
        this.asked = null;
        this.ask_again = false;
        this.jobs.clear();
        this.mine.clear();
        this.held.clear();
        this.page.moves_lost();
        this.kernel.comm_info(TARGET, reply => {
            if (turn !== this.turn) return;
            if (reply.header.session !== this.run) this.meet(reply.header.session);
            this.take_comm(Object.keys(reply.content.comms || {}).sort());
            this.ask();
        });
    }

    meet(run) {
        this.comm = null;
        this.begin();
        this.run = run;
        this.page.met(run);
    }

    take_comm(ids) {
        if (this.comm !== null && ids.indexOf(this.comm) >= 0) return;
        const ours = ids.find(function (it) { return it.indexOf(OURS) === 0; });
        this.comm = ours || OURS + Math.random().toString(16).slice(2) + Date.now().toString(16);
        this.spare = ids[0] || null;
        if (!ours) this.send('comm_open', {comm_id: this.comm, target_name: TARGET, data: {}});
    }

    // ---- asking
    ask() {
        if (this.comm === null) return;
        if (this.asked !== null) {
            this.ask_again = true;
            return;
        }
        this.ask_again = false;
        const id = this.send('comm_msg', {comm_id: this.comm, data: {op: 'state'}});
        const asked = this.asked = {number: ++this.questions, clock: this.clock, id: id, heard: this.heard, looks: 0, silent: 0};
        setTimeout(() => this.unanswered(asked), LOOK);
    }

    // A state is answered at once, but behind a cell or a move of this page. If none is on its way, and nothing else was heard at some looks, the answer
    // was lost. Looks are counted, and not time, since a page that stood still has not heard yet what came meanwhile.
    unanswered(asked) {
        if (this.asked !== asked || this.kernel === null) return;
        const waits = this.page.is_running() || this.mine.size > 0 && !this.missing;
        const is_late = this.heard !== asked.heard && ++asked.looks <= MOST_LOOKS;
        asked.silent = waits || is_late ? 0 : asked.silent + 1;
        asked.heard = this.heard;
        if (asked.silent < LOOKS) setTimeout(() => this.unanswered(asked), LOOK);
        else {
            this.missing = true;
            this.sync();
        }
    }

    // Asks once nothing calls this for so long. A timer that comes too early waits on, since to set one anew for each of many cells takes its time.
    ask_soon(delay = SOON) {
        this.ask_at = performance.now() + delay;
        if (this.ask_timer !== null && this.ask_due <= this.ask_at) return;
        clearTimeout(this.ask_timer);
        this.ask_due = this.ask_at;
        this.ask_timer = setTimeout(() => {
            const left = this.ask_at - performance.now();
            this.ask_timer = null;
            if (left > 0) this.ask_soon(left);
            else if (this.kernel !== null) this.ask();
        }, delay);
    }

    // Asks for a move; false where there is no comm yet.
    move(data) {
        if (this.comm === null) {
            this.page.tell('The kernel has not answered yet.', 'warn');
            return false;
        }
        const id = this.send('comm_msg', {comm_id: this.comm, data: data});
        this.mine.set(id, data);
        setTimeout(() => {
            if (this.mine.has(id)) this.page.message(explain.waits(data), 'wait');
        }, WAITS);
        return true;
    }

    // ---- hearing: true where nobody else needs to hear it
    hear(message, type) {
        this.heard++;
        if (this.is_of_another_run(message, type)) {
            this.lose();
            this.page.restarted();
            this.sync();
        }
        const parent = message.parent_header || {}, content = message.content;
        if (type === 'status') return this.hear_status(parent, content.execution_state);
        if (type === 'execute_input') Object.assign(this.job(parent), {count: content.execution_count, code: content.code});
        if (type === 'error') Object.assign(this.job(parent), {failed: true, line: content.evalue});
        if (type === 'stream' && /^IOPub (message|data) rate exceeded/.test(content.text)) this.held_back();
        if (type === 'comm_msg') return this.hear_comm(parent, content.data || {});
        return type === 'comm_close' && content.comm_id === this.comm && this.comm_refused();
    }

    // Another page may have started the kernel anew: nothing else tells it.
    is_of_another_run(message, type) {
        if (this.run === null || message.header.session === this.run) return false;
        return type === 'comm_msg' || type === 'status' && /^(busy|idle)$/.test(message.content.execution_state);
    }

    // A run ends, and another may follow. What it broadcasts may be over before this page's connection has found it, and then nothing tells of it: so this
    // page asks, ever less often, until another run answers.
    ending(run, looks) {
        clearTimeout(this.end_timer);
        this.end_timer = setTimeout(() => {
            if (this.kernel === null || this.run !== run) return;
            this.sync();
            if (looks < MOST_NEXT) this.ending(run, looks + 1);
        }, looks * NEXT);
    }

    // The notebook's server keeps broadcasts from the page where there are too many.
    held_back() {
        this.missing = true;
        this.jobs.clear();
        this.held.clear();
        this.page.tell('The notebook\'s server held broadcasts back, so some nodes will be marked with a question mark.', 'warn');
    }

    job(parent) {
        const old = this.jobs.get(parent.msg_id);
        if (old) return old;
        const other = parent.session !== this.kernel.session_id;
        const job = {id: parent.msg_id, other: other, questions: this.questions, clock: this.clock, unsure: this.unsure, over: 0};
        this.jobs.set(job.id, job);
        return job;
    }

    hear_status(parent, state) {
        if (parent.msg_type === 'shutdown_request' && this.run !== null) this.ending(this.run, 1);
        if (parent.msg_type !== 'execute_request' && parent.msg_type !== 'comm_msg') return false;
        const job = this.job(parent);
        if (state === 'idle') {
            this.jobs.delete(parent.msg_id);
            this.ended(job, parent.msg_type);
        }
        return false;
    }

    hear_comm(parent, data) {
        if (data.op !== 'state' && !MOVES.has(data.op)) return false;
        const job = this.job(parent);
        job.answer = data;
        if (this.mine.has(job.id)) {                                    // what was asked for here is drawn before the job's end is told
            this.jobs.delete(job.id);
            this.heard_move(job, data);
        }
        return true;
    }

    // 1,024 comms are open: any of them serves.
    comm_refused() {
        this.comm = this.spare;
        if (this.comm === null) this.page.tell('The kernel has no room for a comm: the history cannot be shown.', 'bad');
        return true;
    }

    ended(job, type) {
        if (type === 'execute_request') this.cell_ended(job);
        else if (job.answer && job.answer.op === 'state') this.heard_state(job.id, job.answer);
        else if (job.answer) this.heard_move(job, job.answer);
        else if (this.asked && this.asked.id === job.id || this.mine.has(job.id)) {        // somebody closed the comm
            this.comm = null;
            this.sync();
        }
    }

    // ---- cells
    cell_ended(job) {
        this.clock++;
        if (job.count === undefined) {                                   // it was silent: the state tells what it came to
            this.early = null;
            this.silent++;
            this.limits.other();
            this.ask_soon(0);
        } else if (this.count && job.count > this.count + 1) {           // an earlier cell hasn't been told yet
            this.held.set(job.count, job);
            if (this.held.size === 1) this.hold();
            if (this.moves) this.missing = true;                         // in which order these came isn't known
        } else {
            this.cell(job);
            this.release();
        }
    }

    release() {
        for (let next = this.held.get(this.count + 1); next; next = this.held.get(this.count + 1)) {
            this.held.delete(this.count + 1);
            this.cell(next);
            this.hold();
        }
    }

    // Waits for the cells between, from now on.
    hold() {
        clearTimeout(this.hold_timer);
        this.hold_timer = this.held.size ? setTimeout(() => this.release_all(), HOLD) : null;
    }

    // The cells between were lost.
    release_all() {
        const jobs = Array.from(this.held.values()).sort(function (a, b) { return a.count - b.count; });
        if (jobs.length) this.missing = true;
        this.held.clear();
        jobs.forEach(job => this.cell(job));
    }

    cell(job) {
        const label = this.label(job.count, job.code), ran = !job.failed;
        this.limits.cell(job.count);
        this.spoken++;
        this.count = Math.max(this.count, job.count);
        if (ran && this.unsure > job.unsure) this.missing = true;       // a move that was heard first may have come behind it
        let node = null;
        if (ran && this.history.known) node = this.history.cell(label);
        else if (ran && this.early) this.early.push({label: label, id: job.id});
        this.page.cell_ended(job, node);
        if (job.other) this.page.other(() => explain.other_cell(job, node));
        this.page.changed();
        this.ask_soon();
    }

    // ---- moves
    // One that ended beside other jobs may have been done before them, though they were heard first. Its way then begins elsewhere, so it doesn't fit.
    heard_move(job, answer) {
        const own = this.mine.get(job.id), history = this.history, is_beside = this.clock > job.clock, fits = history.fits(answer);
        this.mine.delete(job.id);
        this.limits.other();
        this.clock++;
        this.spoken++;
        if (own) this.page.move_answered(own, answer);
        if (answer.status === 'refused') return;
        if (job.other) this.page.other(() => 'another frontend ' + explain.way(answer));
        this.moves++;
        if (!fits) this.unsure++;
        if (!history.known) this.early = null;
        else if (!history.move(answer) || this.held.size > 0 || is_beside && !fits) this.missing = true;
        if (own) this.page.update(); else this.page.changed();
        this.ask_soon(own ? 0 : SOON);
    }

    // ---- states
    // One counts where nothing ended between its question and its answer, and nothing is open. One that isn't what was expected is asked for
    // once more, since the broadcasts of another connection may come later than the answer; then it is believed.
    heard_state(id, state) {
        if (!this.asked || this.asked.id !== id) return;
        const history = this.history, quiet = this.is_quiet(state);
        if (quiet) this.silent_cells(state); else this.end_lost(state);
        this.asked = null;
        const odd = quiet && history.known && !history.expects(state);
        const take = quiet ? !odd || this.doubted : !history.known && (state.busy || this.misses > MOST_MISSES);
        if (quiet) this.doubted = odd && !take;
        this.misses = take ? 0 : this.misses + 1;
        if (take) this.take_state(state, quiet);
        else this.ask_soon(history.known && state.busy ? PATIENCE : AGAIN);           // what ends a job may be lost
        if (this.ask_again) this.ask_soon(this.misses ? AGAIN : SOON);
    }

    // Where no job runs, one that began before the question has ended: its end is heard soon, or it was lost.
    end_lost(state) {
        const now = performance.now();
        for (const job of this.jobs.values()) {
            if (state.busy || job.questions >= this.asked.number) job.over = 0;
            else job.over = job.over || now;
            if (!job.over || now - job.over < PATIENCE) continue;
            this.jobs.delete(job.id);
            this.missing = true;
        }
    }

    is_idle() { return this.held.size === 0 && this.jobs.size === 0; }

    // The texts of all nodes, as [session, count, text].
    name(inputs) {
        inputs.forEach((it, i) => {
            this.history.label[i + 1] = this.history.label[i + 1] || this.label(it[1], it[2]);
        });
        this.history.version++;
    }

    label(count, code) { return {count: count, code: code.slice(0, LABEL), is_cut: code.length > LABEL}; }

    is_quiet(state) { return this.asked.clock === this.clock && !state.busy && this.is_idle(); }

    // Silent cells ended, and nothing else: they stand one under the other.
    silent_cells(state) {
        const history = this.history, more = state.nodes - history.nodes;
        if (!history.known || this.spoken || this.missing || more <= 0 || more > this.silent || state.node !== state.nodes) return;
        for (let i = 0; i < more; i++) history.cell(null);
    }

    take_state(state, quiet) {
        const history = this.history, first = !history.known, early = this.early || [];
        const labels = early.map(function (it) { return it.label; });
        if (!history.check(state, this.missing)) this.page.forgot();
        if (first && quiet && history.early(labels))
            early.forEach((it, i) => this.page.early_ran(it.id, history.nodes - early.length + 1 + i));
        if (first && quiet) this.page.joined();
        if (this.missing) this.count = 0;                                // it isn't known, and what comes next is no gap
        this.early = [];
        this.silent = 0;
        this.spoken = 0;
        this.moves = 0;
        this.missing = false;
        history.sure = history.nodes;
        history.journal = [];
        this.page.values(state.world, state.node);
        this.page.changed();
    }
}

return Conversation;
});
