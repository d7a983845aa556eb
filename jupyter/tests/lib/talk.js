// A kernel that several frontends ask at once, over a simulated clock: jobs run one by one, and each connection broadcasts what came of its own
// as late as it likes, but in order. The page is one of the frontends.
'use strict';
const Kernel = require('./simulated.js');

const ANSWER = .05, PAUSE = .02, WAY = 1;       // ms: until a request is looked at, until the next one is, and from the kernel to the page

class Clock {
    constructor() {
        this.now = 0;
        this.made = 0;
        this.due = [];                  // [time, id, call], the next first
    }

    setTimeout(call, delay = 0) {
        const time = this.now + Math.max(0, delay), behind = this.due.findIndex(function (it) { return it[0] > time; });
        this.due.splice(behind < 0 ? this.due.length : behind, 0, [time, ++this.made, call]);
        return this.made;
    }

    clearTimeout(id) { this.due = this.due.filter(function (it) { return it[1] !== id; }); }

    run(time) {
        for (const until = this.now + time; ;) {
            if (!this.due.length || this.due[0][0] > until) {
                this.now = until;
                return;
            }
            const next = this.due.shift();
            this.now = next[0];
            next[2]();
        }
    }
}

class Talk {
    // `run_time` answers how long a job takes, `lag` how late what came of it is broadcast.
    constructor(clock, run_time, lag) {
        Object.assign(this, {clock: clock, run_time: run_time, lag: lag, way: () => WAY, tree: new Kernel()});
        this.count = this.asked = 0;
        this.run = 'run';
        this.jobs = [];
        this.is_busy = false;
        this.handlers = new Map();      // of the page
    }

    frontend(name) { return {name: name, requests: [], is_served: false, heard: function () { /* nothing */ }}; }

    // The page's connection, with the calls that conversation.js makes of a kernel.
    page() {
        const own = this.frontend('page');
        return {
            session_id: 'page',
            get_iopub_handler: type => this.handlers.get(type),
            register_iopub_handler: (type, handler) => this.handlers.set(type, handler),
            send_shell_message: (type, content, calls) => this.send(own, type, content, calls && calls.shell.reply),
            comm_info: (target, replied) => this.send(own, 'comm_info_request', {}, replied),
        };
    }

    // The id of the request.
    send(frontend, type, content, replied) {
        const parent = {msg_id: frontend.name + ++this.asked, msg_type: type, session: frontend.name};
        frontend.requests.push({frontend: frontend, parent: parent, content: content, replied: replied});
        if (!frontend.is_served) this.serve(frontend);
        return parent.msg_id;
    }

    move(frontend, op, n) { return this.send(frontend, 'comm_msg', {data: {op: op, n: n}}); }

    broadcast(job, type, content) {
        const message = {header: {session: this.run, msg_type: type}, parent_header: job.parent, content: content};
        this.clock.setTimeout(() => { if (this.handlers.has(type)) this.handlers.get(type)(message); }, this.way());
        job.frontend.heard(message);
    }

    // Another run begins.
    renew(run) {
        Object.assign(this, {run: run, tree: new Kernel(), count: 0, jobs: [], is_busy: false});
    }

    serve(frontend) {
        const job = frontend.requests.shift();
        frontend.is_served = job !== undefined;
        if (job) this.clock.setTimeout(() => this.begin(job), ANSWER);
    }

    begin(job) {
        const type = job.parent.msg_type, data = job.content.data;
        this.broadcast(job, 'status', {execution_state: 'busy'});
        if (type === 'execute_request' || type === 'comm_msg' && data.op !== 'state') {
            this.jobs.push(job);
            if (!this.is_busy) this.work();
        } else if (type === 'comm_msg') this.end(job, [['comm_msg', {data: Object.assign(this.tree.state(), {busy: this.is_busy})}]], 0);
        else {
            if (job.replied) job.replied({header: {session: this.run}, content: {comms: {}, history: []}});
            this.end(job, [], 0);
        }
    }

    work() {
        const job = this.jobs.shift();
        this.is_busy = job !== undefined;
        if (!job) return;
        this.clock.setTimeout(() => {
            this.end(job, job.content.data ? [['comm_msg', {data: this.moved(job.content.data)}]] : this.ran(job.content), this.lag());
            this.work();
        }, this.run_time());
    }

    moved(asked) {
        const tree = this.tree, answer = asked.op === 'goto' ? asked.n <= tree.nodes && tree.goto(asked.n) : tree[asked.op](asked.n);
        return answer ? Object.assign({status: 'ok', end: 'all'}, answer) : {op: asked.op, status: 'refused', number: 73, name: 'TooFar'};
    }

    ran(cell) {
        if (!cell.fails) this.tree.cell();
        if (cell.silent) return [];
        const input = ['execute_input', {execution_count: ++this.count, code: cell.code}];
        return cell.fails ? [input, ['error', {evalue: 'fault'}]] : [input];
    }

    end(job, said, lag) {
        this.clock.setTimeout(() => {
            for (const it of said) this.broadcast(job, it[0], it[1]);
            this.broadcast(job, 'status', {execution_state: 'idle'});
            this.clock.setTimeout(() => this.serve(job.frontend), PAUSE);
        }, lag);
    }
}

module.exports = {Clock: Clock, Talk: Talk};
