// A notebook or console of JupyterLab whose kernel may be one of Janus: its session, which is on while the kernel is one.
define(['../session.js', '../panel.js', '../memory.js', './kernel.js', './cells.js', './places.js', './turns.js', '@jupyterlab/apputils'],
function (Session, Panel, memory, Kernel, Cells, places, turns, apputils) {
'use strict';

const NOTICE = 6000, LONG_NOTICE = 30000;           // ms
const ENDING = /^(restarting|autorestarting|terminating|dead)$/;

class LabSession extends Session {
    // `host` is what hosts.js makes. `turned` is called as the kernel becomes one of Janus, or no longer is.
    constructor(host, turned) {
        super();
        this.host = host;
        this.turned = turned;
        this.kernel = null;
        this.looked = 0;
        this.places = places;
        this.marks = new Cells(this.history, host.cells);
        this.panel = new Panel(this.history, host.title(), {go: node => this.go(node), move: data => this.move(data), leave: host.leave});
        this.turns = new turns.Turns((text, kind) => this.tell(text, kind));
        host.context.kernelChanged.connect(this.look, this);
        host.context.connectionStatusChanged.connect(this.connection, this);
        host.context.statusChanged.connect(this.status, this);
        host.widget.title.changed.connect(() => this.panel.title(host.title()));
        this.look();
    }

    // The widget is no more.
    dispose() {
        window.removeEventListener('pagehide', this.leaving);
        this.turn_off();
        clearTimeout(this.timer);
        clearTimeout(this.keep_timer);
    }

    // ---- the kernel of the notebook or console
    async look() {
        const turn = ++this.looked, session = this.host.context.session, connection = session && session.kernel;
        const info = connection ? await connection.info.catch(function () { return null; }) : null;
        if (turn !== this.looked || this.host.widget.isDisposed) return;
        if (!info || info.language_info.name !== 'janus') this.turn_off();
        else if (this.kernel === null || this.kernel.connection !== connection) this.turn_on(connection);
    }

    turn_on(connection) {
        this.turn_off();
        this.kernel = new Kernel(connection, (message, id) => this.sent(message, id));
        this.host.widget.node.classList.add('janus-kernel');
        this.conversation.attach(this.kernel);
        this.turned(this);
    }

    turn_off() {
        if (!this.is_on()) return;
        this.conversation.detach();
        this.kernel.dispose();
        this.kernel = null;
        if (!this.host.widget.isDisposed) {
            this.host.widget.node.classList.remove('janus-kernel');
            this.marks.cells().forEach(places.clear);
            this.marks.wipe();
        }
        this.history.clear();
        this.panel.clear();
        this.message('');
        this.turned(this);
    }

    // The connection came back: broadcasts may be lost.
    connection(_, status) {
        if (status !== 'connected' || !this.is_on()) return;
        this.kernel.connected();
        this.conversation.attach(this.kernel);
    }

    status(_, status) {
        if (!this.is_on() || !ENDING.test(status)) return;
        this.conversation.lose();
        this.restarted();
    }

    // ---- what the shared session asks for
    sent(message, id) {
        const cell = this.marks.sent(message, id);
        if (cell) places.clear(cell);
        this.changed();
    }

    is_running() { return this.kernel !== null && this.kernel.running.size > 0; }

    backwards_of(widget) { this.backwards(widget && this.marks.of(widget)); }

    step_through_of(widget) { this.step_through(widget && widget.model.type === 'code' ? this.marks.of(widget) : null); }

    // It is said elsewhere too where the panel isn't in sight.
    notify(text, kind) {
        const how = {bad: 'error', done: 'info'}[kind] || 'warning';
        if (this.panel.element.offsetParent === null) apputils.Notification[how](text, {autoClose: kind === 'done' ? LONG_NOTICE : NOTICE});
    }

    path() { return this.host.path(); }

    contents() { return this.host.contents; }

    // With those that another session of this page with the same kernel kept, as a console's beside a notebook's.
    pairs() { return Array.from(new Map(memory.pairs_of(this.conversation.run).concat(super.pairs()))); }
}

return LabSession;
});
