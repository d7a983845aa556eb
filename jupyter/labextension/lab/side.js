// The place at the right side of JupyterLab, which shows the panel of the session in use.
define(['../memory.js', '@lumino/widgets', '@jupyterlab/ui-components'], function (memory, lumino, ui) {
'use strict';

const RANK = 150;                       // behind the property inspector
const NOBODY = 'Open a Janus notebook or console to see its history.';
const ICON = new ui.LabIcon({name: 'janus:history', svgstr: '<svg xmlns="http://www.w3.org/2000/svg" width="16" viewBox="0 0 16 16">' +
    '<g class="jp-icon3" stroke="#616161" stroke-width="1.5" fill="none"><path d="M4 4v8M4 9c0-3 7-1 7-4"/><circle cx="4" cy="3" r="1.8"/>' +
    '<circle cx="4" cy="13" r="1.8"/><circle cx="11" cy="4" r="1.8"/></g></svg>'});

class Side extends lumino.Widget {
    constructor(app) {
        super();
        this.app = app;
        this.session = null;
        this.id = 'janus-history';
        this.addClass('janus-lab');
        this.title.caption = 'Janus history';
        this.title.icon = ICON;
        this.node.textContent = NOBODY;
    }

    show_session(session) {
        if (session === this.session) return;
        this.session = session;
        if (session) this.node.replaceChildren(session.panel.element); else this.node.textContent = NOBODY;
        this.drawn();
    }

    drawn() {
        if (!this.session || !this.isVisible) return;
        this.session.panel.tree.followed = '';
        this.session.panel.update();
    }

    onAfterShow() { this.drawn(); }

    onResize() { this.drawn(); }

    place() {
        if (this.isAttached) return;
        this.app.shell.add(this, 'right', {rank: RANK});
        this.app.restored.then(() => { if (memory.was_open()) this.app.shell.activateById(this.id); });       // JupyterLab may close its sides before
    }

    toggle() {
        const open = !this.isVisible;
        memory.keep_open(open);
        if (open) this.app.shell.activateById(this.id);
        else if (this.app.shell.collapseRight) this.app.shell.collapseRight();
    }

    focus(session) {
        if (!this.isVisible) this.toggle();
        session.panel.tree.box.focus();
    }
}

return Side;
});
