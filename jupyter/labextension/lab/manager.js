// All notebooks and consoles of the page, each with its session, and which session is in use.
define(['./session.js', './turns.js', './hosts.js', './side.js', './tools.js'], function (Session, turns, hosts, Side, tools) {
'use strict';

class Manager {
    constructor(app, notebooks, consoles, palette) {
        this.app = app;
        this.trackers = [notebooks, consoles].filter(Boolean);          // each page of Notebook 7 has some of these
        this.sessions = new Map();      // widgets to sessions
        this.last = null;               // the session in use
        this.side = new Side(app);
        if (notebooks) this.follow(notebooks, hosts.notebook);
        if (consoles) this.follow(consoles, hosts.console);
        if (app.shell.currentChanged) app.shell.currentChanged.connect(() => this.current());
        turns.take_over(context => this.turns_of(context));
        tools.add(app.commands, palette, this.side, () => this.found());
    }

    follow(tracker, host) {
        const add = widget => { if (!this.sessions.has(widget)) this.add(widget, host(this.app, widget)); };
        tracker.widgetAdded.connect(function (_, widget) { add(widget); });
        tracker.forEach(add);
        tracker.currentChanged.connect(() => this.current());
    }

    add(widget, host) {
        const session = new Session(host, it => this.turned(it));
        this.sessions.set(widget, session);
        host.changed(function () { session.changed(); });
        widget.disposed.connect(() => {
            this.sessions.delete(widget);
            session.dispose();
            this.current();
        });
    }

    turned(session) {
        if (session.is_on() && !session.tools) {
            session.tools = tools.add_buttons(this.app.commands, session.host.toolbar);
            this.side.place();
        } else if (!session.is_on() && session.tools) {
            session.tools.dispose();
            session.tools = null;
        }
        this.current();
    }

    turns_of(context) {
        for (const session of this.sessions.values()) if (session.is_on() && session.host.context === context) return session.turns;
        return null;
    }

    // The session in use: of the widget that is current in the page, else of the notebook or console that was current last.
    found() {
        const shown = this.app.shell.currentWidget, session = shown && this.sessions.get(shown);
        if (session) return session.is_on() ? session : null;
        if (this.last && this.last.is_on() && this.sessions.has(this.last.host.widget)) return this.last;
        for (const tracker of this.trackers) {
            const of = tracker.currentWidget && this.sessions.get(tracker.currentWidget);
            if (of && of.is_on()) return of;
        }
        return null;
    }

    current() {
        this.last = this.found();
        this.side.show_session(this.last);
        tools.changed(this.app.commands);
    }
}

return Manager;
});
