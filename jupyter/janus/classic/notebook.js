// The classic notebook's page: its parts put together.
define(['jquery', 'base/js/namespace', 'base/js/events', '../page/session.js', '../page/panel.js', '../page/memory.js', '../page/pace.js', './cells.js',
    './places.js', './turns.js', './tools.js'],
function ($, Jupyter, events, Session, Panel, memory, pace, Cells, places, Turns, tools) {
'use strict';

const NOTICE = 6000, LONG_NOTICE = 30000;           // ms

// The code cell that is selected, or null.
function selected() {
    const cell = Jupyter.notebook.get_selected_cell();
    return cell && cell.cell_type === 'code' ? cell : null;
}

class Page extends Session {
    constructor() {
        super();
        this.places = places;
        this.marks = new Cells(this.history);
        this.panel = new Panel(this.history, 'History', {
            go: node => this.go(node), move: data => this.move(data), close: () => this.show(false), leave: () => this.leave(),
        });
        this.place_panel();
        this.turns = new Turns(() => this.is_on(), (text, kind) => this.tell(text, kind));
        tools.make({
            undo: () => this.move({op: 'undo', n: 1}), redo: () => this.move({op: 'redo', n: 1}),
            backwards: () => this.backwards(Jupyter.notebook.get_selected_cell()), toggle: () => this.show(!$('body').hasClass('janus-open')),
            focus: () => this.focus_tree(), steps: () => this.step_through(selected()),
        });
        this.show(memory.was_open());
    }

    // Whether a cell of this page runs or waits. The notebook's own word on it comes from broadcasts, of which some may be lost.
    is_running() { return $('.code_cell.running').length > 0; }

    // No cell of the run that ended is answered any more.
    restarted() {
        $('.code_cell.running').removeClass('running');
        super.restarted();
    }

    attach(kernel) {
        tools.bind(true);
        pace(kernel.ws);
        this.conversation.attach(kernel);
    }

    detach() {
        tools.bind(false);
        this.conversation.detach();
    }

    notify(text, kind) {
        const widget = Jupyter.notification_area.widget('janus');
        if (kind === 'done') widget.info(text, LONG_NOTICE);
        else if (kind === 'bad') widget.danger(text, NOTICE);
        else widget.warning(text, NOTICE);
    }

    path() { return Jupyter.notebook.notebook_path; }

    contents() { return Jupyter.notebook.contents; }

    // ---- the panel, at the page's right side
    place_panel() {
        const element = $(this.panel.element).appendTo('body'), tree = this.panel.tree;
        const place = function () {
            const header = $('#header');
            element.css('top', header.is(':visible') ? header.outerHeight() : 0);
            tree.draw();
        };
        element.on('focusin', function () { Jupyter.keyboard_manager.disable(); });          // its keys are not the notebook's
        element.on('focusout', function () { Jupyter.keyboard_manager.enable(); });
        events.on('resize-header.Page', place);
        $(window).on('resize', place);
        place();
    }

    // Back to the notebook, in command mode.
    leave() {
        if (document.activeElement) document.activeElement.blur();
        Jupyter.keyboard_manager.enable();
        Jupyter.notebook.focus_cell();
    }

    show(yes) {
        $('body').toggleClass('janus-open', yes);
        memory.keep_open(yes);
        this.panel.tree.followed = '';
        this.changed();
    }

    focus_tree() {
        this.show(true);
        this.panel.tree.box.focus();
    }
}

return Page;
});
