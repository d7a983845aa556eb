// What a session needs of its notebook or console: {widget, context, toolbar, contents, title, path, cells, selected, leave, changed}: the widget, its
// session context and toolbar, what reads and writes files, and calls for its title and path, the widgets of its code cells, the one that is selected,
// to give it the focus, and, where cells come and go, to be told of it.
define([], function () {
'use strict';

function code(widgets) { return widgets.filter(function (it) { return it.model.type === 'code'; }); }

function host(app, panel) {
    return {
        widget: panel, context: panel.sessionContext, toolbar: panel.toolbar,
        contents: app.serviceManager.contents,
        title: function () { return panel.title.label; },
        path: function () { return panel.sessionContext.path; },
        leave: function () { app.shell.activateById(panel.id); },
    };
}

function notebook(app, panel) {
    const it = host(app, panel), content = panel.content, leave = it.leave;
    it.cells = function () { return code(content.widgets); };
    it.selected = function () { return content.activeCell; };
    it.leave = function () {
        leave();
        content.mode = 'command';
    };
    it.changed = function (call) { if (content.model) content.model.cells.changed.connect(call); };
    return it;
}

function terminal(app, panel) {
    const it = host(app, panel), console_widget = panel.console;
    it.cells = function () {
        const all = Array.from(console_widget.cells), prompt = console_widget.promptCell;
        return code(prompt && !all.includes(prompt) ? all.concat([prompt]) : all);
    };
    it.selected = function () { return null; };
    it.changed = function () { /* cells come only as they run */ };
    return it;
}

return {notebook: notebook, console: terminal};
});
