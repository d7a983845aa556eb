// The plugin of the history: commands, buttons, marks, and the panel at the page's right side.
define(['./manager.js', '@jupyterlab/notebook', '@jupyterlab/console', '@jupyterlab/apputils'], function (Manager, notebook, consoles, apputils) {
'use strict';

return {
    id: 'janus-history:history',
    description: 'Undo, Redo and the tree of histories of a Janus kernel',
    autoStart: true,
    requires: [],
    optional: [notebook.INotebookTracker, consoles.IConsoleTracker, apputils.ICommandPalette],
    activate: function (app, notebooks, consoles, palette) {
        window.janus_history = new Manager(app, notebooks, consoles, palette);             // for the tests
    },
};
});
