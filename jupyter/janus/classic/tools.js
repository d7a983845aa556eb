// The buttons in the toolbar, and the keys in command mode.
define(['base/js/namespace'], function (Jupyter) {
'use strict';

const TOOLS = [
    {name: 'undo-cell', key: 'u', icon: 'fa-undo', label: 'Undo', id: 'janus-undo', act: 'undo', help: 'Janus: undo the newest cell that is in effect'},
    {name: 'redo-cell', key: 'shift-u', icon: 'fa-repeat', label: 'Redo', id: 'janus-redo', act: 'redo', help: 'Janus: redo the cell that was undone last'},
    {name: 'run-cell-backwards', key: 'w', icon: 'fa-backward', label: 'Backwards', id: 'janus-backwards', act: 'backwards',
        help: 'Janus: run the selected cell backwards, and first everything that ran after it'},
    {name: 'step-through-cell', icon: 'fa-step-forward', label: 'Steps', id: 'janus-steps', act: 'steps',
        help: 'Janus: step through this cell, forward and back, in a terminal'},
    {name: 'show-history', key: 't', icon: 'fa-code-fork', label: 'History', id: 'janus-history', act: 'toggle', help: 'Janus: show or hide the history'},
    {name: 'focus-tree', key: 'g', icon: 'fa-sitemap', act: 'focus', help: 'Janus: go to the tree of histories, where arrows and Enter work'},
];

// Makes the buttons. `acts` has a call for each `act` above.
function make(acts) {
    const actions = Jupyter.keyboard_manager.actions, buttons = [];
    for (const tool of TOOLS) {
        tool.action = actions.register({icon: tool.icon, help: tool.help, handler: function () { acts[tool.act](); }}, tool.name, 'janus');
        if (tool.label) buttons.push({action: tool.action, label: tool.label, id: tool.id});
    }
    Jupyter.toolbar.add_buttons_group(buttons, 'janus-buttons');
}

// Binds the keys while the kernel is one of Janus. A key that means something else already keeps its meaning.
function bind(is_on) {
    const shortcuts = Jupyter.keyboard_manager.command_shortcuts;
    for (const tool of TOOLS.filter(function (it) { return it.key; })) {
        const bound = shortcuts.get_shortcut(tool.key) === tool.action;
        if (is_on && !bound && shortcuts.is_available_shortcut(tool.key)) shortcuts.add_shortcut(tool.key, tool.action);
        if (!is_on && bound) shortcuts.remove_shortcut(tool.key);
    }
}

return {TOOLS: TOOLS, make: make, bind: bind};
});
