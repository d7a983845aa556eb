// The commands, which the palette, the menu Kernel and the keys of history.json call, and the buttons of a toolbar.
define(['@lumino/widgets'], function (lumino) {
'use strict';

const TOOLS = [
    {id: 'janus:undo', key: 'U', button: 'Undo', label: 'Undo the Newest Cell', help: 'Undo the newest cell that is in effect',
        act: session => session.move({op: 'undo', n: 1})},
    {id: 'janus:redo', key: 'Shift U', button: 'Redo', label: 'Redo the Cell Undone Last', help: 'Redo the cell that was undone last',
        act: session => session.move({op: 'redo', n: 1})},
    {id: 'janus:backwards', key: 'W', button: 'Backwards', label: 'Run Selected Cell Backwards',
        help: 'Run the selected cell backwards, and first everything that ran after it', act: session => session.backwards_of(session.host.selected())},
    {id: 'janus:steps', button: 'Steps', label: 'Step Through This Cell', help: 'Step through the selected cell, forward and back, in a terminal',
        act: session => session.step_through_of(session.host.selected())},
    {id: 'janus:history', key: 'T', button: 'History', label: 'Show or Hide History', help: 'Show or hide the history', act: (session, side) => side.toggle()},
    {id: 'janus:tree', key: 'G', label: 'Go to Tree of Histories', help: 'Go to the tree of histories, where arrows and Enter work',
        act: (session, side) => side.focus(session)},
];

// `found` answers the session in use, or null.
function add(commands, palette, side, found) {
    const is_there = function () { return found() !== null; };
    for (const tool of TOOLS) {
        commands.addCommand(tool.id, {
            label: tool.label, caption: 'Janus: ' + tool.help, isEnabled: is_there, isVisible: is_there,
            execute: function () { if (is_there()) tool.act(found(), side); },
        });
        if (palette) palette.addItem({command: tool.id, category: 'Janus'});
    }
}

function changed(commands) { TOOLS.forEach(function (it) { if (commands.hasCommand(it.id)) commands.notifyCommandChanged(it.id); }); }

function make_button(commands, tool) {
    const button = document.createElement('button');
    button.type = 'button';
    button.className = 'janus-tool ' + tool.id.replace(':', '-');
    button.title = 'Janus: ' + tool.help + (tool.key ? ' (' + tool.key + ')' : '');
    button.setAttribute('aria-label', tool.button);
    button.textContent = tool.button;
    button.addEventListener('mousedown', function (event) { event.preventDefault(); });             // the focus stays in the notebook
    button.addEventListener('click', function () { commands.execute(tool.id); });
    return button;
}

// The widget with the buttons, in the toolbar of a notebook or console.
function add_buttons(commands, bar) {
    const widget = new lumino.Widget();
    widget.addClass('janus-tools');
    widget.node.append(...TOOLS.filter(function (it) { return it.button; }).map(function (it) { return make_button(commands, it); }));
    if (bar && !bar.insertAfter('cellType', 'janus-tools', widget)) bar.addItem('janus-tools', widget);
    return widget;
}

return {add: add, changed: changed, add_buttons: add_buttons};
});
