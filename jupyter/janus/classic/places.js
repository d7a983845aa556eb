// Below a cell what is wrong in words, and in its text the place underlined.
define([], function () {
'use strict';

function clear(cell) {
    (cell.janus_places || []).splice(0).forEach(function (undo) { undo(); });
}

function underline(cell, place, text) {
    const editor = cell.code_mirror;
    return editor.markText(editor.posFromIndex(place.from), editor.posFromIndex(place.to), {className: 'janus-place', attributes: {title: text}});
}

// Shown until the text is changed or the cell runs again. `said` is what explain.js says of the cell, `code` the text that it ran.
function show(cell, said, code) {
    clear(cell);
    const editor = cell.code_mirror, words = document.createElement('div');
    words.className = 'janus-words' + (said.kind ? ' janus-' + said.kind : '');
    words.setAttribute('role', 'note');
    words.textContent = said.text;
    cell.element.append(words);
    const mark = said.place && cell.get_text() === code ? underline(cell, said.place, said.text) : null;
    const changed = function () { clear(cell); };
    editor.on('change', changed);
    cell.janus_places = [function () {
        words.remove();
        if (mark) mark.clear();
        editor.off('change', changed);
    }];
}

return {show: show, clear: clear};
});
