// The mode of Janus for CodeMirror 5, the classic notebook's editor.
define(['codemirror/lib/codemirror', '../page/highlight.js'], function (CodeMirror, highlight) {
'use strict';

function define_mode() {
    CodeMirror.defineMode('janus', highlight.mode);
    CodeMirror.defineMIME('text/x-janus', 'janus');
    const known = CodeMirror.modeInfo;
    if (known && !known.some(function (it) { return it.mode === 'janus'; }))
        known.push({name: 'Janus', mime: 'text/x-janus', mode: 'janus', ext: ['janus']});
}

return {define: define_mode};
});
