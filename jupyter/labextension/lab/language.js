// The plugin of the language: Janus in editors of CodeMirror 6, by the mode of highlight.js, and the types of its files.
define(['../highlight.js', '@jupyterlab/codemirror', '@codemirror/language'], function (highlight, codemirror, language) {
'use strict';

const COMMAND = /^%.*/;                 // a line of janus-cells, as %undo 1
const mode = highlight.mode({});

// The mode of the classic page, as a parser of CodeMirror 6: the two ask for nearly the same.
const janus = {
    name: 'janus',
    startState: mode.startState,
    copyState: mode.copyState,
    token: mode.token,
    indent: function (state, text, context) { return highlight.mode({indentUnit: context.unit}).indent(state, text); },
    languageData: {commentTokens: {line: mode.lineComment}, indentOnInput: mode.electricInput, closeBrackets: {brackets: ['(', '[']}},
};
const cells = Object.assign({}, janus, {
    name: 'janus-cells',
    token: function (stream, state) {
        if (!stream.sol() || !stream.match(COMMAND)) return mode.token(stream, state);
        Object.assign(state, mode.startState());
        return 'meta';
    },
});
const LANGUAGES = [
    {parser: janus, title: 'Janus', mime: 'text/x-janus'},
    {parser: cells, title: 'Janus cells', mime: 'text/x-janus-cells'},
];

function add(registry, files, it) {
    const name = it.parser.name;
    files.addFileType({name: name, displayName: it.title, extensions: ['.' + name], mimeTypes: [it.mime], contentType: 'file', fileFormat: 'text'}, ['Editor']);
    if (registry.findByMIME(it.mime, true)) return;
    registry.addLanguage({
        name: name, displayName: it.title, mime: it.mime, extensions: [name],
        load: async function () { return new language.LanguageSupport(language.StreamLanguage.define(it.parser)); },
    });
}

return {
    id: 'janus-history:language',
    description: 'Colours, indentation and file types of Janus',
    autoStart: true,
    requires: [codemirror.IEditorLanguageRegistry],
    optional: [],
    activate: function (app, registry) { LANGUAGES.forEach(function (it) { add(registry, app.docRegistry, it); }); },
};
});
