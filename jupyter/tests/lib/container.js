// The extension for JupyterLab without JupyterLab: `ask(script, without, other)` makes its container, hands it a shared scope, and answers its
// plugins and what it said on the console. `without` are packages that are left out, `other` are versions in place of the known ones.
'use strict';
const fs = require('fs'), vm = require('vm');

const call = function () { return {define: call}; };
const VERSIONS = {
    '@jupyterlab/apputils': '4.1.12', '@jupyterlab/cells': '4.0.11', '@jupyterlab/codemirror': '4.0.11', '@jupyterlab/console': '4.0.11',
    '@jupyterlab/notebook': '4.0.11', '@jupyterlab/services': '7.0.11', '@jupyterlab/ui-components': '4.0.11', '@lumino/widgets': '2.3.0',
    '@codemirror/language': '6.6.0', '@codemirror/state': '6.2.0', '@codemirror/view': '6.9.6',
};
const PACKAGES = {
    '@jupyterlab/apputils': {ICommandPalette: {}, Notification: {}}, '@jupyterlab/cells': {CodeCell: {execute: call}},
    '@jupyterlab/codemirror': {IEditorLanguageRegistry: {}}, '@jupyterlab/console': {IConsoleTracker: {}}, '@jupyterlab/notebook': {INotebookTracker: {}},
    '@jupyterlab/services': {KernelMessage: {}}, '@jupyterlab/ui-components': {LabIcon: class {}}, '@lumino/widgets': {Widget: class {}},
    '@codemirror/language': {}, '@codemirror/state': {StateEffect: {define: call}, StateField: {define: call}}, '@codemirror/view': {},
};

function shared(without, other, taken) {
    const scope = {};
    for (const name of Object.keys(VERSIONS).filter(function (it) { return !without.includes(it); })) {
        scope[name] = {};
        for (const version of [].concat(other[name] || VERSIONS[name])) {
            scope[name][version] = {loaded: 0, get: async function () {
                taken.push(name + ' ' + version);
                return function () { return PACKAGES[name]; };
            }};
        }
    }
    return scope;
}

module.exports = async function (script, without = [], other = {}, used = []) {
    const said = [], taken = [], scope = shared(without, other, taken);
    for (const it of used) scope[it[0]][it[1]].loaded = 1;
    const element = {}, window = {addEventListener: call}, console = {warn: function (it) { said.push(it); }};
    const document = {currentScript: {src: 'http://lab/remoteEntry.0.js'}, createElement: function () { return element; }, head: {appendChild: call}};
    vm.runInNewContext(fs.readFileSync(script, 'utf8'), {window, document, console, TextEncoder, TextDecoder});
    const container = window._JUPYTERLAB['janus-history'];
    container.init(scope);
    const plugins = (await container.get('./extension'))().default;
    return {plugins: plugins, ids: plugins.map(function (it) { return it.id; }).join(' '), said: said, taken: taken, style: element.href};
};
