// Loads the page's modules without a browser: `load(folder)` answers a function from a file's name to what it defines. `more` are names that the
// modules find in the place of the usual ones, as a clock's.
'use strict';
const fs = require('fs'), path = require('path'), vm = require('vm');

module.exports = function (folder, more = {}) {
    const loaded = new Map();
    const load = function (name) {
        if (loaded.has(name)) return loaded.get(name);
        const file = path.join(folder, name);
        let made;
        const define = function (needs, make) {
            made = make.apply(null, needs.map(function (it) { return it.startsWith('./') ? load(it.slice(2)) : {}; }));
        };
        const scope = Object.assign({define, console, TextEncoder, TextDecoder, performance, setTimeout, clearTimeout, MessageChannel}, more);
        vm.runInNewContext(fs.readFileSync(file, 'utf8'), scope, {filename: file});
        loaded.set(name, made);
        return made;
    };
    return load;
};
