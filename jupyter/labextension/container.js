// The container that JupyterLab asks for plugins, as webpack's module federation has it, written by hand.
//
// The modules are joined behind this file by ./make, each as `(function (define) { FILE })(at('NAME'));`. What they need of JupyterLab is taken
// from the shared scope, before any of them is made. Where JupyterLab shares no such package, or one of another version, the plugins that need it
// are left out, which one line of the console says.

const NAME = 'janus-history', PLUGINS = ['lab/language.js', 'lab/history.js'];
const KNOWN = {                         // the packages of JupyterLab that are needed, with the versions that are known
    '@jupyterlab/apputils': 4, '@jupyterlab/cells': 4, '@jupyterlab/codemirror': 4, '@jupyterlab/console': 4, '@jupyterlab/notebook': 4,
    '@jupyterlab/services': 7, '@jupyterlab/ui-components': 4, '@lumino/widgets': 2, '@codemirror/language': 6, '@codemirror/state': 6,
    '@codemirror/view': 6,
};
const here = document.currentScript ? document.currentScript.src : '';
let scope = null;                       // JupyterLab's shared scope: package name to {version: {get, loaded, from}}
const taken = new Map();                // what was taken of it

// JupyterLab shares one of each of these packages. Where there were several, the one in use counts, else the newest.
async function take(name) {
    const versions = scope[name] || {};
    const rising = Object.keys(versions).sort(function (a, b) { return a.localeCompare(b, undefined, {numeric: true}); });
    const version = rising.find(function (it) { return versions[it].loaded; }) || rising[rising.length - 1];
    if (version === undefined) throw new Error('JupyterLab shares no ' + name);
    if (parseInt(version, 10) !== KNOWN[name]) throw new Error('JupyterLab shares ' + name + ' ' + version + ', and here ' + KNOWN[name] + ' is known');
    versions[version].loaded = 1;
    const make = await versions[version].get();
    return make();
}

async function plugin(file) {
    await Promise.all(Array.from(packages(file), async function (name) { taken.set(name, await take(name)); }));
    const made = load(file), act = made.activate;
    if (!made.requires.concat(made.optional).every(Boolean)) throw new Error('JupyterLab has other tokens than are known here');
    made.activate = function (app, ...given) {
        try {
            act(app, ...given);
        } catch (error) {
            warn([error.message]);
        }
    };
    return made;
}

function warn(faults) { console.warn(NAME + ': ' + faults.join('; ') + '. Janus goes on without what needs it.'); }

const container = {
    // Called once all containers are there, and again with the same scope by whoever shares.
    init: function (shared) {
        if (scope !== null && scope !== shared) throw new Error(NAME + ': another shared scope');
        scope = shared;
    },
    get: async function (name) {
        if (name !== './extension') throw new Error(NAME + ': no module ' + name);
        const plugins = [], faults = new Set();
        for (const file of PLUGINS) await plugin(file).then(function (it) { plugins.push(it); }, function (error) { faults.add(error.message); });
        if (faults.size) warn(Array.from(faults));
        add_style();
        return function () { return {__esModule: true, default: plugins}; };
    },
};

// ---- the modules, as RequireJS would load them
const makers = new Map(), made = new Map();

function at(name) { return function (needs, make) { makers.set(name, {needs: needs, make: make}); }; }

function is_shared(name) { return name.startsWith('@'); }

// The name of a module that another one names beside itself.
function beside(from, name) {
    const way = from.split('/').slice(0, -1);
    for (const part of name.split('/')) if (part === '..') way.pop(); else if (part !== '.') way.push(part);
    return way.join('/');
}

function maker_of(name) {
    const maker = makers.get(name);
    if (!maker) throw new Error('there is no module ' + name);
    return maker;
}

// All packages that a module needs, and those beside it that it needs.
function packages(name, seen = new Set(), found = new Set()) {
    if (seen.has(name)) return found;
    seen.add(name);
    for (const need of maker_of(name).needs) if (is_shared(need)) found.add(need); else packages(beside(name, need), seen, found);
    return found;
}

function load(name) {
    if (!made.has(name)) {
        const maker = maker_of(name), needs = maker.needs.map(function (it) { return is_shared(it) ? taken.get(it) : load(beside(name, it)); });
        made.set(name, maker.make.apply(null, needs));
    }
    return made.get(name);
}

// The style has the same name as this file, so that a new one is never mixed with an old one that the browser kept.
function add_style() {
    const link = document.createElement('link');
    link.rel = 'stylesheet';
    link.href = here.replace(/remoteEntry\.(\w+)\.js/, 'style.$1.css');
    document.head.appendChild(link);
}

(window._JUPYTERLAB = window._JUPYTERLAB || {})[NAME] = container;
