// What this browser knows of a run of the kernel is kept for the next page of it.
define([], function () {
'use strict';

const LABELS = 2000, TEXT = 200;        // so many of the newest labels are kept, with so much of their text
const WEEK = 7 * 864e5;                 // ms
const BEGIN = 'janus:', OPEN = 'janus-open';

function short(label) { return label && {count: label.count, code: label.code.slice(0, TEXT), is_cut: label.is_cut || label.code.length > TEXT}; }

// `pairs` answers the pairs of prompts and nodes.
function keep(run, history, limits, pairs) {
    if (!history.known || run === null || history.sure !== history.nodes) return;
    const from = Math.max(1, history.nodes - LABELS);
    try {
        localStorage.setItem(BEGIN + run, JSON.stringify({
            at: Date.now(), nodes: history.nodes, position: history.position, parent: history.parent, favourite: history.favourite,
            links: history.links, from: from, label: history.label.slice(from).map(short), jobs: limits.kept(),
        }));
        sessionStorage.setItem(BEGIN + run, JSON.stringify(pairs()));
    } catch (error) { /* full, or not allowed: the next page knows less */ }
}

function drop_old(run) {
    for (const key of Object.keys(localStorage)) {
        if (key.indexOf(BEGIN) !== 0 || key === BEGIN + run) continue;
        if (!(JSON.parse(localStorage.getItem(key)).at > Date.now() - WEEK)) localStorage.removeItem(key);
    }
}

// Makes history and limits as they were when they were kept, and answers the pairs of prompts and nodes; none where nothing was kept.
function recall(run, history, limits) {
    try {
        drop_old(run);
        const kept = JSON.parse(localStorage.getItem(BEGIN + run) || 'null');
        if (!kept) return [];
        history.grow(kept.nodes);
        for (const field of ['parent', 'favourite', 'links', 'position']) history[field] = kept[field];
        kept.label.forEach(function (it, i) { history.label[kept.from + i] = it; });
        history.sure = kept.nodes;
        history.known = true;
        history.reshaped = true;
        history.version++;
        limits.recall(kept.jobs || [0, 0]);
        return pairs_of(run);
    } catch (error) {
        history.clear();
        return [];
    }
}

// The pairs of prompts and nodes that this page, or its last load, kept.
function pairs_of(run) {
    try {
        return JSON.parse(sessionStorage.getItem(BEGIN + run) || '[]');
    } catch (error) {
        return [];
    }
}

// Whether the panel was open when it was last shown or hidden.
function was_open() {
    try {
        return localStorage.getItem(OPEN) !== '0';
    } catch (error) {
        return true;
    }
}

function keep_open(yes) {
    try {
        localStorage.setItem(OPEN, yes ? '1' : '0');
    } catch (error) { /* not kept */ }
}

return {keep: keep, recall: recall, pairs_of: pairs_of, was_open: was_open, keep_open: keep_open};
});
