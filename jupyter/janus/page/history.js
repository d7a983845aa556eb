// The tree of histories, as far as it is known.
//
// The kernel tells how far each move went, where it stands, and how many nodes there are, but not the tree. This is what follows from that:
// - a cell that ended well is the node `nodes + 1`, under the position at its begin;
// - a move from a to b by `undone` and `redone` says that the undone-th node above a is the redone-th above b;
// - nodes are numbered in the order in which they came, so numbers rise along each path;
// - node 0 stands `depth` steps above the position.
// What doesn't follow stays open: parent[n] is -1.
define(['./rising.js'], function (rising) {
'use strict';

// What a link came to.
const WRONG = 'wrong', CLOSED = 'closed', NEWS = 'news', OPEN = 'open';

class History {
    constructor() { this.clear(); }

    clear() {
        this.nodes = 0;
        this.position = 0;
        this.redo = 0;                  // how many cells can be redone, as far as it is known
        this.redo_sure = false;         // whether that is so for sure
        this.parent = [-1];
        this.depth = [0];               // -1 where it isn't known
        this.favourite = [-1];          // the child that a redo goes to, or -1
        this.label = [null];            // {count, code, is_cut} of the node's cell, whose text may be cut
        this.links = [];                // [low, high, steps]: high is so many steps above low
        this.bends = [];                // [a, up, b, down]: the up-th node above a is the down-th above b
        this.journal = [];              // nodes whose parent was learnt since the last check
        this.sure = 0;                  // nodes at the last check
        this.known = false;             // whether any state was heard
        this.reshaped = true;           // whether a parent was learnt or lost, but for that of a new node
        this.version = (this.version || 0) + 1;
    }

    grow(nodes) {
        for (let n = this.nodes + 1; n <= nodes; n++) {
            this.parent[n] = -1;
            this.depth[n] = -1;
            this.favourite[n] = -1;
            this.label[n] = null;
        }
        this.nodes = Math.max(this.nodes, nodes);
        this.know_first();
        this.version++;
    }

    // Parents have smaller numbers than their children, so node 1 stands under node 0.
    know_first() {
        if (this.nodes < 1) return;
        this.parent[1] = 0;
        this.depth[1] = 1;
    }

    depth_of(node) {
        const way = [];
        let n = node;
        while (n >= 0 && this.depth[n] < 0) {
            way.push(n);
            n = this.parent[n];
        }
        if (n < 0) return -1;
        let depth = this.depth[n];
        while (way.length) this.depth[way.pop()] = ++depth;
        return depth;
    }

    // The node so many steps above, or -1 where it isn't known.
    above(node, steps) {
        let n = node;
        for (let left = steps; left > 0 && n >= 0; left--) n = this.parent[n];
        return n;
    }

    // The nodes that run back or forth on the way from one node to another, or null where it isn't known.
    between(from, to) {
        const out = [];
        for (let a = from, b = to; a !== b;) {                          // the later of the two stands below where they meet
            out.push(Math.max(a, b));
            if (a > b) a = this.parent[a]; else b = this.parent[b];
            if (!(a >= 0 && b >= 0)) return null;
        }
        return out;
    }

    set_parent(node, parent) {
        if (this.parent[node] === parent) return true;
        if (this.parent[node] >= 0 || parent >= node || parent < 0) return false;
        this.parent[node] = parent;
        this.journal.push(node);
        this.reshaped = true;
        this.version++;
        return true;
    }

    // ---- facts: each call is false where the fact can't be true beside what is known
    link(low, high, steps) {
        this.links.push([low, high, steps]);
        return this.settle();
    }

    bend(a, up, b, down) {
        if (up === 0) return this.link(b, a, down);
        if (down === 0) return this.link(a, b, up);
        this.bends.push([a, up, b, down]);
        return this.settle();
    }

    settle() {
        for (let news = true; news;) {
            const links = this.settle_links();
            if (links === WRONG) return false;
            const bends = this.settle_bends();
            news = links === NEWS || bends === NEWS;
        }
        return true;
    }

    settle_links() {
        const links = this.links, open = new Map();
        let outcome = CLOSED;
        for (let i = 0; i < links.length; i++) {
            const link = this.raise(links[i]), came_to = this.conclude(link);
            if (came_to === WRONG) {
                this.links = Array.from(open.values()).concat(links.slice(i));
                return WRONG;
            }
            if (came_to === OPEN) open.set(link.join(), link);
            if (came_to === NEWS || came_to === OPEN && this.learn_depth(link)) outcome = NEWS;
        }
        this.links = Array.from(open.values());
        return outcome;
    }

    // The same fact, said of the highest node that is known to stand above its low end.
    raise(link) {
        let low = link[0], steps = link[2];
        while (steps > 0 && this.parent[low] >= 0) {
            low = this.parent[low];
            steps--;
        }
        return [low, link[1], steps];
    }

    conclude(link) {
        const low = link[0], high = link[1], steps = link[2];
        if (steps === 0) return low === high ? CLOSED : WRONG;
        if (low - high < steps) return WRONG;
        if (steps > 1 && low - high > steps) return OPEN;
        const stride = steps === 1 ? low - high : 1;                    // one step, or a chain of all the numbers between
        for (let n = low; n > high; n -= stride) if (!this.set_parent(n, n - stride)) return WRONG;
        return NEWS;
    }

    learn_depth(link) {
        const high = this.depth_of(link[1]);
        if (high < 0 || this.depth[link[0]] >= 0) return false;
        this.depth[link[0]] = high + link[2];
        return true;
    }

    settle_bends() {
        const bends = this.bends;
        let outcome = CLOSED;
        this.bends = [];
        for (const bend of bends) {
            const links = this.unbend(bend);
            if (links.length) outcome = NEWS; else this.bends.push(bend);
            this.links = this.links.concat(links);
        }
        return outcome;
    }

    // The links that a bend comes to once it is known which node both of its ways lead to.
    unbend(bend) {
        const a = bend[0], up = bend[1], b = bend[2], down = bend[3];
        const over_a = this.above(a, up), over_b = this.above(b, down);
        if (over_a >= 0) return [[b, over_a, down]];
        if (over_b >= 0) return [[a, over_b, up]];
        if (this.depth_of(a) === up || this.depth_of(b) === down) return [[a, 0, up], [b, 0, down]];
        return [];
    }

    // ---- what was heard
    // A cell ended well: the number of its node.
    cell(label) {
        const node = this.nodes + 1, parent = this.position, depth = this.depth_of(parent), has_path = this.path_of === this.version;
        this.grow(node);
        this.parent[node] = parent;
        this.depth[node] = depth < 0 ? -1 : depth + 1;
        this.favourite[parent] = node;
        this.label[node] = label;
        this.journal.push(node);
        this.position = node;
        this.redo = 0;
        this.redo_sure = true;
        if (has_path) {                                                 // the same one, and this node
            this.found.on.push(node);
            this.path_of = this.version;
        }
        return node;
    }

    // Whether a move is known to begin where the kernel is thought to be: both ends of its way lead up to the same node.
    fits(answer) {
        const over = this.above(this.position, answer.undone);
        return over >= 0 && over === this.above(answer.node, answer.redone);
    }

    // A move was done; false where it doesn't fit what is known.
    move(answer) {
        if (answer.node > this.nodes) return false;
        const good = this.bend(this.position, answer.undone, answer.node, answer.redone);
        this.position = answer.node;
        if (answer.redone === 0) this.redo += answer.undone;
        else if (answer.op === 'redo') this.redo = Math.max(0, this.redo - answer.redone);
        else this.redo_sure = false;                                    // it may have gone down another way
        this.favour(answer.node, answer.redone, good);
        this.version++;
        return good;
    }

    // The way down to the node is what a redo takes from now on.
    favour(node, steps, good) {
        let n = node, left = good ? steps : 0;
        for (; left > 0 && this.parent[n] >= 0; left--) {
            this.favourite[this.parent[n]] = n;
            n = this.parent[n];
        }
        if (left > 0 || !good) this.favourite.fill(-1, 0, n);           // any of these may lead down another way now
    }

    // Whether a state is what is expected.
    expects(state) {
        const depth = this.depth_of(this.position), redo = this.redo_sure ? this.redo : state.redo;
        return this.known && state.node === this.position && state.nodes === this.nodes && redo === state.redo && (depth < 0 || depth === state.depth);
    }

    // Cells that ended before the first state was heard, and nothing else did: they are the newest nodes, one under the other.
    early(labels) {
        const many = labels.length, last = this.nodes;
        if (many === 0 || this.position !== last || many > last) return false;
        for (let i = 0; i < many; i++) this.label[last - many + 1 + i] = labels[i];
        return this.link(last, last - many + 1, many - 1);
    }

    // A state was heard while all was quiet. True where it is what was expected; else what was concluded since the last check is dropped,
    // as it is where broadcasts are known to be missing.
    check(state, missing) {
        const good = !missing && this.expects(state);
        if (!good) this.begin_anew(state);
        this.known = true;
        this.redo = state.redo;
        this.redo_sure = true;
        this.depth[this.position] = state.depth;
        if (!this.learn(state)) {
            this.forget();
            this.depth[this.position] = state.depth;
        }
        this.journal = [];
        this.sure = this.nodes;
        this.version++;
        return good;
    }

    begin_anew(state) {
        if (this.known) this.forget();
        if (state.nodes < this.nodes) this.clear();
        this.grow(state.nodes);
        this.position = state.node;
    }

    learn(state) {
        if (!this.link(state.node, 0, state.depth)) return false;
        if (state.redo === 0 || state.redo !== state.nodes - state.node) return true;
        for (let n = state.node; n < state.nodes; n++) this.favourite[n] = n + 1;     // all later nodes stand below, in one chain
        return this.link(state.nodes, state.node, state.redo);
    }

    forget() {
        for (const n of this.journal) this.parent[n] = -1;
        for (let n = this.sure + 1; n <= this.nodes; n++) {
            this.parent[n] = -1;
            this.label[n] = null;
        }
        this.favourite.fill(-1);
        this.depth.fill(-1, 1);
        this.know_first();
        this.links = [];
        this.bends = [];
        this.journal = [];
        this.reshaped = true;
        this.version++;
    }

    // ---- what is drawn
    // The nodes from 0 to the position that are known to stand on its path, and the gaps [low, high, steps], steps -1 where they aren't known.
    path() {
        if (this.path_of === this.version) return this.found;
        const on = [], gaps = [];
        for (let n = this.position; n >= 0;) {
            on.push(n);
            if (n > 0 && this.parent[n] < 0) gaps.push(this.gap_over(n));
            n = n === 0 ? -1 : this.parent[n] >= 0 ? this.parent[n] : gaps[gaps.length - 1][1];
        }
        this.found = {on: on.reverse(), gaps: gaps};
        this.path_of = this.version;
        return this.found;
    }

    // The texts that are known of the cells on the path, the oldest first.
    codes() {
        const labels = this.path().on.map(n => this.label[n]);
        return labels.filter(function (it) { return it !== null; }).map(function (it) { return it.code; });
    }

    // Whether these are all, each with the whole of its text.
    has_codes() {
        const path = this.path();
        return this.known && path.gaps.length === 0 && path.on.every(n => n === 0 || this.label[n] && !this.label[n].is_cut);
    }

    gap_over(node) {
        const link = this.links.find(function (it) { return it[0] === node; });
        return link || [node, 0, -1];
    }

    // Whether the node is in effect: true, false, or undefined where that isn't known.
    in_effect(node) {
        const path = this.path();
        if (node > this.position) return false;
        if (path.on[rising.first_from(path.on, node)] === node) return true;
        return path.gaps.some(function (gap) { return gap[1] < node && node < gap[0]; }) ? undefined : false;
    }

    // The nodes that redos would go down, the next first; none where they aren't all known.
    redo_path() {
        if (this.redos_of === this.version) return this.redos;
        const out = [];
        for (let n = this.position; out.length < this.redo && this.favourite[n] > 0;) {
            n = this.favourite[n];
            out.push(n);
        }
        this.redos = out.length === this.redo ? out : [];
        this.redos_of = this.version;
        return this.redos;
    }

    is_on_redo_path(node) {
        if (this.redo_set_of !== this.version) this.redo_set = new Set(this.redo_path());
        this.redo_set_of = this.version;
        return this.redo_set.has(node);
    }

    unknown() {
        let number = 0;
        for (let n = 1; n <= this.nodes; n++) if (this.parent[n] < 0) number++;
        return number;
    }

    children(node) {
        const out = [];
        for (let n = node + 1; n <= this.nodes; n++) if (this.parent[n] === node) out.push(n);
        return out;
    }
}

return History;
});
