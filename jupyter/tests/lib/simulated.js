// A kernel without cells: the tree, the position and the favourites as the kernel keeps them. What the page says must agree with it.
'use strict';

class Kernel {
    constructor() {
        this.parent = [-1];
        this.favourite = [0];
        this.position = 0;
    }

    get nodes() { return this.parent.length - 1; }

    depth(node) {
        let depth = 0;
        for (let n = node; n > 0; n = this.parent[n]) depth++;
        return depth;
    }

    redo_count() {
        let count = 0;
        for (let n = this.favourite[this.position]; n > 0; n = this.favourite[n]) count++;
        return count;
    }

    on_path() {
        const path = new Set();
        for (let n = this.position; n >= 0; n = this.parent[n]) path.add(n);
        return path;
    }

    state() {
        const depth = this.depth(this.position);
        return {op: 'state', status: 'ok', node: this.position, depth: depth, redo: this.redo_count(), nodes: this.nodes, busy: false, world: []};
    }

    cell() {
        const node = this.parent.length;
        this.parent.push(this.position);
        this.favourite.push(0);
        this.favourite[this.position] = node;
        this.position = node;
        return node;
    }

    undo(count) {
        if (count > this.depth(this.position)) return null;
        for (let i = 0; i < count; i++) this.position = this.parent[this.position];
        return {op: 'undo', undone: count, redone: 0, node: this.position};
    }

    redo(count) {
        if (count > this.redo_count()) return null;
        for (let i = 0; i < count; i++) this.position = this.favourite[this.position];
        return {op: 'redo', undone: 0, redone: count, node: this.position};
    }

    goto(node) {
        const path = this.on_path();
        let meeting = node, redone = 0;
        for (; !path.has(meeting); redone++) {
            this.favourite[this.parent[meeting]] = meeting;
            meeting = this.parent[meeting];
        }
        const undone = this.depth(this.position) - this.depth(meeting);
        this.position = node;
        return {op: 'goto', undone: undone, redone: redone, node: node};
    }
}

module.exports = Kernel;
