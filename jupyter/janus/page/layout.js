// Where the nodes of a history are drawn: a row for each, in the order of their numbers, and lanes beside one another.
//
// A first child goes on in its parent's lane. The next two go down in lanes of their own, and all further ones hang on one trunk. A lane is
// used again as soon as it is free.
define([], function () {
'use strict';

const OWN_LANES = 2;                    // how many further children get a lane of their own

class Layout {
    constructor() { this.clear(); }

    clear() {
        this.size = 0;
        this.lane = [];                 // of each node
        this.enter = [];                // the lane by which each node is reached, or -1
        this.out = [];                  // of each node the lanes that leave its row sideways
        this.lines = [];                // of each lane the rows [from, to] that its lines join, rising
        this.end = [];                  // of each lane the last row in use
        this.trunk = [];                // of each node with many children {lane, end}
        this.further = [];              // of each node how many children beside the first it has
    }

    line(lane, from, to) {
        const lines = this.lines[lane] || (this.lines[lane] = []), last = lines[lines.length - 1];
        if (last && last[1] === from && this.end[lane] === from) last[1] = to; else lines.push([from, to]);
        this.end[lane] = to;
    }

    // The first lane from `from` on that is free after the row.
    free(row, from) {
        let lane = from;
        while (lane < this.end.length && this.end[lane] >= row) lane++;
        if (lane >= this.end.length) {
            this.end[lane] = -1;
            this.lines[lane] = [];
        }
        return lane;
    }

    put(node, lane, enter) {
        this.lane[node] = lane;
        this.enter[node] = enter;
        this.end[lane] = Math.max(this.end[lane], node);
    }

    leave(node, lane) { (this.out[node] = this.out[node] || []).push(lane); }

    add(node, parent) {
        this.size = node + 1;
        if (parent < 0) this.put(node, this.free(node, 0), -1);
        else if (this.end[this.lane[parent]] === parent) this.add_first(node, parent);
        else if ((this.further[parent] = (this.further[parent] || 0) + 1) <= OWN_LANES) this.add_beside(node, parent);
        else this.add_to_trunk(node, parent);
    }

    add_first(node, parent) {
        const lane = this.lane[parent];
        this.line(lane, parent, node);
        this.put(node, lane, lane);
    }

    add_beside(node, parent) {
        const lane = this.free(parent, 0);
        this.line(lane, parent, node);
        this.put(node, lane, lane);
        this.leave(parent, lane);
    }

    add_to_trunk(node, parent) {
        const old = this.trunk[parent], goes_on = old && this.end[old.lane] === old.end;
        const trunk = goes_on ? old : {lane: this.free(parent, 0), end: parent};
        if (!goes_on) this.leave(parent, trunk.lane);
        this.line(trunk.lane, trunk.end, node);
        trunk.end = node;
        this.trunk[parent] = trunk;
        this.put(node, this.free(node, trunk.lane + 1), trunk.lane);
    }

    // Lays out what is new, or all where the tree has another shape than before.
    fit(history) {
        if (history.reshaped || this.size > history.nodes + 1) {
            this.clear();
            history.reshaped = false;
        }
        for (let n = this.size; n <= history.nodes; n++) this.add(n, n === 0 ? -1 : history.parent[n]);
    }
}

return Layout;
});
