// How much is used of the two limits that end a kernel's work. The kernel tells its nodes and no minutes: each job takes two, of which at least those
// are known that were heard.
define([], function () {
'use strict';

const MOST_NODES = 65536, MOST_MINUTES = 1000000, MINUTES = 2;
const SAVE = ' Before that, save the session with janus-save-session, and restart the kernel.';

function is_near(number, most) { return 10 * number > 9 * most; }

function of(number, most) { return number.toLocaleString('en-US') + ' of ' + most.toLocaleString('en-US'); }

class Limits {
    constructor() {
        this.count = 0;                 // cells that ran or failed, by the highest of their numbers
        this.others = 0;                // moves, and cells without a number, that were heard
    }

    cell(count) { this.count = Math.max(this.count, count); }

    other() { this.others++; }

    minutes(nodes) { return MINUTES * (Math.max(this.count, nodes) + this.others); }

    // What is to be said above nine tenths of a limit, else an empty text.
    said(nodes) {
        const minutes = this.minutes(nodes), said = [];
        if (is_near(nodes, MOST_NODES)) said.push(of(nodes, MOST_NODES) + ' nodes are used. After the last of them no further cell runs.');
        if (is_near(minutes, MOST_MINUTES)) said.push('At least ' + of(minutes, MOST_MINUTES) + ' minutes are used, two for each cell and each move. ' +
            'After the last of them nothing runs any more.');
        return said.length ? said.join(' ') + SAVE : '';
    }

    // For the next page of this run, and from the last one.
    kept() { return [this.count, this.others]; }

    recall(kept) {
        this.cell(kept[0]);
        this.others += kept[1];
    }
}

return Limits;
});
