// The panel: where the kernel stands, messages, the tree, the slider, what others did, and the values.
define(['./tree.js', './timeline.js', './values.js', './texts.js'], function (Tree, Timeline, Values, texts) {
'use strict';

const OTHERS = 4;                       // how many doings of other frontends stay in sight
const MOST_LOOKED = 1000;               // of so many cells on a way the texts are looked at
const MARKUP = '<div class="janus-head"><b class="janus-title"></b> <span class="janus-where"></span>' +
    '<button type="button" class="close" aria-label="Close the panel" title="Close" hidden>&times;</button></div>' +
    '<form class="janus-go"><label>go to node <input type="number" min="0" max="4294967295" class="form-control input-sm jp-mod-styled"></label> ' +
    '<button type="submit" class="btn btn-default btn-xs jp-mod-styled">Go</button></form>' +
    '<div class="janus-message" role="status" aria-live="polite"></div><div class="janus-said janus-hidden" role="status" aria-live="polite"></div>';
const REST = '<div class="janus-limits" role="status"></div><div class="janus-note"></div>' +
    '<ol class="janus-others" role="log" aria-label="What other frontends did"></ol>';

class Panel {
    // `acts` has the calls `go`, `move`, `leave`, which gives the focus back, and `close` where the panel has a button for it.
    constructor(history, title, acts) {
        this.history = history;
        this.others = [];
        const root = this.element = document.createElement('div');
        root.id = 'janus-panel';                                        // one at a time is in the document
        root.setAttribute('role', 'complementary');
        root.setAttribute('aria-label', 'Janus history');
        root.innerHTML = MARKUP;
        this.title(title);
        this.tree = new Tree(history, root, acts.go);
        this.timeline = new Timeline(history, root, acts.move);
        root.insertAdjacentHTML('beforeend', REST);
        this.values = new Values(root);
        this.listen(root, acts);
    }

    listen(root, acts) {
        this.find('.close').hidden = !acts.close;
        this.find('.close').addEventListener('click', () => acts.close());
        this.find('form').addEventListener('submit', event => {
            event.preventDefault();
            const text = this.find('.janus-go input').value;
            if (/^[0-9]+$/.test(text)) acts.go(Number(text));
        });
        root.addEventListener('keydown', event => {
            if (event.key === 'Escape') acts.leave();
        });
    }

    find(css) { return this.element.querySelector(css); }

    title(text) { this.find('.janus-title').textContent = text; }

    message(text, kind) {
        const box = this.find('.janus-message');
        box.textContent = text;
        box.className = 'janus-message' + (kind ? ' janus-' + kind : '');
    }

    limits(text) {
        const box = this.find('.janus-limits');
        if (box.textContent !== text) box.textContent = text;
    }

    other(say) {
        this.others.push(say);
        if (this.others.length > OTHERS) this.others.shift();
    }

    clear() {
        this.others = [];
        this.values.clear();
        this.timeline.stop();
        this.tree.followed = '';
        this.limits('');
    }

    // Whether something on the way between two nodes may have changed a name: a cell can change no name that it doesn't have.
    touched(from, to) {
        const way = from === null ? [] : this.history.between(from, to), label = this.history.label;
        return function (name) {
            return way === null || way.length > MOST_LOOKED || way.some(n => !label[n] || label[n].is_cut || texts.names(label[n].code).has(name));
        };
    }

    show_values(world, node) {
        const changed = this.values.show(world, node, this.touched(this.values.node, node)), where = 'At node ' + node;
        this.find('.janus-said').textContent = changed ? where + '. Changed: ' + changed : where;
        this.timeline.arrived();
    }

    update() {
        this.tree.draw();
        this.timeline.update();
        this.find('.janus-where').textContent = this.where();
        const note = this.find('.janus-note'), said = this.note();
        if (note.textContent !== said) note.textContent = said;
        note.hidden = said === '';
        const others = this.others.map(function (say) { return '<li>' + texts.escape(say()) + '</li>'; }).join('');
        if (others !== this.others_written) this.find('.janus-others').innerHTML = others;
        this.others_written = others;
    }

    where() {
        const history = this.history, depth = history.depth_of(history.position);
        return !history.known ? 'no answer yet' : 'at node ' + history.position + ' of ' + history.nodes + (depth >= 0 ? ', depth ' + depth : '') +
            (history.redo ? ', ' + history.redo + ' to redo' : '');
    }

    // What can't be known, and why.
    note() {
        const unknown = this.history.unknown(), parts = [];
        if (unknown === 0) return '';
        parts.push(texts.count(unknown, 'node') + ' (marked ?) ran unheard by this page, and the kernel does not say where in the tree.');
        for (const gap of this.history.path().gaps)
            if (gap[2] > 0) parts.push('Between ' + gap[1] + ' and ' + gap[0] + ' on the path lie ' + (gap[2] - 1) + ' of them.');
        parts.push('Going to one tells more.');
        return parts.join(' ');
    }
}

return Panel;
});
