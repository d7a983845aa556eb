// The drawing of the tree: SVG of the rows in sight, with a click or a key to go to a node.
//
// To a screen reader it is a tree of which the rows in sight are there, each with what it is in words. The keyboard's row is the active
// descendant: arrows up and down go from row to row, left to the parent, right to the child that a redo takes, Enter goes there.
define(['./layout.js', './rising.js', './texts.js'], function (Layout, rising, texts) {
'use strict';

const ROW = 22, LANE = 15, LEFT = 14, RADIUS = 5.5, TOP = 4, LANES_WIDE = 200;
const MARGIN = 4;                       // rows that are drawn above and below those in sight
const SHOWN = 400;                      // so much of a cell's text is there under the mouse
const MARKUP = '<div class="janus-tree" role="tree" tabindex="0" aria-label="Tree of histories" aria-describedby="janus-keys">' +
    '<svg xmlns="http://www.w3.org/2000/svg" role="presentation"><path class="edges"/><path class="gaps"/><path class="redos"/><path class="way"/>' +
    '<g class="rows" role="presentation"></g></svg></div>' +
    '<div id="janus-keys" class="janus-hidden">Arrow up and down go from row to row, left to the parent, right to a child. Enter goes to the node.</div>';

const ROW_MARKUP = '<g role="treeitem"><rect class="hit" x="0" width="100%" height="' + ROW + '"/><text class="ask"/><circle/>' +
    '<text class="words"><tspan class="num"/><tspan class="count" dx="6"/><tspan class="code" dx="6"/></text></g>';

function middle(row) { return row * ROW + ROW / 2 + TOP; }

class Tree {
    // `go` is called with the number of a node that is to be gone to.
    constructor(history, parent, go) {
        this.history = history;
        this.go = go;
        this.layout = new Layout();
        this.cursor = 0;                // the keyboard's row
        this.followed = '';             // which position was last brought into sight
        this.first = 0;                 // the first row that stands there
        this.base = 0;                  // the row from which their heights are counted, so that elements need no other height behind a jump
        this.top = this.height = this.width = 0;                        // of what is in sight; the height is 0 where the tree isn't
        this.placed = 0;                // the top that the box has
        this.is_to_move = false;        // whether it gets another one as the next frame has been laid out
        this.is_placed = false;         // whether it got one, and the event that tells of it is still to come
        this.stats = {draws: 0, last: 0, most: 0};
        parent.insertAdjacentHTML('beforeend', MARKUP);
        this.box = parent.querySelector('.janus-tree');
        this.svg = this.box.querySelector('svg');
        this.rows = this.svg.querySelector('.rows');
        this.lines = {};
        for (const name of ['edges', 'gaps', 'redos', 'way']) this.lines[name] = this.svg.querySelector('.' + name);
        this.box.addEventListener('scroll', () => this.scrolled());
        for (const it of ['wheel', 'pointerdown', 'touchmove']) this.box.addEventListener(it, () => { this.is_placed = false; }, {passive: true});
        new ResizeObserver(() => this.sized()).observe(this.box);
        this.laid_out = new ResizeObserver(() => this.place());
        this.svg.addEventListener('click', event => this.clicked(event));
        this.svg.addEventListener('mouseover', event => this.hovered(event));
        this.box.addEventListener('keydown', event => this.key(event));
    }

    // The box is asked where it stands only here, where it tells of itself: asked as it is drawn, it would have the whole page laid out at once.
    sized() {
        this.height = this.box.clientHeight;
        this.width = this.box.clientWidth;
        if (!this.is_to_move) this.top = this.placed = this.box.scrollTop;
        this.draw();
    }

    // Where `place` brought it about, what is in sight is drawn already.
    scrolled() {
        const is_drawn = this.is_placed || this.is_to_move;
        this.is_placed = false;
        if (is_drawn) return;
        this.top = this.placed = this.box.scrollTop;
        this.draw();
    }

    // The next drawing is at another place.
    scroll(top) { this.top = Math.round(Math.max(0, Math.min(top, this.all() - this.height))); }

    // Has the box moved to the place that was drawn, once for all that changes before the next frame. To move it has the page laid out, so it waits until
    // that was done for the frame: an observer tells of what it has just begun to observe, behind the layout and before the drawing.
    move() {
        if (this.is_to_move) return;
        this.is_to_move = true;
        this.laid_out.observe(this.svg);
    }

    place() {
        const before = this.placed;
        this.laid_out.unobserve(this.svg);
        this.is_to_move = false;
        if (this.top === before) return;
        this.box.scrollTop = this.top;
        this.placed = this.box.scrollTop;                               // it may not go so far
        this.is_placed = this.placed !== before;
        if (this.placed === this.top) return;
        this.top = this.placed;
        this.draw();
    }

    // The height of all rows.
    all() { return (this.history.nodes + 1) * ROW + 2 * TOP; }

    // The row is found by its height, since what is drawn may be drawn anew while a button is held.
    clicked(event) {
        const node = Math.floor((event.clientY - this.svg.getBoundingClientRect().top - TOP) / ROW);
        if (node < 0 || node > this.history.nodes) return;
        this.cursor = node;
        this.go(node);
    }

    // A row's text is there in full while the mouse is over it.
    hovered(event) {
        const row = event.target.closest('.node'), label = row && this.history.label[Number(row.dataset.node)];
        if (!row || row.querySelector('title')) return;
        const title = document.createElementNS(this.svg.namespaceURI, 'title');
        title.textContent = row.getAttribute('aria-label') + (label ? '\n' + label.code.slice(0, SHOWN) : '');
        row.prepend(title);
    }

    key(event) {
        if (event.ctrlKey || event.altKey || event.metaKey) return;
        this.follow();                  // what was not drawn yet would take the row back from under the key
        if (event.key === 'Enter' || event.key === ' ') this.go(this.cursor);
        else {
            const next = this.next(event.key);
            if (next === null) return;
            this.move_cursor(next);
        }
        event.preventDefault();
        event.stopPropagation();
    }

    // The row to which a key leads, or null where it is no key of the tree.
    next(key) {
        const page = Math.max(1, Math.floor(this.height / ROW) - 1), last = this.history.nodes, at = this.cursor;
        if (key === 'ArrowUp') return Math.max(0, at - 1);
        if (key === 'ArrowDown') return Math.min(last, at + 1);
        if (key === 'PageUp') return Math.max(0, at - page);
        if (key === 'PageDown') return Math.min(last, at + page);
        if (key === 'Home') return 0;
        if (key === 'End') return last;
        if (key === 'ArrowLeft') return at > 0 && this.history.parent[at] >= 0 ? this.history.parent[at] : at;
        if (key === 'ArrowRight') return this.child(at);
        return null;
    }

    child(node) {
        if (this.history.favourite[node] > 0) return this.history.favourite[node];
        const children = this.history.children(node);
        return children.length ? children[0] : node;
    }

    move_cursor(node) {
        this.cursor = node;
        const y = node * ROW;
        if (y < this.top) this.scroll(y);
        if (y + 2 * ROW > this.top + this.height) this.scroll(y + 2 * ROW - this.height);
        this.draw();
    }

    // Brings the position into sight as it moves, and the keyboard's row with it.
    follow() {
        const history = this.history, now = history.position + '/' + history.nodes;
        if (this.followed === now) return;
        this.followed = now;
        this.cursor = history.position;
        const y = history.position * ROW;
        if (y < this.top + ROW || y > this.top + this.height - 2 * ROW) this.scroll(y - this.height / 2);
    }

    draw() {
        if (this.height === 0) return;
        const begun = performance.now(), history = this.history;
        this.layout.fit(history);
        this.follow();
        const top = this.top, view = {
            first: Math.max(0, Math.floor(top / ROW) - MARGIN), last: Math.min(history.nodes, Math.ceil((top + this.height) / ROW) + MARGIN),
            pitch: Math.max(1.2, Math.min(LANE, LANES_WIDE / this.layout.lines.length)),          // many lanes stand closer
        };
        const edges = this.edges(view), ways = this.ways(view);
        view.words = this.x(view, edges.widest) + 14;                   // where the words of all rows begin
        this.set(this.svg, 'height', this.all());
        this.set(this.svg, 'width', Math.max(this.width - 2, view.words + 120));
        for (const name of ['way', 'gaps', 'redos']) this.set(this.lines[name], 'd', ways[name]);
        this.set(this.lines.edges, 'd', edges.path);
        this.write_rows(view);
        if (top !== this.placed) this.move();
        this.count(performance.now() - begun);
    }

    // An attribute, or none where the value is null.
    set(element, name, value) {
        if (value === null) element.removeAttribute(name);
        else if (element.getAttribute(name) !== String(value)) element.setAttribute(name, value);
    }

    count(time) {
        this.stats.draws++;
        this.stats.last = time;
        this.stats.most = Math.max(this.stats.most, time);
    }

    x(view, lane) { return LEFT + lane * view.pitch; }

    // A row that stands far out of sight is drawn as if it stood just out of it.
    cut(view, row) { return middle(Math.min(Math.max(row, view.first - 1), view.last + 1)); }

    // The lines of all lanes that cross the rows in sight, and the widest of these lanes.
    edges(view) {
        const layout = this.layout;
        let path = '', widest = 0;
        for (let lane = 0; lane < layout.lines.length; lane++) {
            const found = this.lane_edges(view, lane);
            if (found) widest = lane;
            path += found;
        }
        for (let n = view.first; n <= view.last; n++) {
            widest = Math.max(widest, layout.lane[n]);
            const from = 'M' + this.x(view, layout.lane[n]) + ' ' + middle(n) + 'H';
            for (const lane of layout.out[n] || []) path += from + this.x(view, lane);
            if (layout.enter[n] >= 0 && layout.enter[n] !== layout.lane[n]) path += from + this.x(view, layout.enter[n]);
        }
        return {path: path, widest: widest};
    }

    lane_edges(view, lane) {
        const lines = this.layout.lines[lane], x = this.x(view, lane);
        let low = 0, high = lines.length, path = '';
        while (low < high) {
            const half = (low + high) >> 1;
            if (lines[half][1] < view.first) low = half + 1; else high = half;
        }
        for (; low < lines.length && lines[low][0] <= view.last; low++)
            path += 'M' + x + ' ' + this.cut(view, lines[low][0]) + 'V' + this.cut(view, lines[low][1]);
        return path;
    }

    // From a node to its child.
    route(view, parent, child) {
        if (child < view.first - 1 || parent > view.last + 1) return '';
        const layout = this.layout;
        return 'M' + this.x(view, layout.lane[parent]) + ' ' + middle(parent) + 'H' + this.x(view, layout.enter[child]) +
            'V' + middle(child) + 'H' + this.x(view, layout.lane[child]);
    }

    // The path to the position, its gaps, and the way that redos would take.
    ways(view) {
        const history = this.history, on = history.path().on, redos = history.redo_path();
        let way = '', gaps = '', back = '';
        for (let i = Math.max(1, rising.first_from(on, view.first - 1)); i < on.length && on[i - 1] <= view.last + 1; i++) {
            const parent = on[i - 1], child = on[i];
            if (history.parent[child] === parent) way += this.route(view, parent, child);
            else gaps += 'M' + (this.x(view, this.layout.lane[parent]) - 4) + ' ' + this.cut(view, parent) + 'V' + this.cut(view, child);
        }
        for (let i = rising.first_from(redos, view.first - 1); i < redos.length; i++) {
            const above = i > 0 ? redos[i - 1] : history.position;
            if (above > view.last + 1) break;
            if (history.parent[redos[i]] === above) back += this.route(view, above, redos[i]);
        }
        return {way: way, gaps: gaps, redos: back};
    }

    // The elements of rows stay: those of rows that stay in sight for these, the others for other rows. To make them anew takes the page much longer.
    write_rows(view) {
        const as = [this.history.version, this.cursor, view.pitch, view.words].join(' '), rows = this.rows, many = view.last - view.first + 1;
        if (this.first <= view.last && view.first < this.first + rows.childElementCount) {
            for (let n = this.first; n < view.first; n++) rows.append(rows.firstElementChild);
            for (let n = this.first; n > view.first; n--) rows.prepend(rows.lastElementChild);
        } else this.base = view.first;
        while (rows.childElementCount > many) rows.lastElementChild.remove();
        rows.insertAdjacentHTML('beforeend', ROW_MARKUP.repeat(many - rows.childElementCount));
        Array.from(rows.children).forEach((row, i) => this.write(view, row, view.first + i, as));
        this.set(rows, 'transform', 'translate(0 ' + this.base * ROW + ')');
        this.set(this.box, 'aria-activedescendant', 'janus-node-' + this.cursor);
        this.first = view.first;
    }

    write(view, row, n, as) {
        if (row.written === n + ' ' + as) return;
        const history = this.history, label = history.label[n], x = this.x(view, this.layout.lane[n]), depth = history.depth_of(n);
        const loose = n > 0 && history.parent[n] < 0, here = n === history.position;
        row.written = n + ' ' + as;
        row.querySelectorAll('title').forEach(function (it) { it.remove(); });
        this.set(row, 'class', this.classes(n, loose));
        this.set(row, 'id', 'janus-node-' + n);
        this.set(row, 'data-node', n);
        this.set(row, 'aria-label', this.words(n));
        this.set(row, 'aria-level', depth >= 0 ? depth + 1 : null);
        this.set(row, 'aria-selected', here);
        const [hit, ask, circle, words] = row.children, [number, count, code] = words.children, y = middle(n - this.base);
        this.set(hit, 'y', y - ROW / 2);
        this.set(ask, 'x', x - 3);
        this.set(ask, 'y', y - 7);
        this.set(circle, 'cx', x);
        this.set(circle, 'cy', y);
        this.set(words, 'x', view.words);
        this.set(words, 'y', y + 4);
        this.set(circle, 'r', here ? RADIUS + 1.5 : RADIUS);
        this.say(ask, loose ? '?' : '');
        this.say(number, n);
        this.say(count, label && label.count ? '[' + label.count + ']' : '');
        this.say(code, n === 0 ? 'start' : label ? texts.first_line(label.code).slice(0, 60) : '');
    }

    // The text of an element that has no other.
    say(element, text) {
        if (!element.firstChild) element.append('');
        if (element.firstChild.data !== String(text)) element.firstChild.data = text;
    }

    classes(n, loose) {
        const is = this.history.in_effect(n);
        return 'node ' + (is ? 'on' : is === undefined ? 'maybe' : 'off') + (n === this.history.position ? ' here' : '') +
            (this.history.is_on_redo_path(n) ? ' redo' : '') + (loose ? ' loose' : '') + (n === this.cursor ? ' cursor' : '');
    }

    // What a row is, in words.
    words(n) {
        const history = this.history, label = history.label[n], is = history.in_effect(n), parts = ['node ' + n + ' of ' + history.nodes];
        if (n === 0) parts.push('the start');
        else parts.push(history.parent[n] >= 0 ? 'under ' + history.parent[n] : 'under an earlier node that is not known');
        if (n === history.position) parts.push('the kernel is here');
        else parts.push(is ? 'in effect' : is === undefined ? 'not known whether it is in effect' : 'not in effect');
        if (texts.prompt(label)) parts.push(texts.prompt(label));
        if (label) parts.push(texts.first_line(label.code).slice(0, 60));
        return parts.join(', ');
    }
}

return Tree;
});
