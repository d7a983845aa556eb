// The step through time: a slider along the path to the position and on along the way that redos take. It goes to each node on its way.
define(['./texts.js'], function (texts) {
'use strict';

const MOST_STOPS = 32;                  // a long way is gone in this many strides
const MARKUP = '<div class="janus-time"><label for="janus-slider">Step through time</label> <span class="janus-step"></span>' +
    '<input id="janus-slider" type="range" min="0" max="0" value="0" step="1"></div>';

class Timeline {
    // `move` is called with {op, n}, and answers false where no move can be made now.
    constructor(history, parent, move) {
        this.history = history;
        this.move = move;
        this.target = null;             // where the slider was put, as a depth
        this.stride = 1;
        this.waits = false;             // whether a move of the slider's is on its way
        parent.insertAdjacentHTML('beforeend', MARKUP);
        this.slider = parent.querySelector('#janus-slider');
        this.step = parent.querySelector('.janus-step');
        this.slider.addEventListener('input', () => this.slid(Number(this.slider.value)));
    }

    slid(depth) {
        const from = this.history.depth_of(this.history.position);
        this.target = depth;
        this.stride = Math.max(1, Math.ceil(Math.abs(depth - from) / MOST_STOPS));
        this.go_on();
    }

    // The next stop on the way to where the slider was put.
    go_on() {
        const at = this.history.depth_of(this.history.position);
        if (this.waits || this.target === null) return;
        if (at < 0 || at === this.target) {
            this.target = null;
            return;
        }
        const way = this.target - at, steps = Math.min(this.stride, Math.abs(way));
        this.waits = this.move({op: way < 0 ? 'undo' : 'redo', n: steps});
        if (!this.waits) this.target = null;
    }

    // The values at a node are shown: a move of the slider's has come to its end.
    arrived() {
        this.waits = false;
        this.update();
        this.go_on();
    }

    // A move of the slider's was refused, or its answer can't come any more.
    stop() {
        this.waits = false;
        this.target = null;
        this.update();
    }

    update() {
        const history = this.history, at = history.known ? history.depth_of(history.position) : -1;
        const last = at < 0 ? 0 : at + history.redo, slider = this.slider;
        slider.disabled = last === 0;
        if (slider.max !== String(last)) slider.max = last;
        if (this.target === null && at >= 0) slider.value = at;
        const words = at < 0 ? 'not known' : 'cell ' + at + ' of ' + last + ': ' + this.words();
        if (slider.getAttribute('aria-valuetext') === words) return;
        slider.setAttribute('aria-valuetext', words);
        this.step.textContent = words;
    }

    words() {
        const node = this.history.position;
        return node === 0 ? 'the start' : texts.node(node, this.history.label[node]);
    }
}

return Timeline;
});
