// The values of the declared names at the position, with those marked that changed. Of an array or a stack the kernel shows 32 numbers, so a name of
// which these are the same may have changed all the same.
define(['./texts.js'], function (texts) {
'use strict';

const MARKUP = '<div class="janus-world" tabindex="0" role="region" aria-label="Values"><div class="janus-world-head"></div>' +
    '<table class="janus-values"><tbody></tbody></table><div class="janus-cut"></div></div>';
const MORE = / \.\.\.$/;                // stands where there are more numbers
const MAY = 'may have changed past the 32nd number';

// The parts of a value's text, as `x = 5`. Behind the name of an array or a stack stands its length, as in `a[3]` and `s(2)`.
function parts(text) {
    const at = text.indexOf(' = '), shown = at < 0 ? text : text.slice(0, at);
    return {shown: shown, name: shown.replace(/[[(]\d+[\])]$/, ''), value: at < 0 ? '' : text.slice(at + 3), text: text};
}

// How to see the numbers that are not shown, where there are any.
function cut(world) {
    const those = world.map(parts).filter(function (it) { return MORE.test(it.value); });
    const array = those.map(function (it) { return /^(.*)\[(\d+)\]$/.exec(it.shown); }).find(function (it) { return it !== null; });
    if (those.length === 0) return '';
    const how = array ? 'run \'int look look += ' + array[1] + '[' + (array[2] - 1) + ']\'' : 'pop the newer ones of ' + those[0].name;
    return 'Of an array or a stack 32 numbers are shown. To see another, ' + how + ', and then undo that cell.';
}

class Values {
    constructor(parent) {
        this.world = [];
        this.node = null;
        parent.insertAdjacentHTML('beforeend', MARKUP);
        this.head = parent.querySelector('.janus-world-head');
        this.body = parent.querySelector('.janus-values tbody');
        this.cut = parent.querySelector('.janus-cut');
    }

    // Shows them, and answers what changed in words. `touched` says whether something on the way may have changed a name.
    show(world, node, touched) {
        const old = new Map(this.world.map(it => [parts(it).name, it])), changed = [];
        if (node === this.node && world.join('\n') === this.world.join('\n')) return '';
        this.body.innerHTML = world.map(it => {
            const part = parts(it), differs = old.size > 0 && old.get(part.name) !== it;
            const may = old.size > 0 && !differs && MORE.test(part.value) && touched(part.name);
            if (differs) changed.push(it);
            if (may) changed.push(part.shown + ' ' + MAY);
            return this.row(part, differs ? 'changed' : may ? 'may-change' : '');
        }).join('');
        this.cut.textContent = cut(world);
        this.head.textContent = world.length ? 'Values at node ' + node : 'No names are declared at node ' + node;
        this.world = world;
        this.node = node;
        return changed.join(', ');
    }

    row(part, mark) {
        const said = mark === 'changed' ? '<span class="janus-hidden"> (changed)</span>' : mark ? '<span class="janus-past"> ' + MAY + '</span>' : '';
        return '<tr' + (mark ? ' class="janus-' + mark + '"' : '') + '><th scope="row">' + texts.escape(part.shown) + '</th><td>' +
            texts.escape(part.value) + said + '</td></tr>';
    }

    clear() {
        this.world = [];
        this.node = null;
        this.body.innerHTML = '';
        this.cut.textContent = '';
        this.head.textContent = '';
    }
}

return Values;
});
