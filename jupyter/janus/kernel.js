// What the classic notebook loads by itself for a notebook of this kernel. The parts that know of this notebook stand under classic/, those
// that know of none under page/.
define(['jquery', 'base/js/namespace', 'base/js/events', 'module', './classic/mode.js', './classic/notebook.js', './classic/places.js'],
function ($, Jupyter, events, module, mode, Page, places) {
'use strict';

// The notebook looks for a mode of its own in vain, and may say so after this one is set: so it is set again for a while.
function set_mode(times) {
    if (!$('body').hasClass('janus-kernel')) return;
    Jupyter.notebook.set_codemirror_mode('janus');
    if (times > 0) setTimeout(function () { set_mode(times - 1); }, 500);
}

function see(page, kernel) {
    const is_janus = !!kernel && ((kernel.info_reply || {}).language_info || {}).name === 'janus';
    $('body').toggleClass('janus-kernel', is_janus);
    if (is_janus) {
        set_mode(20);
        page.attach(kernel);
    } else page.detach();
}

function onload() {
    if (Jupyter.janus || !Jupyter.notebook) return;
    mode.define();
    $('<link rel="stylesheet" type="text/css">').attr('href', module.uri.replace(/[^\/?]*(\?.*)?$/, 'page/page.css$1')).appendTo('head');
    const page = Jupyter.janus = new Page();
    events.on('kernel_ready.Kernel', function (event, data) { see(page, data.kernel); });
    events.on('kernel_restarting.Kernel kernel_killed.Kernel kernel_dead.Kernel', function () {
        page.conversation.lose();
        page.restarted();
    });
    // The server has started a kernel anew that died, and says no more of it: it is there once it answers.
    events.on('kernel_autorestarting.Kernel', function (event, data) { data.kernel.kernel_info(function () { see(page, data.kernel); }); });
    events.on('execute.CodeCell', function (event, data) {
        page.marks.began(data.cell);
        places.clear(data.cell);
        page.changed();
    });
    const kernel = Jupyter.notebook.kernel;
    if (kernel && kernel.is_connected() && kernel.info_reply.status) see(page, kernel);
}

return {onload: onload};
});
