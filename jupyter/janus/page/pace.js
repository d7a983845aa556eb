// Hands on what a kernel's WebSocket brings one message at a time. Each has a task of its own, so that drawing, timers and clicks have their turn in
// between where a kernel sends more than the page can take in; in the order in which all came, and nothing is left out.
define([], function () {
'use strict';

const MOST_TAKEN = 1000;                // messages that were handed on, before the list is made shorter

// Takes over the messages of a socket, which has a call for them. Where that call is replaced later on, as where the connection is given up, what still
// waits is dropped, as the browser itself would then give it to the new one.
function pace(socket) {
    if (!socket || !socket.onmessage || socket.janus_paced) return;
    const hand_on = socket.onmessage, tasks = new MessageChannel();
    let waiting = [], next = 0;
    const take = function (event) {
        if (waiting.push(event) === next + 1) tasks.port2.postMessage(null);
    };
    tasks.port1.onmessage = function () {
        const event = waiting[next++];
        if (next === waiting.length || next === MOST_TAKEN) {
            waiting = waiting.slice(next);
            next = 0;
        }
        if (waiting.length > next) tasks.port2.postMessage(null);
        if (socket.onmessage === take) hand_on.call(socket, event);
    };
    socket.janus_paced = true;
    socket.onmessage = take;
}

return pace;
});
