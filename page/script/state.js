// What the page knows, and who wants to be told that it changed.

const state = {
    text: "",           // the plan
    run: null,          // the last good run
    before: null,       // the run before it
    is_good: false,     // whether the run is that of the text
    cursor: { node: 0, bit: 0 },
    mark: null,         // the bit of the second cursor
    pointer: null,      // where the pointer rests
    view: { first: 0, scale: 9 },
    shows_before: false,
    generation: 0,      // counts the texts that were run
};
const listeners = {};

// Has a function called when something of this name changes.
function when(name, call) {
    (listeners[name] ||= []).push(call);
}

// Tells that something of this name has changed.
function tell(name) {
    for (const call of listeners[name] || []) call();
}

// The run that is shown: the last one, or with the key held the one before.
function shown_run() {
    return state.shows_before && state.before ? state.before : state.run;
}

// How many bits the shown run has.
function bits_shown() {
    const run = shown_run();
    return run ? run.bits : 0;
}

// Moves the cursor, within the run.
function move_cursor(node, bit) {
    const run = shown_run();
    if (!run) return;
    state.cursor = {
        node: within(node, 0, run.nodes.length - 1),
        bit: within(bit, 0, Math.max(0, run.bits - 1)),
    };
    tell("cursor");
}

// Moves the cursor to a bit, and the view so that it is seen.
function go_to(bit, node = state.cursor.node) {
    move_cursor(node, bit);
    show_bit(state.cursor.bit);
}
