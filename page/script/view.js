// Which bits are seen, and where: the view has a first bit and so many pixels a bit.

const NAMES_WIDE = 64;      // pixels for names, before the first bit
const RULER_HIGH = 22;
const BUS_HIGH = 30;
const BOX_HIGH = 26;        // of the boxes of a node's bits
const SIGN_HIGH = 14;
const LINE_HIGH = 6;
const COUNTERS_HIGH = 56;
const SWEEP_HIGH = 10;
const GHOST_HIGH = 12;
const NODE_GAP = 10;
const GREATEST_SCALE = 40;
const LETTERS_FROM = 7;     // pixels a bit from which on letters are drawn
const BOXES_FROM = 2.5;     // pixels a bit from which on each bit has a box
const NODE_HIGH = BOX_HIGH + GHOST_HIGH + SIGN_HIGH + LINE_HIGH + COUNTERS_HIGH + SWEEP_HIGH + NODE_GAP;

// How many pixels there are for bits.
function width_for_bits() {
    return Math.max(1, width_of(element("bus")) - NAMES_WIDE);
}

// Where a bit begins across.
function x_of(bit) {
    return NAMES_WIDE + (bit - state.view.first) * state.view.scale;
}

// The bit at a place across, with its part.
function bit_at(x) {
    return state.view.first + (x - NAMES_WIDE) / state.view.scale;
}

// Where a node's rows begin downwards.
function y_of_node(node) {
    return RULER_HIGH + BUS_HIGH + node * NODE_HIGH;
}

// The node whose rows are at a place downwards; -1 over all of them.
function node_at(y) {
    const run = shown_run();
    const node = Math.floor((y - RULER_HIGH - BUS_HIGH) / NODE_HIGH);
    return run && node < run.nodes.length ? node : -1;
}

// The first and the last bit that are seen.
function bits_seen() {
    const first = Math.max(0, Math.floor(state.view.first));
    const last = Math.min(bits_shown() - 1, Math.ceil(bit_at(width_of(element("bus")))));
    return { first, last };
}

// The scale with which the whole run is seen.
function scale_of_all() {
    return Math.min(GREATEST_SCALE, width_for_bits() / Math.max(1, bits_shown()));
}

// Sets the view, within the run.
function set_view(first, scale) {
    const bounded = within(scale, Math.min(scale_of_all(), 1), GREATEST_SCALE);
    const seen = width_for_bits() / bounded;
    state.view = { first: within(first, 0, Math.max(0, bits_shown() - seen)), scale: bounded };
    tell("view");
}

// Zooms by a factor, and keeps the bit at a place across where it is.
function zoom(factor, x) {
    const bit = bit_at(x);
    const scale = within(state.view.scale * factor, Math.min(scale_of_all(), 1), GREATEST_SCALE);
    set_view(bit - (x - NAMES_WIDE) / scale, scale);
}

// Moves the view so that a bit is seen, with some bits around it.
function show_bit(bit) {
    const seen = width_for_bits() / state.view.scale;
    const edge = Math.min(8, seen / 4);
    const { first } = state.view;
    if (bit < first + edge) set_view(bit - edge, state.view.scale);
    else if (bit > first + seen - edge - 1) set_view(bit - seen + edge + 1, state.view.scale);
    else tell("view");
}
