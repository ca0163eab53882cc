// What the pointer, the wheel and the keys do on the picture of the bus.

const DRAG_FROM = 4;        // pixels from which on a press is a drag and no click
let press = null;

// The node and bit at an event's place, or none over the names.
function place_of(event) {
    const run = shown_run();
    if (!run || event.offsetX < NAMES_WIDE) return null;
    const bit = Math.floor(bit_at(event.offsetX));
    if (bit < 0 || bit >= run.bits) return null;
    return { bit, node: node_at(event.offsetY) };
}

// Goes to the next of some bits behind the cursor, or to the one before it.
function go_along(bits, is_back) {
    const { bit } = state.cursor;
    const at = first_from(bits, is_back ? bit : bit + 1);
    const found = is_back ? bits[at - 1] : bits[at];
    if (found !== undefined) go_to(found);
}

// The bits in which frames begin.
function frame_bits() {
    const run = shown_run();
    return run ? [...new Set(run.frames.map((frame) => frame.first))] : [];
}

// Shows the run before, as long as it is asked for.
function show_before(is_shown) {
    if (!state.before || state.shows_before === is_shown) return;
    state.shows_before = is_shown;
    move_cursor(state.cursor.node, state.cursor.bit);
    tell("view");
}

// Sets the second cursor where the first one is, or takes it away.
function turn_mark() {
    state.mark = state.mark === null ? state.cursor.bit : null;
    tell("cursor");
}

// What each key does, by its name.
const KEYS = {
    ArrowLeft: () => go_to(state.cursor.bit - 1),
    ArrowRight: () => go_to(state.cursor.bit + 1),
    ArrowUp: () => go_to(state.cursor.bit, state.cursor.node - 1),
    ArrowDown: () => go_to(state.cursor.bit, state.cursor.node + 1),
    Home: () => go_to(0),
    End: () => go_to(bits_shown() - 1),
    "[": () => go_along(frame_bits(), true),
    "]": () => go_along(frame_bits(), false),
    e: () => go_along(shown_run() ? shown_run().flags : [], false),
    E: () => go_along(shown_run() ? shown_run().flags : [], true),
    x: () => turn_strike(state.cursor.node, state.cursor.bit),
    m: turn_mark,
    "+": () => zoom(1.5, x_of(state.cursor.bit)),
    "-": () => zoom(1 / 1.5, x_of(state.cursor.bit)),
    0: () => set_view(0, scale_of_all()),
    " ": () => show_before(true),
    Escape: () => element("text").focus(),
};

// What each key does, in words.
const KEY_WORDS = [
    ["← →", "a bit"], ["↑ ↓", "a node"], ["[ ]", "a frame"], ["e, E", "the next error, the one before"],
    ["x, click", "strikes the bit, or takes the strike away"], ["space", "shows the run before, while it is held"],
    ["m, shift-click", "a second cursor, with the bits between"], ["+ −, ctrl-wheel", "zoom"], ["0", "the whole run"],
    ["wheel, drag", "along the run"], ["ctrl-z, ctrl-y", "undo, redo: clicks too"], ["escape", "to the plan"],
    ["ctrl-enter", "runs the plan, where it is long"],
];

// Does what a key says.
function take_key(event) {
    const is_undo = (event.ctrlKey || event.metaKey) && ["z", "y"].includes(event.key.toLowerCase());
    if (is_undo) {
        event.preventDefault();
        if (event.key.toLowerCase() === "y" || event.shiftKey) redo();
        else undo();
        return;
    }
    const act = KEYS[event.key];
    if (!act || event.ctrlKey || event.metaKey || event.altKey) return;
    event.preventDefault();
    act();
}

// Goes along or zooms by the wheel.
function take_wheel(event) {
    event.preventDefault();
    if (event.ctrlKey || event.metaKey) zoom(event.deltaY < 0 ? 1.25 : 0.8, event.offsetX);
    else {
        const along = Math.abs(event.deltaX) > Math.abs(event.deltaY) ? event.deltaX : event.deltaY;
        set_view(state.view.first + along / state.view.scale, state.view.scale);
    }
}

// A press begins a click or a drag.
function begin_press(event) {
    if (event.button !== 0) return;
    press = { x: event.clientX, first: state.view.first, is_drag: false };
    element("bus").setPointerCapture(event.pointerId);
}

// The pointer moves: it drags the picture, or is told about.
function take_move(event) {
    if (press && event.buttons & 1) {
        const along = event.clientX - press.x;
        if (Math.abs(along) >= DRAG_FROM) press.is_drag = true;
        if (press.is_drag) set_view(press.first - along / state.view.scale, state.view.scale);
    }
    state.pointer = place_of(event);
    tell("pointer");
}

// A press ends: where it was no drag, it is a click.
function end_press(event) {
    const was = press;
    press = null;
    if (!was || was.is_drag) return;
    const place = place_of(event);
    if (!place) return;
    if (event.shiftKey) state.mark = state.cursor.bit;
    move_cursor(place.node < 0 ? state.cursor.node : place.node, place.bit);
    if (place.node >= 0 && !event.shiftKey && state.view.scale >= BOXES_FROM) turn_strike(place.node, place.bit);
    else if (state.view.scale < BOXES_FROM && !event.shiftKey) zoom(LETTERS_FROM / state.view.scale, event.offsetX);
}

// Has the picture take pointer, wheel and keys.
function begin_bus() {
    const canvas = element("bus");
    canvas.addEventListener("keydown", take_key);
    canvas.addEventListener("keyup", (event) => { if (event.key === " ") show_before(false); });
    canvas.addEventListener("blur", () => show_before(false));
    canvas.addEventListener("wheel", take_wheel, { passive: false });
    canvas.addEventListener("pointerdown", begin_press);
    canvas.addEventListener("pointermove", take_move);
    canvas.addEventListener("pointerup", end_press);
    canvas.addEventListener("pointercancel", () => { press = null; });
    canvas.addEventListener("pointerleave", () => {
        state.pointer = null;
        tell("pointer");
    });
    for (const name of ["run", "view", "cursor", "pointer", "frames", "sweep", "lines"]) when(name, ask_for_bus);
    for (const name of ["run", "view", "cursor", "frames"]) when(name, ask_for_overview);
    new ResizeObserver(() => set_view(state.view.first, state.view.scale)).observe(canvas);
    begin_overview();
}
