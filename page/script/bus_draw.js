// The picture of the bus: ruler, level of the bus, and for each node its rows.

let drawn_run = null;

// How high the picture is.
function bus_high() {
    const run = shown_run();
    return y_of_node(run ? run.nodes.length : 2) + 4;
}

// The bits between two numbers of the ruler.
function ruler_step() {
    const least = 70 / state.view.scale;
    for (let step = 10; ; step *= 10) {
        for (const factor of [1, 2, 5]) if (step * factor >= least) return step * factor;
    }
}

// The numbers of the bits, and a line down from each.
function draw_ruler(pen, seen, high) {
    const step = ruler_step();
    for (let bit = Math.ceil(seen.first / step) * step; bit <= seen.last; bit += step) {
        const x = Math.round(x_of(bit)) + 0.5;
        pen.strokeStyle = "#eaeef2";
        pen.lineWidth = 1;
        pen.beginPath();
        pen.moveTo(x, 14);
        pen.lineTo(x, high);
        pen.stroke();
        pen.fillStyle = "#57606a";
        pen.fillText(String(bit), x + 2, 9);
    }
}

// The name of a row, before the first bit.
function draw_name(pen, text, y, ink = INK) {
    pen.fillStyle = "#ffffff";
    pen.fillRect(0, y - 9, NAMES_WIDE - 1, 18);
    pen.fillStyle = ink;
    pen.fillText(text, 4, y);
}

// The level of a node in the run before, where it was otherwise: a line with a violet edge below it.
function draw_ghost(pen, node, before, seen, top) {
    if (!before) return;
    if (state.view.scale >= BOXES_FROM / 5) {
        draw_levels(pen, before.driven, seen, top + 2, top + GHOST_HIGH - 3, GHOST_INK, [3, 2]);
    }
    pen.fillStyle = GHOST_INK;
    let from = -1;
    for (let bit = seen.first; bit <= seen.last + 1; bit += 1) {
        const is_changed = bit <= seen.last && bit < before.letter.length && before.letter[bit] !== node.letter[bit];
        if (is_changed && from < 0) from = bit;
        if (!is_changed && from >= 0) {
            pen.fillRect(x_of(from), top + GHOST_HIGH - 2, Math.max(1, x_of(bit) - x_of(from)), 2);
            from = -1;
        }
    }
}

// The names of the counters, and the numbers of their scale.
function draw_counter_names(pen, top) {
    draw_name(pen, "TEC ─", top + 18, TEC_INK);
    draw_name(pen, "REC ┄", top + COUNTERS_HIGH - 10, REC_INK);
    pen.font = SMALL_FONT;
    pen.fillStyle = "#57606a";
    pen.textAlign = "right";
    for (const [limit, lower] of [[256, 3], [128, -2], [96, 2], [0, -2]]) {
        pen.fillText(String(limit), NAMES_WIDE - 4, top + COUNTERS_HIGH - (limit * COUNTERS_HIGH) / 256 + lower);
    }
    pen.textAlign = "left";
    pen.font = FONT;
}

// The rows of a node.
function draw_node(pen, run, number, seen) {
    const node = run.nodes[number];
    const other = state.shows_before ? state.run : state.before;
    const before = other && other !== run && other.nodes[number] ? other.nodes[number] : null;
    const top = y_of_node(number);
    if (state.view.scale >= BOXES_FROM) {
        draw_boxes(pen, node, seen, top);
        draw_levels(pen, node.driven, seen, top + 2, top + BOX_HIGH - 2, INK);
    } else draw_stretches(pen, run, number, seen, top);
    draw_ghost(pen, node, before, seen, top + BOX_HIGH);
    draw_signs(pen, node, seen, top + BOX_HIGH + GHOST_HIGH);
    const line_top = top + BOX_HIGH + GHOST_HIGH + SIGN_HIGH;
    draw_line(pen, run, number, seen, line_top - 2);
    draw_counters(pen, node, before, seen, line_top + LINE_HIGH);
    draw_sweep(pen, number, seen, top + NODE_HIGH - NODE_GAP - SWEEP_HIGH);
    draw_name(pen, `node ${number}`, top + BOX_HIGH / 2);
    if (before) draw_name(pen, "before", top + BOX_HIGH + GHOST_HIGH / 2, GHOST_INK);
    draw_counter_names(pen, line_top + LINE_HIGH);
}

// The cursor, the second cursor with the bits between them, and the place of the pointer.
function draw_cursors(pen, high) {
    const { cursor, mark, pointer, view } = state;
    const wide = Math.max(1, view.scale);
    if (mark !== null) {
        const from = x_of(Math.min(mark, cursor.bit));
        pen.fillStyle = "rgba(9, 105, 218, 0.10)";
        pen.fillRect(from, 0, x_of(Math.max(mark, cursor.bit) + 1) - from, high);
        pen.fillStyle = REC_INK;
        pen.fillRect(x_of(mark), 0, 1.5, high);
    }
    if (pointer) {
        pen.fillStyle = "rgba(31, 35, 40, 0.08)";
        pen.fillRect(x_of(pointer.bit), RULER_HIGH, wide, high);
    }
    pen.strokeStyle = REC_INK;
    pen.lineWidth = 2;
    pen.strokeRect(x_of(cursor.bit), y_of_node(cursor.node) - 1, wide, BOX_HIGH + 2);
    pen.fillStyle = REC_INK;
    pen.fillRect(x_of(cursor.bit + 0.5) - 0.5, RULER_HIGH, 1, high);
}

// Draws the whole picture.
function draw_bus() {
    const canvas = element("bus");
    const run = shown_run();
    const high = bus_high();
    const pen = pen_of(canvas, high);
    if (!run) return;
    const seen = bits_seen();
    pen.save();
    pen.beginPath();
    pen.rect(0, 0, width_of(canvas), high);
    pen.clip();
    draw_ruler(pen, seen, high);
    if (state.view.scale >= BOXES_FROM / 5) {
        draw_levels(pen, run.bus, seen, RULER_HIGH + 4, RULER_HIGH + BUS_HIGH - 8, INK);
    }
    for (let node = 0; node < run.nodes.length; node += 1) draw_node(pen, run, node, seen);
    draw_name(pen, "bus", RULER_HIGH + BUS_HIGH / 2 - 2);
    draw_cursors(pen, high);
    pen.restore();
    if (run !== drawn_run) performance.mark("drawn");
    drawn_run = run;
    canvas.dataset.first = String(state.view.first);
    canvas.dataset.scale = String(state.view.scale);
    canvas.dataset.bits = String(run.bits);
    canvas.dataset.places = [NAMES_WIDE, y_of_node(0), NODE_HIGH, run.nodes.length].join(" ");
}

const ask_for_bus = once_a_picture(draw_bus);
