// The whole run in a strip: frames as grey, flags as red marks, and a window over what is seen.

const OVERVIEW_HIGH = 34;
let kept_strip = null;

// For each pixel across what is told of its bits: 0 nothing, 1 a frame, 2 a flag.
function columns_of(run, wide) {
    const columns = new Uint8Array(wide);
    for (const frame of run.frames) {
        const from = Math.floor((frame.first * wide) / run.bits);
        const to = Math.floor((frame.last * wide) / run.bits);
        columns.fill(1, from, to + 1);
    }
    for (const bit of run.flags) columns[Math.floor((bit * wide) / run.bits)] = 2;
    return columns;
}

// The strip without its window; it is drawn once for a run and a width.
function strip_of(run, wide) {
    if (kept_strip && kept_strip.run === run && kept_strip.wide === wide && kept_strip.frames === run.frames) {
        return kept_strip.canvas;
    }
    const canvas = document.createElement("canvas");
    canvas.width = wide;
    canvas.height = OVERVIEW_HIGH;
    const pen = canvas.getContext("2d");
    pen.fillStyle = "#f6f8fa";
    pen.fillRect(0, 0, wide, OVERVIEW_HIGH);
    columns_of(run, wide).forEach((told, x) => {
        if (told === 0) return;
        pen.fillStyle = told === 2 ? STRIKE_INK : "#8c959f";
        pen.fillRect(x, told === 2 ? 2 : 12, told === 2 ? 2 : 1, told === 2 ? OVERVIEW_HIGH - 4 : OVERVIEW_HIGH - 22);
    });
    kept_strip = { run, wide, canvas, frames: run.frames };
    return canvas;
}

// Draws the strip and its window.
function draw_overview() {
    const canvas = element("overview");
    const pen = pen_of(canvas, OVERVIEW_HIGH);
    const run = shown_run();
    const wide = width_of(canvas);
    if (!run || run.bits === 0 || wide === 0) return;
    pen.drawImage(strip_of(run, wide), 0, 0, wide, OVERVIEW_HIGH);
    const from = (state.view.first * wide) / run.bits;
    const seen = (width_for_bits() / state.view.scale) * (wide / run.bits);
    pen.strokeStyle = REC_INK;
    pen.lineWidth = 2;
    pen.strokeRect(from + 1, 1, Math.max(4, Math.min(seen, wide - from) - 2), OVERVIEW_HIGH - 2);
    pen.fillStyle = REC_INK;
    pen.fillRect((state.cursor.bit * wide) / run.bits, 0, 1, OVERVIEW_HIGH);
}

const ask_for_overview = once_a_picture(draw_overview);

// Has the strip lead to where it is clicked or drawn along.
function begin_overview() {
    const canvas = element("overview");
    const lead = (event) => {
        const bit = (event.offsetX / width_of(canvas)) * bits_shown();
        set_view(bit - width_for_bits() / state.view.scale / 2, state.view.scale);
    };
    canvas.addEventListener("pointerdown", (event) => {
        canvas.setPointerCapture(event.pointerId);
        lead(event);
    });
    canvas.addEventListener("pointermove", (event) => {
        if (event.buttons & 1) lead(event);
    });
}
