// Signs and lines of the bus, as a pen draws them on a canvas.

const INK = "#1f2328";
const STRIKE_INK = "#b3261e";
const STORED_INK = "#1a7f37";
const GHOST_INK = "#8250df";
const TEC_INK = "#b35900";
const REC_INK = "#0550ae";
const SMALL_FONT = "9px ui-monospace, 'DejaVu Sans Mono', monospace";
const FONT = "12px ui-monospace, 'DejaVu Sans Mono', monospace";

// The kind of a letter's code, for its colour.
const KIND_OF = [];
for (const [letter, [kind]] of Object.entries(LETTERS)) KIND_OF[letter.charCodeAt(0)] = kind;

// A canvas with as many pixels as the screen has for it, and its pen.
function pen_of(canvas, height) {
    const ratio = window.devicePixelRatio || 1;
    const wide = width_of(canvas);
    if (canvas.width !== Math.round(wide * ratio) || canvas.height !== Math.round(height * ratio)) {
        canvas.width = Math.round(wide * ratio);
        canvas.height = Math.round(height * ratio);
        canvas.style.height = `${height}px`;
    }
    const pen = canvas.getContext("2d");
    pen.setTransform(ratio, 0, 0, ratio, 0, 0);
    pen.clearRect(0, 0, wide, height);
    pen.font = FONT;
    pen.textBaseline = "middle";
    return pen;
}

// A red cross in the middle of a bit.
function draw_cross(pen, x, y) {
    pen.strokeStyle = STRIKE_INK;
    pen.lineWidth = 2;
    pen.beginPath();
    pen.moveTo(x - 4, y - 4);
    pen.lineTo(x + 4, y + 4);
    pen.moveTo(x - 4, y + 4);
    pen.lineTo(x + 4, y - 4);
    pen.stroke();
}

// A triangle: filled for a message that was stored, empty for one that was lost.
function draw_triangle(pen, x, y, is_stored) {
    pen.beginPath();
    pen.moveTo(x, y - 5);
    pen.lineTo(x + 5, y + 4);
    pen.lineTo(x - 5, y + 4);
    pen.closePath();
    pen.lineWidth = 1.5;
    if (is_stored) {
        pen.fillStyle = STORED_INK;
        pen.fill();
    } else {
        pen.strokeStyle = STRIKE_INK;
        pen.stroke();
    }
}

// The line of a level over the bits that are seen; recessive is above.
function draw_levels(pen, levels, seen, top, bottom, ink, dash = []) {
    pen.strokeStyle = ink;
    pen.lineWidth = 1.5;
    pen.setLineDash(dash);
    pen.beginPath();
    let last = -1;
    for (let bit = seen.first; bit <= seen.last; bit += 1) {
        if (levels[bit] === last) continue;
        const x = x_of(bit);
        const y = levels[bit] ? top : bottom;
        if (last < 0) pen.moveTo(x, y);
        else {
            pen.lineTo(x, last ? top : bottom);
            pen.lineTo(x, y);
        }
        last = levels[bit];
    }
    if (last >= 0) pen.lineTo(x_of(seen.last + 1), last ? top : bottom);
    pen.stroke();
    pen.setLineDash([]);
}

// The line of a counter over the bits that are seen, half as high as its scale of 256 is.
function draw_counter(pen, counts, seen, top, high, ink, dash = []) {
    pen.strokeStyle = ink;
    pen.lineWidth = 1.5;
    pen.setLineDash(dash);
    pen.beginPath();
    let last = -1;
    for (let bit = seen.first; bit <= seen.last; bit += 1) {
        const count = counts[bit + 1];
        if (count === last) continue;
        const y_before = top + high - (last * high) / 256;
        const y = top + high - (count * high) / 256;
        if (last < 0) pen.moveTo(x_of(bit), y);
        else {
            pen.lineTo(x_of(bit), y_before);
            pen.lineTo(x_of(bit), y);
        }
        last = count;
    }
    if (last >= 0) pen.lineTo(x_of(seen.last + 1), top + high - (last * high) / 256);
    pen.stroke();
    pen.setLineDash([]);
}

// A text that is cut to the room it has.
function draw_cut(pen, text, x, y, room) {
    if (room < 10) return;
    let shown = text;
    const most = Math.floor((room - 4) / 7.2);
    if (shown.length > most) shown = most > 1 ? `${shown.slice(0, most - 1)}…` : "";
    pen.fillStyle = INK;
    pen.fillText(shown, x + 2, y);
}
