// The bits of a node: near by each with its letter, from far as frames and flags.

// What a phase of the waveform is from far, by its code; a flag is active or passive by its letter.
const FAR_KINDS = ["reset", "waiting", "idle", "data", "active", "overload", "delimiter", "gap", "suspend"];
const PASSIVE_CODE = "P".charCodeAt(0);
const STRUCK_CODE = "x".charCodeAt(0);

// The boxes of a node's bits with their letters.
function draw_boxes(pen, node, seen, top) {
    const { scale } = state.view;
    const is_lettered = scale >= LETTERS_FROM;
    pen.textAlign = "center";
    for (let bit = seen.first; bit <= seen.last; bit += 1) {
        const code = node.letter[bit];
        const x = x_of(bit);
        pen.fillStyle = COLOURS[KIND_OF[code]] || "#ffffff";
        pen.fillRect(x, top, scale + 0.5, BOX_HIGH);
        if (is_lettered) {
            pen.fillStyle = code === STRUCK_CODE ? STRIKE_INK : INK;
            pen.fillText(String.fromCharCode(code), x + scale / 2, top + BOX_HIGH / 2 + 1);
        }
    }
    pen.textAlign = "left";
}

// What a bit of a node is from far: in a frame, in a flag, or neither.
function far_kind(node, bit) {
    const kind = FAR_KINDS[node.phase[bit]];
    return kind === "active" && node.letter[bit] === PASSIVE_CODE ? "passive" : kind;
}

// The stretches of bits of a node that are one from far; they are found once for a run.
function stretches_of(node, bits) {
    if (node.stretches) return node.stretches;
    node.stretches = [];
    let from = 0;
    for (let bit = 1; bit <= bits; bit += 1) {
        const kind = far_kind(node, from);
        if (bit === bits || far_kind(node, bit) !== kind) {
            node.stretches.push({ from, to: bit, kind });
            from = bit;
        }
    }
    return node.stretches;
}

// The name of the frame that begins or goes on in a stretch, with the sign of who sends it.
function stretch_name(run, stretch, node) {
    if (stretch.kind !== "data") return stretch.kind === "active" || stretch.kind === "passive" ? "error" : "";
    const place = place_in_frames(run.frames, Math.max(stretch.from, stretch.to - 3));
    if (!place) return "";
    return place.frame.node === node ? `▶ ${place.frame.name}` : place.frame.name;
}

// The stretches of a node that are seen, flags last, so that none is hidden.
function draw_stretches(pen, run, number, seen, top) {
    const stretches = stretches_of(run.nodes[number], run.bits);
    const begin = Math.max(0, first_from(stretches, seen.first + 1, (it) => it.to));
    const flags = [];
    for (let at = begin; at < stretches.length && stretches[at].from <= seen.last; at += 1) {
        const stretch = stretches[at];
        if (["active", "passive", "overload"].includes(stretch.kind)) {
            flags.push(stretch);
            continue;
        }
        const x = Math.max(x_of(stretch.from), NAMES_WIDE);
        const wide = x_of(stretch.to) - x;
        if (wide < 0.2 && stretch.kind !== "data") continue;
        pen.fillStyle = COLOURS[stretch.kind];
        pen.fillRect(x, top, Math.max(wide, 0.5), BOX_HIGH);
        if (stretch.kind === "data" && wide > 3) {
            pen.strokeStyle = "#57606a";
            pen.lineWidth = 1;
            pen.strokeRect(x + 0.5, top + 0.5, wide - 1, BOX_HIGH - 1);
            draw_cut(pen, stretch_name(run, stretch, number), x, top + BOX_HIGH / 2 + 1, wide);
        }
    }
    for (const stretch of flags) {
        const x = Math.max(x_of(stretch.from), NAMES_WIDE);
        pen.fillStyle = stretch.kind === "overload" ? "#7d3fa0" : STRIKE_INK;
        pen.fillRect(x, top, Math.max(2, x_of(stretch.to) - x), BOX_HIGH);
    }
}

// The strikes and messages of a node.
function draw_signs(pen, node, seen, top) {
    const y = top + SIGN_HIGH / 2;
    const middle = (bit) => x_of(bit + 0.5);
    for (const bit of those_seen(struck_bits(node), seen)) draw_cross(pen, middle(bit), y);
    for (const bit of those_seen(node.stored, seen)) draw_triangle(pen, middle(bit), y, true);
    for (const bit of those_seen(node.overrun, seen)) draw_triangle(pen, middle(bit), y, false);
}

// Of bits in order those that are seen.
function those_seen(bits, seen) {
    return bits.slice(first_from(bits, seen.first), first_from(bits, seen.last + 1));
}

// The bits in which a node is struck; they are found once for a run.
function struck_bits(node) {
    if (!node.struck_bits) {
        node.struck_bits = [];
        for (let bit = node.struck.indexOf(1); bit >= 0; bit = node.struck.indexOf(1, bit + 1)) {
            node.struck_bits.push(bit);
        }
    }
    return node.struck_bits;
}

// The counters of a node on their scale, with those of the run before as dots.
function draw_counters(pen, node, before, seen, top) {
    pen.strokeStyle = "#d0d7de";
    pen.lineWidth = 1;
    pen.setLineDash([3, 3]);
    for (const limit of [0, 96, 128, 256]) {
        const y = Math.round(top + COUNTERS_HIGH - (limit * COUNTERS_HIGH) / 256) + 0.5;
        pen.beginPath();
        pen.moveTo(NAMES_WIDE, y);
        pen.lineTo(x_of(seen.last + 1), y);
        pen.stroke();
    }
    pen.setLineDash([]);
    if (before) {
        draw_counter(pen, before.tec, seen, top, COUNTERS_HIGH, GHOST_INK, [2, 3]);
        draw_counter(pen, before.rec, seen, top, COUNTERS_HIGH, GHOST_INK, [2, 3]);
    }
    draw_counter(pen, node.rec, seen, top, COUNTERS_HIGH, REC_INK, [5, 2]);
    draw_counter(pen, node.tec, seen, top, COUNTERS_HIGH, TEC_INK);
}
