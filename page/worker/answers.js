// In the worker: what is asked of it, and what it answers.

// What is sent of an answer: texts as texts, and rows of numbers without a copy.
function told_of(asked, answer) {
    const decoder = new TextDecoder();
    const told = { status: answer.status, told: decoder.decode(answer.told) };
    const is_good = answer.status === 0;
    if (asked.as === "picture" && is_good) return { ...told, rows: read_picture(answer.printed) };
    if (asked.as === "wave" && is_good) return { ...told, rows: read_wave(answer.printed) };
    return { ...told, printed: decoder.decode(answer.printed) };
}

// The blocks of memory of the rows of an answer, which are handed over.
function blocks_of(rows) {
    if (!rows) return [];
    const found = rows.bus ? [rows.bus.buffer] : [];
    for (const node of rows.nodes) {
        for (const row of Object.values(node)) if (row instanceof Uint8Array) found.push(row.buffer);
    }
    return found;
}

// So many bytes of memory are kept from one call to the next.
const MOST_KEPT = 1 << 28;

// Does one call. After a fault of the module, refused memory or a call that took much of it, the next call has a new
// instance.
function done(asked) {
    const began = performance.now();
    try {
        const answer = called(asked.words, asked.plan);
        const told = told_of(asked, answer);
        const is_large = instance.exports.memory.buffer.byteLength > MOST_KEPT;
        if (answer.status === NO_MEMORY || is_large) begin_anew();
        return { id: asked.id, took: performance.now() - began, ...told };
    } catch (fault) {
        begin_anew();
        return { id: asked.id, took: performance.now() - began, fault: String(fault.message || fault) };
    }
}

onmessage = (event) => {
    const asked = event.data;
    if (asked.module) {
        compiled = asked.module;
        begin_anew();
        return;
    }
    const answer = done(asked);
    postMessage(answer, blocks_of(answer.rows));
};
