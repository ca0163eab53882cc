// Strikes as edits of the list `faults`, or `strikes`, in the text of a plan, and of nothing else.

// The strikes that a text of a strike names: a node, a first bit, the bits from one to the next, and how many.
function strike_of(says) {
    const words = /^(\d{1,7}) (\d{1,7})(?: (\d{1,7}) (\d{1,7}))?$/.exec(says);
    if (!words) return null;
    const [node, bit, every, times] = words.slice(1).map((word) => (word === undefined ? undefined : Number(word)));
    return { node, bit, every: every || 1, times: times === undefined ? 1 : times };
}

// Which of its bits a strike has here, from 0; -1 where it has none.
function turn_in(strike, node, bit) {
    if (!strike || strike.node !== node || bit < strike.bit) return -1;
    const turn = (bit - strike.bit) / strike.every;
    return Number.isInteger(turn) && turn < strike.times ? turn : -1;
}

// The keys of the list of strikes; the second one is of version 3.
const STRIKE_KEYS = ["faults", "strikes"];

// The list of strikes of a document, or none.
function faults_of(text) {
    return lists_of(text).find((list) => STRIKE_KEYS.includes(list.name) && list.table === -1) || null;
}

// Whether the plan strikes this node in this bit.
function is_struck_in(text, node, bit) {
    const list = faults_of(text);
    return Boolean(list) && list.items.some((item) => turn_in(strike_of(item.says), node, bit) >= 0);
}

// A strike of so many of its bits, as a text with quotes.
function written_strike(node, bit, every, times) {
    return times === 1 ? `"${node} ${bit}"` : `"${node} ${bit} ${every} ${times}"`;
}

// What is left of a strike without one of its bits.
function rest_of(strike, turn) {
    const parts = [];
    const behind = strike.times - turn - 1;
    if (turn > 0) parts.push(written_strike(strike.node, strike.bit, strike.every, turn));
    if (behind > 0) {
        parts.push(written_strike(strike.node, strike.bit + (turn + 1) * strike.every, strike.every, behind));
    }
    return parts;
}

// The part of a text that has to go with an item of a list: the item, and the comma that stands for it.
function span_of(text, list, item) {
    const next = list.commas.find((comma) => comma >= item.to);
    const place = list.items.indexOf(item);
    if (next !== undefined) {
        let from = item.from;
        let to = next + 1;
        if (place > 0) while (/[ \t]/.test(text[from - 1])) from -= 1;
        else while (/[ \t]/.test(text[to] || "")) to += 1;
        return { from, to };
    }
    const before = list.commas.filter((comma) => comma < item.from).pop();
    const is_bare = before !== undefined && /^[\s]*$/.test(text.slice(before + 1, item.from));
    return { from: is_bare ? before : item.from, to: item.to };
}

// The text without its strikes of a node in a bit.
function without_strike(text, node, bit) {
    let left = text;
    for (;;) {
        const list = faults_of(left);
        const item = list && list.items.find((it) => turn_in(strike_of(it.says), node, bit) >= 0);
        if (!item) return left;
        const strike = strike_of(item.says);
        const parts = rest_of(strike, turn_in(strike, node, bit));
        const span = parts.length > 0 ? item : span_of(left, list, item);
        left = left.slice(0, span.from) + parts.join(", ") + left.slice(span.to);
    }
}

// Where a new line of the document's first part can stand: behind its last key.
function end_of_keys(text) {
    const tokens = tokens_of(text);
    let end = 0;
    for (let at = 0; at < tokens.length; at += 1) {
        const is_at_line = at === 0 || tokens[at - 1].kind === "\n";
        if (is_at_line && tokens[at].kind === "[") break;
        if (tokens[at].kind !== "\n") end = tokens[at].to;
    }
    const line = text.indexOf("\n", end);
    return line < 0 ? text.length : line + 1;
}

// The text with a strike more.
function with_strike(text, node, bit) {
    const list = faults_of(text);
    const strike = `"${node} ${bit}"`;
    if (!list) {
        const at = end_of_keys(text);
        const line = `faults = [${strike}]\n`;
        return text.slice(0, at) + (at > 0 && text[at - 1] !== "\n" ? "\n" : "") + line + text.slice(at);
    }
    const last = list.items[list.items.length - 1];
    if (!last) return text.slice(0, list.from + 1) + strike + text.slice(list.from + 1);
    const comma = list.commas.find((it) => it >= last.to);
    if (comma !== undefined) return `${text.slice(0, comma + 1)} ${strike},${text.slice(comma + 1)}`;
    return `${text.slice(0, last.to)}, ${strike}${text.slice(last.to)}`;
}

// The text with the line `faults = []` taken away, which an earlier strike brought.
function without_empty_line(text) {
    return text.replace(/^faults = \[\]\n/m, "");
}

// The text with a strike, or without it where there is one. `line` says whether the page brought the list itself.
function with_strike_turned(text, node, bit, line) {
    if (!is_struck_in(text, node, bit)) {
        return { text: with_strike(text, node, bit), line: line || !faults_of(text) };
    }
    const left = without_strike(text, node, bit);
    const is_over = line && faults_of(left) && faults_of(left).items.length === 0;
    return { text: is_over ? without_empty_line(left) : left, line: line && !is_over };
}
