// The strings of a TOML document with their places: enough of TOML to find the lists `faults`, `strikes` and `steps`.

// The end of a string that begins here, past its closing quotes.
function end_of_string(text, from) {
    const quote = text[from];
    const is_long = text.startsWith(quote.repeat(3), from);
    const close = is_long ? quote.repeat(3) : quote;
    let at = from + close.length;
    while (at < text.length && !text.startsWith(close, at)) {
        if (!is_long && text[at] === "\n") return at;
        at += quote === "\"" && text[at] === "\\" ? 2 : 1;
    }
    at += close.length;
    while (is_long && text[at] === quote) at += 1;
    return Math.min(at, text.length);
}

// What a string says, without its quotes. Escapes stay as they are: no text of a plan needs one.
function said_by(text) {
    const quotes = /^("""|'''|"|')/.exec(text)[0].length;
    return text.slice(quotes, text.length - quotes);
}

// The parts of a document in order: words, strings and signs, each with its place. Comments are left out.
function tokens_of(text) {
    const found = [];
    let at = 0;
    while (at < text.length) {
        const sign = text[at];
        let end = at + 1;
        let kind = sign;
        if (sign === "#") {
            end = text.indexOf("\n", at);
            at = end < 0 ? text.length : end;
            continue;
        }
        if (sign === "\"" || sign === "'") {
            end = end_of_string(text, at);
            kind = "string";
        } else if (/[A-Za-z0-9_+.:-]/.test(sign)) {
            while (end < text.length && /[A-Za-z0-9_+.:-]/.test(text[end])) end += 1;
            kind = "word";
        } else if (sign === " " || sign === "\t" || sign === "\r") {
            at = end;
            continue;
        }
        found.push({ kind, from: at, to: end });
        at = end;
    }
    return found;
}

// The name that a key has here.
function name_of(text, token) {
    const written = text.slice(token.from, token.to);
    return token.kind === "string" ? said_by(written) : written;
}

// A list from its opening bracket on: its strings, its commas and its closing bracket.
function list_from(text, tokens, open) {
    const list = { from: tokens[open].from, items: [], commas: [], close: text.length, end: tokens.length };
    let depth = 0;
    for (let at = open; at < tokens.length; at += 1) {
        const token = tokens[at];
        if (token.kind === "[") depth += 1;
        if (token.kind === "]") depth -= 1;
        if (depth === 0) return { ...list, close: token.from, end: at };
        if (depth > 1) continue;
        if (token.kind === "string") {
            list.items.push({ from: token.from, to: token.to, says: said_by(text.slice(token.from, token.to)) });
        }
        if (token.kind === ",") list.commas.push(token.from);
    }
    return list;
}

// The lists of the last few documents that were asked for.
const MOST_KNOWN = 4;
const known_lists = [];

// The lists of strings of a document that belong to a key: `{ name, table, .. }`, where the table is the number of the
// `[[node]]` before it, from 0, or -1. Nobody changes them.
function lists_of(text) {
    const known = known_lists.find((entry) => entry.text === text);
    if (known) return known.lists;
    const lists = lists_found(text);
    known_lists.push({ text, lists });
    if (known_lists.length > MOST_KNOWN) known_lists.shift();
    return lists;
}

// The same, read from the text.
function lists_found(text) {
    const tokens = tokens_of(text);
    const found = [];
    let table = -1;
    for (let at = 0; at + 2 < tokens.length; at += 1) {
        const [first, second, third] = [tokens[at], tokens[at + 1], tokens[at + 2]];
        const is_at_line = at === 0 || tokens[at - 1].kind === "\n";
        if (is_at_line && first.kind === "[" && second.kind === "[") table += 1;
        const is_key = first.kind === "word" || first.kind === "string";
        if (is_key && second.kind === "=" && third.kind === "[") {
            const list = list_from(text, tokens, at + 2);
            if (tokens[at + 3] && tokens[at + 3].kind === "{") continue;
            if (at > 0 && tokens[at - 1].kind === "{") table += 1;
            found.push({ name: name_of(text, first), table, ...list });
            at = list.end;
        }
    }
    return found;
}
