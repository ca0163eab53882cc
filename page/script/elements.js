// Words for the document. A text that comes from a plan, a link or the program is put in as text and never as markup.

// The element with this id.
function element(id) {
    return document.getElementById(id);
}

// An element with these attributes, listeners (`onclick: ..`) and children.
function made(kind, attributes = {}, ...children) {
    const node = document.createElement(kind);
    for (const [name, value] of Object.entries(attributes)) {
        if (typeof value === "function") node.addEventListener(name.slice(2), value);
        else if (value === true) node.setAttribute(name, "");
        else if (value !== false && value !== undefined) node.setAttribute(name, value);
    }
    node.append(...children);
    return node;
}

// A number within bounds.
function within(number, least, greatest) {
    return Math.max(least, Math.min(greatest, number));
}

// The lines of a text, without the empty one behind its end.
function lines_of(text) {
    const lines = text.split("\n");
    if (lines[lines.length - 1] === "") lines.pop();
    return lines;
}

// The place in a row of numbers in order at which the first one stands that isn't less.
function first_from(row, number, value_of = (it) => it) {
    let from = 0;
    let to = row.length;
    while (from < to) {
        const middle = (from + to) >> 1;
        if (value_of(row[middle]) < number) from = middle + 1;
        else to = middle;
    }
    return from;
}

// Calls a function once, when nothing has asked for it for so many milliseconds.
function after_rest(milliseconds, call) {
    let timer = 0;
    return () => {
        clearTimeout(timer);
        timer = setTimeout(call, milliseconds);
    };
}

// Calls a function at most once for each picture that the browser draws.
function once_a_picture(call) {
    let is_asked = false;
    return () => {
        if (is_asked) return;
        is_asked = true;
        requestAnimationFrame(() => {
            is_asked = false;
            call();
        });
    };
}

// How wide elements are: they are measured when their size changes, since to ask lays the whole page out.
const widths = new WeakMap();
const width_observer = new ResizeObserver((entries) => {
    for (const { target } of entries) widths.set(target, target.clientWidth);
});

// How wide an element is.
function width_of(node) {
    if (!widths.has(node)) {
        widths.set(node, node.clientWidth);
        width_observer.observe(node);
    }
    return widths.get(node);
}

// Puts these children in place of what an element has.
function filled(node, ...children) {
    node.replaceChildren(...children);
}
