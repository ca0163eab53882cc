// The texts of the run at the right: one at a time, line by line, each line a way to its bit.

const TABS = [
    ["report", "Report"], ["trace", "Trace"], ["frames", "Frames"], ["candump", "candump"], ["registers", "Registers"],
    ["check", "Check"],
];
const MOST_LINES = 3000;    // so many are shown of a text; the filter finds others
let shown_tab = "report";

// Of each line of the run before how often it stands there.
function lines_before(name) {
    const counts = new Map();
    const text = state.before ? state.before.texts[name] : undefined;
    if (text === undefined) return null;
    for (const line of lines_of(text)) counts.set(line, (counts.get(line) || 0) + 1);
    return counts;
}

// Whether a line wasn't in the text before; each line before stands for one line.
function is_new(counts, line) {
    if (!counts) return false;
    const left = counts.get(line) || 0;
    if (left > 0) counts.set(line, left - 1);
    return left === 0;
}

// The bit of a line of a text, or none.
function bit_of_line(name, line, run) {
    if (name === "trace") return Number((/^bit (\d+)/.exec(line) || [])[1]);
    if (name === "frames") return Number((/: SOF (\d+)/.exec(line) || [])[1]);
    if (name === "candump") return Number((/^\(\d+\.(\d{6})\)/.exec(line) || [])[1]) + 1000000 *
        Number((/^\((\d+)\./.exec(line) || [])[1]);
    if (name === "report") return bit_of_step(line, run);
    return NaN;
}

// The bit of a step of a report's line: `bit_of_step.node` is the node of the lines before.
function bit_of_step(line, run) {
    const words = /^(node|step) (\d+)/.exec(line);
    if (!words) return NaN;
    if (words[1] === "node") {
        bit_of_step.node = Number(words[2]);
        return NaN;
    }
    const found = run.trace.find((it) => it.node === bit_of_step.node && it.step === Number(words[2]));
    return found ? found.bit : NaN;
}

// The node that a line names, or the one at the cursor.
function node_of_line(line) {
    const words = /\bnode (\d+)|\bcan(\d+) /.exec(line);
    return words ? Number(words[1] || words[2]) : state.cursor.node;
}

// A line of a text: a button where it leads to a bit.
function made_line(line, bit, is_changed) {
    const attributes = { class: is_changed ? "line changed" : "line" };
    const name = is_changed ? "changed" : undefined;
    const sign = made("span", { class: "sign", "aria-label": name }, is_changed ? "±" : " ");
    if (!Number.isFinite(bit)) return made("div", attributes, sign, line);
    const node = node_of_line(line);
    return made("button", {
        ...attributes, type: "button", "data-bit": String(bit), onclick: () => go_to(bit, node),
    }, sign, line);
}

// The words of the filter; a line is shown where it has all of them.
function is_passed(line) {
    const words = element("filter").value.toLowerCase().split(/\s+/).filter(Boolean);
    const small = line.toLowerCase();
    return words.every((word) => small.includes(word)) &&
        !words.some((word) => /^\d+$/.test(word) && !new RegExp(`\\b${word}\\b`).test(small));
}

// Shows the lines of a text.
function show_lines(name) {
    const run = state.run;
    const text = run ? run.texts[name] : undefined;
    if (text === undefined) {
        filled(element("panel"), made("p", { class: "empty" }, run ? "…" : "No run yet."));
        return;
    }
    const counts = lines_before(name);
    const told = lines_of(text).map((line) => (
        { line, bit: bit_of_line(name, line, run), is_changed: is_new(counts, line) }));
    const rows = told.filter(({ line }) => is_passed(line));
    const shown = rows.slice(0, MOST_LINES).map(({ line, bit, is_changed }) => made_line(line, bit, is_changed));
    if (rows.length > MOST_LINES) {
        shown.push(made("p", { class: "empty" }, `${rows.length - MOST_LINES} lines more: use the filter, or export.`));
    }
    if (counts && gone_lines(counts) > 0) {
        shown.push(made("p", { class: "empty" }, `${gone_lines(counts)} lines of the run before are gone.`));
    }
    const nothing = name === "check" ? "Nothing was left out." : "No line.";
    if (rows.length === 0) shown.push(made("p", { class: "empty" }, nothing));
    filled(element("panel"), ...shown);
    mark_lines();
}

// How many lines of the text before have no line now.
function gone_lines(counts) {
    return [...counts.values()].reduce((sum, left) => sum + left, 0);
}

// Marks the lines of the bit under the pointer, or at the cursor.
function mark_lines() {
    const bit = String((state.pointer || state.cursor).bit);
    for (const line of element("panel").querySelectorAll("[data-bit]")) {
        if (line.dataset.bit === bit) line.setAttribute("aria-current", "true");
        else line.removeAttribute("aria-current");
    }
}

// Scrolls to the first line of the bit at the cursor, unless one of its lines has the focus.
function show_marked_line() {
    const panel = element("panel");
    const line = panel.querySelector("[aria-current]");
    if (!line || panel.contains(document.activeElement)) return;
    const { top, bottom } = panel.getBoundingClientRect();
    const place = line.getBoundingClientRect();
    if (place.top < top || place.bottom > bottom) panel.scrollTop += place.top - top - 40;
}

// Shows what the tab that is chosen has.
function show_tab() {
    for (const tab of element("tabs").children) {
        const is_chosen = tab.dataset.name === shown_tab;
        tab.setAttribute("aria-selected", String(is_chosen));
        tab.tabIndex = is_chosen ? 0 : -1;
    }
    element("panel").setAttribute("aria-labelledby", `tab-${shown_tab}`);
    element("filter-label").hidden = shown_tab === "registers";
    if (shown_tab === "registers") show_registers();
    else show_lines(shown_tab);
}

// Chooses a tab.
function choose_tab(name) {
    shown_tab = name;
    show_tab();
}

// Goes from tab to tab by the arrow keys.
function take_tab_key(event) {
    const step = { ArrowLeft: -1, ArrowRight: 1 }[event.key];
    if (!step) return;
    const at = TABS.findIndex(([name]) => name === shown_tab);
    choose_tab(TABS[(at + step + TABS.length) % TABS.length][0]);
    element("tabs").querySelector("[aria-selected=true]").focus();
    event.preventDefault();
}

// Makes the tabs, and has them follow the run.
function begin_tabs() {
    const tabs = TABS.map(([name, title]) => made("button", {
        type: "button", role: "tab", id: `tab-${name}`, "data-name": name, "aria-controls": "panel",
        onclick: () => choose_tab(name),
    }, title));
    filled(element("tabs"), ...tabs);
    element("tabs").addEventListener("keydown", take_tab_key);
    element("filter").addEventListener("input", after_rest(60, show_tab));
    for (const [name] of TABS) when(name, () => { if (shown_tab === name) show_tab(); });
    when("trace", () => { if (shown_tab === "report") show_tab(); });
    when("pointer", once_a_picture(mark_lines));
    when("cursor", once_a_picture(() => {
        mark_lines();
        show_marked_line();
    }));
    show_tab();
}
