// What was typed and clicked in the plan, to be undone and done again.

const MOST_PAST = 1000;         // texts that are kept
const MOST_LETTERS = 30000000;  // of all of them together
const past = [];
const future = [];
let last_typed = 0;

// Remembers a text before it changes. What is typed within a second is one change.
function remember(text, selection, is_typed) {
    const now = performance.now();
    const is_going_on = is_typed && now - last_typed < 1000 && past.length > 0;
    last_typed = is_typed ? now : 0;
    future.length = 0;
    if (is_going_on) return;
    past.push({ text, selection, line: state.line_is_own });
    let letters = past.reduce((sum, entry) => sum + entry.text.length, 0);
    while (past.length > MOST_PAST || (past.length > 1 && letters > MOST_LETTERS)) letters -= past.shift().text.length;
}

// Goes from one list of texts to the other one, and gives the text that was left there.
function step_between(from, to) {
    if (from.length === 0) return null;
    to.push({ text: state.text, selection: element("text").selectionStart, line: state.line_is_own });
    last_typed = 0;
    return from.pop();
}

// Takes the last change back.
function undo() {
    put_back(step_between(past, future));
}

// Makes a change again that was taken back.
function redo() {
    put_back(step_between(future, past));
}

// Shows a text of the lists.
function put_back(entry) {
    if (!entry) return;
    state.line_is_own = entry.line;
    put_text(entry.text, entry.selection);
    run_plan();
}
