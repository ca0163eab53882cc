// The plan as text: line numbers, the mistake at its line, and behind each line with steps what they answered.

const MOST_ANSWERS = 12;    // of a line with more steps their number is told
let marked_line = 0;

// The number of lines before a place in a text.
function line_at(text, place) {
    let line = 0;
    for (let at = text.indexOf("\n"); at >= 0 && at < place; at = text.indexOf("\n", at + 1)) line += 1;
    return line;
}

// The line that a mistake names, from 1; 0 where it names none.
function line_named(mistake) {
    const words = /^line (\d+)/m.exec(mistake || "");
    return words ? Number(words[1]) : 0;
}

// The answers of the steps that stand in each line.
function answers_by_line(text, answers) {
    const found = new Map();
    for (const list of lists_of(text)) {
        if (list.name !== "steps") continue;
        list.items.forEach((item, at) => {
            const line = line_at(text, item.from);
            const told = (answers[list.table] || [])[at];
            if (!found.has(line)) found.set(line, []);
            found.get(line).push({ says: item.says, told: told === undefined ? "not done" : told });
        });
    }
    return found;
}

// Whether a step was refused or not done.
function is_bad_answer(told) {
    return told.startsWith("refused") || told === "not done";
}

// What stands behind a line: what each of its steps answered.
function answer_note(steps) {
    const note = made("span", { class: "answers" }, "  ");
    const is_one = steps.length === 1;
    if (steps.length > MOST_ANSWERS) {
        const bad = steps.filter(({ told }) => is_bad_answer(told)).length;
        const told = made("span", { class: bad > 0 ? "bad" : "" }, `${bad} refused or not done`);
        note.append(`${steps.length} steps, `, told);
        return note;
    }
    steps.forEach(({ says, told }, at) => {
        const is_bad = is_bad_answer(told);
        const text = is_one || is_bad ? `${says} -> ${told}` : told;
        note.append(at > 0 ? " · " : "", made("span", { class: is_bad ? "bad" : "" }, text));
    });
    return note;
}

// What each line's steps answered, by line; nothing while the report of the text hasn't come.
function told_answers() {
    const run = state.run;
    if (!state.is_good || !run) return new Map();
    if (run.text !== state.text || run.texts.report === undefined) return null;
    return answers_by_line(state.text, run.answers);
}

// Room as wide as a line, for what stands behind it. Of signs of one width it is empty, so that it costs little.
function room_of(line) {
    if (!/^[\x20-\x7e]*$/.test(line)) return made("span", { class: "ghost" }, line);
    const room = made("span", { class: "ghost" });
    room.style.width = `${line.length}ch`;
    return room;
}

// Draws the row behind a line, where it is another one than it was. Where no answers are told the row keeps its own.
function draw_row(row, line, is_wrong, answers, at) {
    if (row.line !== line) filled(row, room_of(line));
    const is_kept = answers === null && row.line === line;
    const note = answers && answers.has(at) ? answer_note(answers.get(at)) : null;
    const noted = row.querySelector(".answers");
    if (!is_kept && (note ? note.textContent : "") !== (noted ? noted.textContent : "")) {
        if (noted) noted.remove();
        if (note) row.append(note);
    }
    row.line = line;
    row.classList.toggle("wrong", is_wrong);
}

// Draws what lies behind the text: the red line of a mistake, and the answers.
function draw_backdrop() {
    const lines = state.text.split("\n");
    const answers = told_answers();
    const box = element("backdrop");
    marked_line = state.is_good ? 0 : line_named(state.mistake);
    while (box.children.length > lines.length) box.lastChild.remove();
    while (box.children.length < lines.length) box.append(made("span", { class: "row" }));
    const rows = box.children;
    lines.forEach((line, at) => draw_row(rows[at], line, at + 1 === marked_line, answers, at));
    draw_numbers(lines.length);
    mark_typed_line();
}

// Draws the numbers of the lines, where they are others than they were.
function draw_numbers(count) {
    const box = element("numbers");
    const drawn = `${count} ${marked_line}`;
    if (box.dataset.drawn === drawn) return;
    box.dataset.drawn = drawn;
    const rows = Array.from({ length: count }, (_, at) => {
        const is_wrong = at + 1 === marked_line;
        return made("span", { class: is_wrong ? "row wrong" : "row" }, `${is_wrong ? "✗ " : ""}${at + 1}\n`);
    });
    filled(box, ...rows);
}

// Marks the line in which the plan is typed: its answers don't lie over it.
function mark_typed_line() {
    const field = element("text");
    const at = document.activeElement === field ? line_at(state.text, field.selectionStart) : -1;
    element("backdrop").querySelector(".typed")?.classList.remove("typed");
    element("backdrop").children[at]?.classList.add("typed");
}

// Keeps numbers and backdrop beside the text as it is scrolled.
function follow_scroll() {
    const text = element("text");
    element("numbers").scrollTop = text.scrollTop;
    element("backdrop").scrollTop = text.scrollTop;
    element("backdrop").scrollLeft = text.scrollLeft;
}

// Puts a text into the editor.
function put_text(text, selection) {
    state.text = text;
    const field = element("text");
    const { scrollTop, scrollLeft } = field;
    field.value = text;
    if (selection !== undefined) field.setSelectionRange(selection, selection);
    draw_backdrop();
    requestAnimationFrame(() => {
        field.scrollTop = scrollTop;
        field.scrollLeft = scrollLeft;
        follow_scroll();
    });
}

// Shows the mistake below the text.
function show_mistake() {
    const box = element("mistake");
    box.textContent = state.is_good ? "" : state.mistake || "";
    box.classList.toggle("bad", !state.is_good && Boolean(state.mistake));
    element("text").setAttribute("aria-invalid", String(!state.is_good));
    document.body.classList.toggle("is-old", !state.is_good);
    draw_backdrop();
}

// Shows what `check` says of a plan that is one.
function show_hints() {
    if (!state.is_good || !state.run) return;
    element("mistake").textContent = state.run.texts.check || "";
}

// Strikes a node in a bit, or takes the strike away: an edit of the text.
function turn_strike(node, bit) {
    const run = state.run;
    if (!run || !state.is_good || node >= run.nodes.length || bit >= run.bits) return;
    remember(state.text, element("text").selectionStart, false);
    const turned = with_strike_turned(state.text, node, bit, Boolean(state.line_is_own));
    state.line_is_own = turned.line;
    state.text = turned.text;
    run_plan();
    put_text(turned.text);
}

// Has the editor do what is typed into it.
function begin_editor() {
    const field = element("text");
    const run_after_rest = after_rest(150, run_typed);
    field.addEventListener("input", () => {
        remember(state.text, field.selectionStart, true);
        state.line_is_own = false;
        state.text = field.value;
        draw_backdrop();
        run_after_rest();
    });
    field.addEventListener("scroll", follow_scroll);
    document.addEventListener("selectionchange", mark_typed_line);
    field.addEventListener("blur", mark_typed_line);
    field.addEventListener("keydown", (event) => {
        const is_control = event.ctrlKey || event.metaKey;
        if (is_control && event.key === "Enter") run_plan();
        if (!is_control || event.altKey) return;
        const key = event.key.toLowerCase();
        const is_redo = key === "y" || (key === "z" && event.shiftKey);
        if (key !== "z" && key !== "y") return;
        event.preventDefault();
        if (is_redo) redo();
        else undo();
    });
    when("mistake", show_mistake);
    when("report", draw_backdrop);
    when("check", show_hints);
}
