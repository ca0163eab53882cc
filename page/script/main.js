// The page: the module is unpacked, the menus are filled, and the first plan is shown.

const FIRST_EXAMPLE = "own_case";

// The module, compiled.
async function compiled_module() {
    const packed = Uint8Array.from(atob(element("module-text").textContent.trim()), (sign) => sign.charCodeAt(0));
    return WebAssembly.compile(await through(packed, new DecompressionStream("gzip")));
}

// The address of the script of the workers.
function worker_address() {
    return URL.createObjectURL(new Blob([element("worker-text").textContent], { type: "text/javascript" }));
}

// The examples by name.
function examples() {
    return JSON.parse(element("plans").textContent);
}

// What to look for in a plan, as its comment says.
function look_for(text) {
    const lines = text.split("\n");
    const begin = lines.findIndex((line) => /^# What to look for/.test(line));
    if (begin < 0) return [];
    const found = [];
    for (const line of lines.slice(begin + 1)) {
        if (!line.startsWith("#")) break;
        const words = line.replace(/^#\s?/, "");
        if (words.startsWith("- ")) found.push(words.slice(2));
        else if (found.length > 0) found[found.length - 1] += ` ${words.trim()}`;
    }
    return found;
}

// Shows what to look for in the plan that was run, above its text.
function show_look_for() {
    const points = look_for(state.run.text);
    const box = element("look-for");
    box.hidden = points.length === 0;
    filled(box, made("b", {}, "What to look for"), made("ul", {}, ...points.map((point) => made("li", {}, point))));
}

// Shows a plan from its beginning.
function show_plan(text) {
    state.line_is_own = false;
    state.is_new_plan = true;
    put_text(text, 0);
    run_plan();
}

// Fills the menu of examples.
function begin_examples() {
    const menu = element("examples");
    const plans = examples();
    filled(menu, ...plans.map(({ name }) => made("option", { value: name }, name.replaceAll("_", " "))));
    menu.addEventListener("change", () => {
        const plan = plans.find(({ name }) => name === menu.value);
        remember(state.text, 0, false);
        state.name = plan.name;
        state.next_view = { first: 0, scale: 9 };
        state.cursor = { node: 0, bit: 0 };
        show_plan(plan.text);
    });
}

// Fills the list of keys, and has its button show it.
function begin_keys() {
    const rows = KEY_WORDS.map(([keys, says]) => made("span", {}, made("kbd", {}, keys), ` ${says}`));
    filled(element("keys"), ...rows);
    element("help").addEventListener("click", () => {
        const box = element("keys");
        box.hidden = !box.hidden;
        element("help").setAttribute("aria-expanded", String(!box.hidden));
    });
}

// Takes the view that a link or an example asks for, with the first picture of its run.
function take_next_view() {
    if (state.next_view) {
        const { first, scale } = state.next_view;
        state.next_view = null;
        set_view(first, scale);
    } else set_view(state.view.first, state.view.scale);
}

// Tells whoever waits, a screen reader too, whether the texts are those of the plan.
function begin_waits() {
    const main = document.querySelector("main");
    const say = (is_busy) => () => main.setAttribute("aria-busy", String(is_busy));
    when("plan", say(true));
    when("settled", say(false));
    when("mistake", () => { if (!state.is_good) say(false)(); });
}

// Begins the page.
async function begin() {
    const module = await compiled_module();
    const script = worker_address();
    runner = new Runner(module, script, 2);
    sweeper = new Runner(module, script, within((navigator.hardwareConcurrency || 2) - 2, 1, 4));
    element("notices").textContent = element("notice-text").textContent;
    when("run", take_next_view);
    when("run", show_look_for);
    begin_examples();
    begin_exports();
    begin_editor();
    begin_bus();
    begin_told();
    begin_tabs();
    begin_registers();
    begin_sweeps();
    begin_lines();
    begin_keys();
    begin_waits();
    element("undo").addEventListener("click", undo);
    element("redo").addEventListener("click", redo);
    element("share").addEventListener("click", share);
    element("stop").addEventListener("click", stop_run);
    element("run").addEventListener("click", run_plan);
    window.addEventListener("hashchange", show_fragment);
    if (!await show_fragment()) {
        element("examples").value = FIRST_EXAMPLE;
        state.name = FIRST_EXAMPLE;
        state.next_view = { first: 36, scale: 9 };
        state.cursor = { node: 1, bit: 51 };
        show_plan(examples().find(({ name }) => name === FIRST_EXAMPLE).text);
    }
}

begin().catch((fault) => {
    element("mistake").classList.add("bad");
    element("mistake").textContent = `This browser can't run the module: ${fault.message}. It needs WebAssembly with ` +
        "64-bit memory, as Chromium and Firefox have it.";
});
