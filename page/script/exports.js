// What can be taken out of the page as files.

// The texts that are C strings, line by line.
function written_in_c(text) {
    const escaped = (line) => line.replace(/[\\"]/g, "\\$&").replace(/[^\x20-\x7e]/g, "?");
    return lines_of(text).map((line) => `    "${escaped(line)}\\n"`).join("\n");
}

// A test in C: the report of the plan has to be the one that it has now.
function test_in_c(plan, report) {
    return `/* Made by the page of sja: this plan has to have the report below. It is built with sja.h and libsja.a. */
#include "sja.h"

#include <stdio.h>
#include <string.h>

static const char plan[] =
${written_in_c(plan)};

static const char expected[] =
${written_in_c(report)};

int main(void)
{
    static char text[1 << 22];
    sja_answer told = sja_run_plan(plan, sizeof plan - 1, text, sizeof text);

    if (told.status != SJA_DONE || strcmp(text, expected) != 0) {
        fprintf(stderr, "status %u; the report is\\n%s", (unsigned)told.status, text);
        return 1;
    }
    return 0;
}
`;
}

// The text of a call over the plan that is shown.
async function asked_text(...words) {
    const answer = await runner.call(words, state.run.text);
    return answer.printed || answer.told || "";
}

// The drawing of what is seen.
function seen_drawing() {
    const seen = bits_seen();
    return asked_text("picture", String(seen.first), String(seen.last), "--svg");
}

// What can be exported: name, ending, and the text.
const EXPORTS = [
    ["the plan, .toml", "toml", async () => state.text],
    ["the report, .report", "report", () => asked_text("run")],
    ["a test: plan and report", "toml", async () => state.text],
    ["a test in C, .c", "c", async () => test_in_c(state.run.text, await asked_text("run"))],
    ["the trace, .trace", "trace", () => asked_text("trace")],
    ["the frames, .frames", "frames", () => asked_text("frames")],
    ["can-utils' log, .log", "log", () => asked_text("candump", "--errors")],
    ["the waveform, .vcd", "vcd", () => asked_text("wave")],
    ["the drawing of what is seen, .svg", "svg", seen_drawing],
    ["the picture, .picture", "picture", () => asked_text("picture")],
];

// Gives a file to the browser to keep.
function save(name, text) {
    const address = URL.createObjectURL(new Blob([text], { type: "text/plain" }));
    const link = made("a", { href: address, download: name });
    link.click();
    setTimeout(() => URL.revokeObjectURL(address), 10000);
}

// Saves what was chosen; a test is two files.
async function export_chosen(at) {
    const [name, ending, text] = EXPORTS[at];
    const stem = state.name || "plan";
    save(`${stem}.${ending}`, await text());
    if (name.startsWith("a test: ")) save(`${stem}.report`, await asked_text("run"));
}

// Fills the menu of exports, and has its button save what is chosen.
function begin_exports() {
    const menu = element("exports");
    filled(menu, ...EXPORTS.map(([name], at) => made("option", { value: String(at) }, name)));
    element("save").addEventListener("click", async () => {
        if (state.run) await export_chosen(Number(menu.value));
    });
}
