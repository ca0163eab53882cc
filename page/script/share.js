// The plan, the cursor and the view in the fragment of the address, which is never sent to a host. What a link brings
// is a text for the editor and four numbers, and nothing else.

// Bytes as text that an address may have.
function written_bytes(bytes) {
    let text = "";
    for (const byte of bytes) text += String.fromCharCode(byte);
    return btoa(text).replaceAll("+", "-").replaceAll("/", "_").replaceAll("=", "");
}

// The bytes of such a text.
function read_bytes(text) {
    return Uint8Array.from(atob(text.replaceAll("-", "+").replaceAll("_", "/")), (sign) => sign.charCodeAt(0));
}

// Bytes that go through one of the browser's streams.
async function through(bytes, stream) {
    return new Uint8Array(await new Response(new Blob([bytes]).stream().pipeThrough(stream)).arrayBuffer());
}

// The fragment of what is seen.
async function fragment() {
    const packed = await through(new TextEncoder().encode(state.text), new CompressionStream("deflate-raw"));
    const { cursor, view } = state;
    const words = [
        `plan=${written_bytes(packed)}`, `node=${cursor.node}`, `bit=${cursor.bit}`, `first=${view.first.toFixed(2)}`,
        `scale=${view.scale.toFixed(4)}`,
    ];
    return `#${words.join("&")}`;
}

// A number of a link, or another one where it has none.
function number_in(words, name, other) {
    const number = Number(words.get(name));
    return words.has(name) && Number.isFinite(number) ? number : other;
}

// What a fragment says: the plan, and where to look; or nothing where it isn't one.
async function read_fragment(text) {
    try {
        const words = new URLSearchParams(text.slice(1));
        if (!words.has("plan")) return null;
        const bytes = await through(read_bytes(words.get("plan")), new DecompressionStream("deflate-raw"));
        return {
            text: new TextDecoder().decode(bytes),
            cursor: { node: number_in(words, "node", 0), bit: number_in(words, "bit", 0) },
            view: { first: number_in(words, "first", 0), scale: number_in(words, "scale", 9) },
        };
    } catch {
        return null;
    }
}

// Puts the link into the address, and onto the clipboard where the browser lets it.
async function share() {
    const link = await fragment();
    window.history.replaceState(null, "", link);
    const said = await navigator.clipboard.writeText(window.location.href).then(() => "Copied", () => "In the address");
    const button = element("share");
    button.textContent = said;
    setTimeout(() => { button.textContent = "Copy link"; }, 1500);
}

// Shows what the fragment of the address says, if it says anything.
async function show_fragment() {
    const said = await read_fragment(window.location.hash);
    if (!said) return false;
    state.cursor = said.cursor;
    state.next_view = said.view;
    show_plan(said.text);
    return true;
}
