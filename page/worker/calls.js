// In the worker: calls of the module, the program compiled for the browser. The module's memory has 64-bit addresses,
// which are BigInts here.

const FIRST_ROOM = 1 << 20;
const NO_ROOM = 4;
const NO_MEMORY = 5;
const ANSWER_BYTES = 24;
let compiled = null;
let instance = null;

// Makes an instance of the module, in place of the one that there was.
function begin_anew() {
    instance = new WebAssembly.Instance(compiled, {});
}

// A block of the module's heap; an error where memory is refused.
function room_for(length) {
    const address = instance.exports.page_room(BigInt(length));
    if (address === 0n) throw new Error("memory was refused");
    return address;
}

// Gives blocks back.
function give_back(addresses) {
    for (const address of addresses) instance.exports.page_room_back(address);
}

// The bytes of the module's memory from an address on.
function bytes_at(address, length) {
    return new Uint8Array(instance.exports.memory.buffer, Number(address), length);
}

// Lays bytes into a block, and gives its address.
function laid(bytes) {
    const address = room_for(bytes.length);
    bytes_at(address, bytes.length).set(bytes);
    return address;
}

// What stands in the block of an answer: the status, and how long the two texts are.
function answer_at(address) {
    const view = new DataView(instance.exports.memory.buffer, Number(address), ANSWER_BYTES);
    return {
        status: view.getUint32(0, true),
        printed: Number(view.getBigUint64(8, true)),
        told: Number(view.getBigUint64(16, true)),
    };
}

// Calls the program once, with room for so many bytes of its texts, which are copied out.
function called_once(words, plan, length) {
    const answer = room_for(ANSWER_BYTES);
    const blocks = [answer, laid(words), laid(plan), room_for(length)];
    const [, words_at, plan_at, room_at] = blocks;
    instance.exports.sja_page(answer, words_at, BigInt(words.length), plan_at, BigInt(plan.length), room_at,
        BigInt(length));
    const told = answer_at(answer);
    const fits = told.status !== NO_ROOM;
    const texts = fits ? bytes_at(room_at, told.printed + told.told).slice() : new Uint8Array(0);
    give_back(blocks);
    return { ...told, texts };
}

// What the program answers to these words, without its own name, over this plan: its status, and the bytes that it
// prints and tells.
function called(words, plan) {
    const encoder = new TextEncoder();
    const row = encoder.encode(["sja", ...words].join("\0"));
    const input = encoder.encode(plan);
    let answer = called_once(row, input, FIRST_ROOM);
    if (answer.status === NO_ROOM) answer = called_once(row, input, answer.printed + answer.told);
    return {
        status: answer.status,
        printed: answer.texts.subarray(0, answer.printed),
        told: answer.texts.subarray(answer.printed),
    };
}
