// Calls of the program in workers. Each worker does one call at a time; what waits can be dropped, and what is at work
// can be stopped, which ends its worker.

class Runner {
    // So many workers over a compiled module; `script` is the address of their script.
    constructor(module, script, count) {
        this.module = module;
        this.script = script;
        this.count = count;
        this.workers = [];
        this.waiting = [];
        this.next_id = 1;
    }

    // What the program answers to these words over this plan; `as` says how its text is read.
    call(words, plan, as = "text") {
        return new Promise((settle) => {
            this.waiting.push({ id: this.next_id, words, plan, as, settle });
            this.next_id += 1;
            this.give_work();
        });
    }

    // Drops the calls that wait: each is answered as stopped.
    drop_waiting() {
        for (const asked of this.waiting.splice(0)) asked.settle({ is_stopped: true });
    }

    // Drops the calls that wait, and ends the workers that are at work.
    stop() {
        this.drop_waiting();
        for (const held of [...this.workers]) if (held.asked) this.end(held, { is_stopped: true });
    }

    // Whether a call is at work or waits.
    is_busy() {
        return this.waiting.length > 0 || this.workers.some((held) => held.asked);
    }

    // A new worker.
    begin() {
        const held = { worker: new Worker(this.script), asked: null };
        held.worker.onmessage = (event) => this.take(held, event.data);
        held.worker.onerror = (event) => {
            event.preventDefault();
            this.end(held, { fault: event.message || "the worker failed" });
        };
        held.worker.postMessage({ module: this.module });
        this.workers.push(held);
        return held;
    }

    // Ends a worker, and answers what it was at with this.
    end(held, answer) {
        held.worker.terminate();
        this.workers = this.workers.filter((other) => other !== held);
        if (held.asked) held.asked.settle(answer);
        this.give_work();
    }

    // Takes the answer of a worker.
    take(held, answer) {
        const asked = held.asked;
        held.asked = null;
        if (asked) asked.settle(answer);
        this.give_work();
    }

    // Gives waiting calls to workers that have none.
    give_work() {
        while (this.waiting.length > 0) {
            let held = this.workers.find((other) => !other.asked);
            if (!held && this.workers.length < this.count) held = this.begin();
            if (!held) return;
            const { settle, ...asked } = this.waiting.shift();
            held.asked = { ...asked, settle };
            held.worker.postMessage(asked);
        }
    }
}
