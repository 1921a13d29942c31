// What is asked of the program, which runs in workers: short questions in one, long work in another, which can be stopped.
"use strict";

const encoder = new TextEncoder();

function octetsOfBase64(text) {
  const chars = atob(text), octets = new Uint8Array(chars.length);
  for (let at = 0; at < octets.length; at++) octets[at] = chars.charCodeAt(at);
  return octets;
}

function compiled() {
  const stream = new Blob([octetsOfBase64($("wasm").textContent)]).stream().pipeThrough(new DecompressionStream("gzip"));
  return WebAssembly.compileStreaming(new Response(stream, { headers: { "Content-Type": "application/wasm" } }));
}

const module = compiled();
const workerAddress = URL.createObjectURL(new Blob([$("worker").textContent], { type: "text/javascript" }));

class Stopped extends Error {}

class Runner {
  constructor() { Object.assign(this, { waiting: new Map(), asked: 0, worker: null, ready: null }); }

  start() {
    const worker = new Worker(workerAddress);
    worker.onmessage = ({ data }) => this.take(data);
    worker.onerror = (event) => this.stop(new Error(event.message || "the worker ended"));
    this.worker = worker;
    this.ready = module.then((it) => worker.postMessage({ does: "start", module: it }));
  }

  // Has something done: what is sent before the answer goes to onPiece, and how far the work is to onPart.
  async ask(message, { onPiece, onPart } = {}) {
    if (!this.worker) this.start();
    const id = ++this.asked, { worker } = this;
    const answer = new Promise((resolve, reject) => this.waiting.set(id, { resolve, reject, onPiece, onPart }));
    answer.catch(() => {});
    await this.ready;
    if (this.worker === worker) worker.postMessage({ ...message, id });
    return answer;
  }

  take({ id, piece, part, answer, stopped }) {
    const it = this.waiting.get(id);
    if (!it) return;
    if (part !== undefined) return void it.onPart?.(part);
    if (piece) return void it.onPiece(piece);
    this.waiting.delete(id);
    if (stopped === undefined) it.resolve(answer);
    else it.reject(new Error(stopped));
  }

  // Ends what it does: each question that waits is answered so.
  stop(why = new Stopped("stopped")) {
    if (!this.waiting.size) return;
    this.worker.terminate();
    this.worker = null;
    for (const it of this.waiting.values()) it.reject(why);
    this.waiting.clear();
  }
}

const quick = new Runner(), long = new Runner();
const LONG = 65536; // octets of an input that is long work

function run(words, input = new Uint8Array(), more = {}) { return guarded(() => quick.ask({ does: "run", words, input, ...more })); }

// What is answered, or null where the program stopped, which is told.
async function guarded(what) {
  try { return await what(); } catch (error) {
    if (!(error instanceof Stopped)) say(`The program stopped: ${error.message}`);
    return null;
  }
}

// Long work, whose progress is shown, and which the button ends. Other such work ends first.
async function longWork(message, onPiece) {
  long.stop();
  const box = $("work"), bar = $("progress");
  const timer = setTimeout(() => { box.hidden = false; }, 150);
  bar.value = 0;
  const id = long.asked + 1;
  const answer = await guarded(() => long.ask(message, { onPiece, onPart: (it) => { bar.value = it; } }));
  clearTimeout(timer);
  if (long.asked === id) box.hidden = true;
  return answer;
}
