#!/usr/bin/env -S node --stack-size=4000
// The module of the page as a program: words, files and standard input are this system's.
//   gtpshow.mjs WORDS..            runs the program with these words
//   gtpshow.mjs --serve SOCKET     runs it for each line that comes over a socket: the number of a process, whose standard input, output and
//                                  error it takes, then its folder and the words, in hexadecimal; and answers with the status (tests/module)
// The environment may name another module in GTPSHOW_WASM; else it is out/page/gtpshow.wasm.
import fs from "node:fs";
import net from "node:net";
import path from "node:path";
import { fileURLToPath } from "node:url";

const top = path.dirname(path.dirname(fileURLToPath(import.meta.url)));
const module = new WebAssembly.Module(fs.readFileSync(process.env.GTPSHOW_WASM || `${top}/out/page/gtpshow.wasm`));
const AGAIN = -11, NO_SEEK = -29n, NO_WORD = -1n, TOO_LONG = -2n, FAILED = 5;

// What a call of the system gives, or the number of its error, below 0.
function tried(what) {
  try { return what(); } catch (error) { return -Math.abs(error.errno || FAILED); }
}

// The same, until the other end is there.
function triedUntilThere(what) {
  for (;;) {
    const given = tried(what);
    if (given !== AGAIN) return BigInt(given);
  }
}

// Runs the program with words as octets, standard input, output and error by their numbers, in a folder: its status.
function run(words, ends, folder) {
  let memory, view = new Uint8Array();
  const here = () => view.length ? view : view = new Uint8Array(memory.buffer); // a view has no length once the memory has grown
  const part = (from, length) => here().subarray(Number(from), Number(from) + Number(length));
  const named = (from) => { const octets = here(); return Buffer.from(octets.slice(Number(from), octets.indexOf(0, Number(from)))); };
  const placeOf = (from) => { const name = named(from).toString(); return name && path.resolve(folder, name); }; // no name is no file
  const fileOf = (number) => number < ends.length ? ends[number] : number;
  const host = {
    read: (file, to, room) => triedUntilThere(() => fs.readSync(fileOf(file), part(to, room))),
    write: (file, from, length) => triedUntilThere(() => fs.writeSync(fileOf(file), part(from, length))),
    arg_count: () => BigInt(words.length),
    arg(index, to, room) {
      const word = words[Number(index)];
      if (word === undefined) return NO_WORD;
      here().set(word.subarray(0, Number(room)), Number(to));
      return word.length > Number(room) ? TOO_LONG : BigInt(word.length);
    },
    open: (from) => tried(() => fs.openSync(placeOf(from), "r")),
    close: (file) => tried(() => { fs.closeSync(file); return 0; }),
    seek: () => NO_SEEK,
    stat(from) {
      const about = tried(() => fs.statSync(placeOf(from)));
      return typeof about === "number" ? BigInt(about) : BigInt(about.size) << 16n | BigInt(about.mode);
    },
  };
  const instance = new WebAssembly.Instance(module, { host });
  memory = instance.exports.memory;
  return instance.exports.run();
}

// Runs the program for a process that waits for it.
function runFor(line) {
  const [process_, folder, ...words] = line.split(" ");
  const octets = (digits) => Buffer.from(digits.slice(1), "hex");
  const flags = [fs.constants.O_RDONLY, fs.constants.O_WRONLY | fs.constants.O_APPEND, fs.constants.O_WRONLY | fs.constants.O_APPEND];
  const ends = flags.map((it, number) => tried(() => fs.openSync(`/proc/${process_}/fd/${number}`, it)));
  const status = run([Buffer.from("gtpshow"), ...words.map(octets)], ends, octets(folder).toString());
  for (const it of ends) tried(() => fs.closeSync(it));
  return status;
}

function serve(socket) {
  net.createServer((other) => {
    let held = "";
    other.on("data", (piece) => {
      held += piece;
      if (held.endsWith("\n")) other.end(`${runFor(held.trimEnd())}\n`);
    });
    other.on("error", () => {});
  }).listen(socket);
}

const words = process.argv.slice(2);
if (words[0] === "--serve") serve(words[1]);
else process.exitCode = run(["gtpshow", ...words].map((it) => Buffer.from(it)), [0, 1, 2], process.cwd());
