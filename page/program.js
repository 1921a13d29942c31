// The program gtpshow as a WebAssembly module: words and standard input go in, what it wrote and its status come out.
// It has no file, no network and no clock: these are all the functions that it is given.
"use strict";

const NO_FILE = -2, BAD_FILE = -9, NO_SEEK = -29n, NO_WORD = -1n, LONG_WORD = -2n;

// Runs a module. take(room) gives the next octets of standard input, at most so many, and none at its end; out and err take what is
// written, as it is written.
function runProgram(module, words, { take, out, err }) {
  const encoder = new TextEncoder(), argv = ["gtpshow", ...words].map((word) => encoder.encode(word));
  let memory, view = new Uint8Array();
  const here = () => view.length ? view : view = new Uint8Array(memory.buffer); // a view has no length once the memory has grown
  const host = {
    read(file, to, room) {
      if (file !== 0) return BigInt(BAD_FILE);
      const octets = take(Number(room));
      here().set(octets, Number(to));
      return BigInt(octets.length);
    },
    write(file, from, length) {
      (file === 1 ? out : err)(here().slice(Number(from), Number(from + length)));
      return length;
    },
    arg_count: () => BigInt(argv.length),
    arg(index, to, room) {
      const word = argv[Number(index)];
      if (word === undefined) return NO_WORD;
      here().set(word.subarray(0, Number(room)), Number(to));
      return word.length > Number(room) ? LONG_WORD : BigInt(word.length);
    },
    open: () => NO_FILE,
    close: () => BAD_FILE,
    seek: () => NO_SEEK,
    stat: () => BigInt(NO_FILE),
  };
  const instance = new WebAssembly.Instance(module, { host });
  memory = instance.exports.memory;
  const status = instance.exports.run();
  return { status, memory: memory.buffer.byteLength };
}
