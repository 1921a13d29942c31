// The worker: runs the program, so that the page stays alive meanwhile.
"use strict";

const SLICE = 1 << 20, PIECE = 1 << 19, OFTEN = 100; // octets, octets, milliseconds
const LINE_FEED = 10, BLANK = 32, FAULT_WORD = [..."fault"].map((it) => it.charCodeAt(0));
const FAULT_MEMBER = ',"fault":{"code":"', FAULT_ROOM = 400; // octets that a fault has at most at the end of an object
const decoder = new TextDecoder();
let program = null;

function joined(pieces) {
  const all = new Uint8Array(pieces.reduce((sum, it) => sum + it.length, 0));
  let at = 0;
  for (const it of pieces) {
    all.set(it, at);
    at += it.length;
  }
  return all;
}

// Octets from..to of an input, which is a file or octets.
function part(input, from, to) {
  return input instanceof Blob ? new Uint8Array(new FileReaderSync().readAsArrayBuffer(input.slice(from, to))) : input.subarray(from, to);
}

// An input as the program takes it, a slice at a time. Of a capture each slice begins with a record, and is marked, for the page.
function taker(input, { marked, tell }) {
  const size = input.size ?? input.length;
  let slice = new Uint8Array(), at = 0, end = 0, records = null;
  const next = () => {
    slice = part(input, end, Math.min(end + SLICE, size));
    if (marked) slice = whole(slice);
    end += slice.length;
    at = 0;
    tell(end / size);
  };
  const whole = (octets) => {
    if (!records) records = new Records(octets);
    if (records.from < end) return octets; // there is no record where one has to be: the program tells it
    if (records.from > end) return octets.subarray(0, records.from - end);
    marked(records.mark());
    const passed = records.pass(octets).at;
    return passed ? octets.subarray(0, passed) : octets;
  };
  return (room) => {
    if (at === slice.length && end < size) next();
    const octets = slice.subarray(at, at + room);
    at += octets.length;
    return octets;
  };
}

// Runs a command: its status, what it told on standard error, the time that it took and the memory.
function ran(words, input, { out, marked = null, tell = () => {} }) {
  const err = [], begun = performance.now();
  const done = runProgram(program, words, { take: taker(input, { marked, tell }), out, err: (it) => err.push(it) });
  return { ...done, err: decoder.decode(joined(err)), ms: performance.now() - begun };
}

// Runs a command, with all that it wrote.
function run({ words, input, raw }) {
  const out = [];
  const done = ran(words, input, { out: (it) => out.push(it) });
  return { ...done, out: raw ? joined(out) : decoder.decode(joined(out)) };
}

// What tells how far the work is, from time to time.
function progress(id) {
  let last = performance.now();
  return (part) => {
    if (performance.now() - last < OFTEN) return;
    last = performance.now();
    postMessage({ id, part });
  };
}

// Whether a line tells a fault: in the form of `capture --brief` by its seventh word, of an object by its last member.
const FAULTS = {
  brief(octets, from) {
    let at = from;
    for (let word = 0; word < 6; word++) at = octets.indexOf(BLANK, at) + 1;
    return FAULT_WORD.every((it, index) => octets[at + index] === it);
  },
  object: (octets, from, to) => decoder.decode(octets.subarray(Math.max(from, to - FAULT_ROOM), to)).includes(FAULT_MEMBER),
};

// Where lines begin, which of them tell a fault, and the line that counts them all: the one that begins as `frames`.
function linesOf(octets, isFaulty) {
  const starts = [], faulty = [];
  let counts = "";
  for (let from = 0; from < octets.length;) {
    const to = octets.indexOf(LINE_FEED, from);
    if (octets[from] === FAULT_WORD[0]) counts = decoder.decode(octets.subarray(from, to));
    else {
      starts.push(from);
      faulty.push(Number(isFaulty(octets, from, to)));
    }
    from = to + 1;
  }
  return { octets, starts: Uint32Array.from(starts), faulty: Uint8Array.from(faulty), counts };
}

// Runs a command that writes a line for each datagram, and sends the lines on in pieces, as they come.
function list({ id, words, input, form, isCapture }) {
  const send = (piece, transfer) => postMessage({ id, piece }, transfer);
  let held = [], size = 0, last = performance.now(), counts = "", marks = [];
  const flush = () => {
    const octets = joined(held), end = octets.lastIndexOf(LINE_FEED) + 1;
    const lines = linesOf(octets.slice(0, end), FAULTS[form]);
    counts ||= lines.counts;
    send({ ...lines, marks }, [lines.octets.buffer, lines.starts.buffer, lines.faulty.buffer]);
    held = [octets.subarray(end)];
    size = octets.length - end;
    marks = [];
    last = performance.now();
  };
  const out = (it) => {
    held.push(it);
    size += it.length;
    if (size > PIECE || performance.now() - last > OFTEN) flush();
  };
  const done = ran(words, input, { out, marked: isCapture && ((it) => marks.push(it)), tell: progress(id) });
  flush();
  return { ...done, counts };
}

// Runs a command that writes lines for each datagram, the first of which begins with `datagram` or `frame`, and tells the numbers, from 0,
// of those whose lines have all of these texts.
function find({ id, words, input, texts }) {
  let held = "\n", number = 0;
  const found = [];
  const judge = (lines) => {
    if (texts.every((it) => lines.includes(it))) found.push(number);
    number++;
  };
  const head = words[0] === "capture" ? "\nframe " : "\ndatagram ";
  const out = (it) => {
    held += decoder.decode(it).toLowerCase();
    let from = Math.max(0, held.indexOf(head));
    for (let to = held.indexOf(head, from + 1); to >= 0; to = held.indexOf(head, from + 1)) {
      judge(held.slice(from, to));
      from = to;
    }
    held = held.slice(from);
  };
  const done = ran(words, input, { out, tell: progress(id) });
  const end = held.lastIndexOf("\nframes ");
  if (held.startsWith(head)) judge(end < 0 ? held : held.slice(0, end));
  return { ...done, found };
}

// A frame of a capture as an object, by the program over that frame alone. It has to be the one of that line of the list.
function frame({ input, mark, end, number, line, words }) {
  const alone = captureOf(part(input, mark.from, end), mark, number);
  if (!alone) return null;
  const told = (more) => run({ words: ["capture", ...more, ...words, "-"], input: alone }).out.split("\n")[0];
  if (told(["--brief"]).replace(/^\d+/, number) !== line) return null;
  return told(["--all", "--json", "--places"]).replace(/^\{"frame":1,/, `{"frame":${number},`);
}

const DOES = { run, list, find, frame };

onmessage = ({ data }) => {
  try {
    if (data.does === "start") program = data.module;
    else postMessage({ id: data.id, answer: DOES[data.does](data) });
  } catch (error) {
    // A trap: the stack or the memory of the module is used up, or there is a defect.
    postMessage({ id: data.id, stopped: String(error && error.message || error) });
  }
};
