// The datagrams of a list, as the lines that the program wrote of them: those of `capture --brief`, or objects.
"use strict";

const lineDecoder = new TextDecoder();
const LINE_FEED = 10, SECOND = /^ then (.*?)(?: teid| seq|$)/;

class Rows {
  constructor(form) { Object.assign(this, { form, pieces: [], count: 0, faults: 0 }); }

  add({ octets, starts, faulty }) {
    if (!starts.length) return;
    this.pieces.push({ octets, starts, faulty, first: this.count });
    this.count += starts.length;
    for (const it of faulty) this.faults += it;
  }

  // The piece that has a datagram.
  pieceOf(place) {
    let low = 0, high = this.pieces.length - 1;
    while (low < high) {
      const middle = (low + high + 1) >> 1;
      if (this.pieces[middle].first <= place) low = middle;
      else high = middle - 1;
    }
    return this.pieces[low];
  }

  line(place) {
    const { octets, starts, first } = this.pieceOf(place), from = starts[place - first];
    return lineDecoder.decode(octets.subarray(from, octets.indexOf(LINE_FEED, from)));
  }

  isFaulty(place) {
    const { faulty, first } = this.pieceOf(place);
    return faulty[place - first] === 1;
  }

  // The time of the first frame.
  firstTime() { return this.time ??= this.head(0).time; }

  head(place) {
    const head = this.form === "brief" ? briefHead(this.line(place)) : objectHead(JSON.parse(this.line(place)));
    return { place, ...head };
  }
}

// What a row shows of a line of `capture --brief`.
function briefHead(line) {
  const [frame, time, fromAddress, fromPort, toAddress, toPort] = line.split(" ", 6);
  const said = line.split(" ").slice(6).join(" ");
  const from = { address: fromAddress, port: Number(fromPort) }, to = { address: toAddress, port: Number(toPort) };
  const ends = { frame: Number(frame), time, from, to };
  const found = /^(type \d+|[^ ]+)(?: teid ([0-9a-f]{8}))?(?: seq (\d+))?(.*)$/.exec(said);
  const second = SECOND.exec(found[4]);
  if (/^(fault|cut|fragment)\b/.test(said)) return { ...ends, message: said, teid: "", seq: "", fault: said.startsWith("fault") ? said : "" };
  return { ...ends, message: second ? `${found[1]} + ${second[1]}` : found[1], teid: found[2] || "", seq: found[3] || "", fault: "" };
}

// What a row shows of an object.
function objectHead(object) {
  const { plane, teid = "", seq = "", second, fault } = object;
  const message = [nameOf(object), second && (nameOf(second) || "octets")].filter(Boolean).join(" + ");
  return { plane, message, teid, seq: String(seq), fault: fault ? faultLine(fault) : "" };
}

function nameOf(message) { return message.name || (message.type === undefined ? "" : `type ${message.type}`); }

// A fault as its line has it.
function faultLine(fault) {
  const { code, told } = faultWords(fault);
  return `fault ${code}${told ? ` ${told}` : ""}`;
}

// The code of a fault, and what is told of it.
function faultWords(fault) {
  const parts = { ...fault, ...fault.element };
  if (fault.code === "U7") parts.type = parts.type.toString(16).padStart(2, "0");
  const code = fault.code === "H7" ? `H7 ${fault.element.code}` : fault.code;
  const told = ["stated", "held", "version", "type", "instance"].filter((it) => parts[it] !== undefined).map((it) => `${it} ${parts[it]}`);
  if (parts.mark) told.push(parts.mark);
  if (parts.at !== undefined && /^(H5|H7|U5|U6|U9)/.test(code)) told.push(`at ${parts.at}`);
  if (parts.bearer_context) told.push(`in bearer-context ${parts.bearer_context}`);
  return { code, told: told.join(" ") };
}
