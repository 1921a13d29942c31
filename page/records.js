// Where the records of a capture begin (pcap, pcapng), so that one of them can be handed to the program alone. What a frame holds is read by
// the program and not here.
"use strict";

const PCAP_HEAD = 24, RECORD_HEAD = 16, BLOCK_LEAST = 12;
const SECTION = 0x0a0d0d0a, INTERFACE = 1, FRAMES = [2, 3, 6], ORDER = 0x1a2b3c4d;
const PCAP_NUMBERS = [0xa1b2c3d4, 0xa1b23c4d];

function four(octets, at, little) { return new DataView(octets.buffer, octets.byteOffset).getUint32(at, little); }

// Goes over a capture, from its beginning or from a mark that it gave.
class Records {
  constructor(octets, mark) {
    if (mark) Object.assign(this, mark);
    else Object.assign(this, { from: 0, frames: 0, head: [], little: false, isPcap: false, ...this.beginning(octets) });
  }

  // The order of a pcap file, and its head, which stands before each of its records.
  beginning(octets) {
    if (octets.length < PCAP_HEAD) return {};
    const little = [true, false].find((it) => PCAP_NUMBERS.includes(four(octets, 0, it)));
    return little === undefined ? {} : { little, isPcap: true, head: [octets.slice(0, PCAP_HEAD)] };
  }

  // Where it is: what has to stand before the next record so that it can be read.
  mark() {
    const { from, frames, head, little, isPcap } = this;
    return { from, frames, head, little, isPcap };
  }

  // The length of the record or block that begins at a place of these octets; 0: there is none.
  lengthAt(octets, at) {
    if (this.isPcap) {
      if (this.from === 0 && at === 0) return PCAP_HEAD;
      return at + RECORD_HEAD <= octets.length ? RECORD_HEAD + four(octets, at + 8, this.little) : 0;
    }
    if (at + BLOCK_LEAST > octets.length) return 0;
    if (four(octets, at, true) === SECTION) this.little = four(octets, at + 8, true) === ORDER;
    const length = four(octets, at + 4, this.little);
    return length >= BLOCK_LEAST && length % 4 === 0 ? length : 0;
  }

  // Notes one that is passed: a frame is counted; what the frames behind it need is kept.
  note(octets, at, length) {
    if (this.isPcap) {
      this.frames += Number(length !== PCAP_HEAD || this.from + at > 0);
      return;
    }
    const type = four(octets, at, this.little);
    const block = () => octets.slice(at, at + length);
    if (type === SECTION) this.head = [block()];
    else if (type === INTERFACE) this.head = [...this.head, block()];
    else this.frames += Number(FRAMES.includes(type));
  }

  // Goes over the octets that stand where it is, to the first record that is not whole in them, or to the frame of a number. It gives how
  // many octets it has passed: of a record longer than all of them those of its beginning.
  pass(octets, wanted = Infinity) {
    let at = 0;
    for (;;) {
      const length = this.lengthAt(octets, at);
      if (!length || (at > 0 && at + length > octets.length)) break;
      const before = this.frames;
      this.note(octets, at, length);
      if (this.frames === wanted && this.frames > before) return { at, length };
      at += length;
    }
    this.from += at;
    return { at, length: 0 };
  }
}

// A capture of one frame alone: what stands before it, and its record.
function captureOf(octets, mark, number) {
  const records = new Records(octets, mark);
  const { at, length } = records.pass(octets, number);
  return length ? joined([...records.head, octets.subarray(at, at + length)]) : null;
}
