// Datagrams in hexadecimal.
"use strict";

const TYPED = 262144; // characters that the field shows; a longer text is kept beside it
let dump = null;

function datagramWords() { return [...($("plane").value ? ["--user"] : []), ...($("join").checked ? ["--join"] : []), "-"]; }
function datagramInput() { return dump ? dump.blob : encoder.encode($("hex").value); }
function datagramSource() { return { words: ["decode", "--all", ...datagramWords()], input: datagramInput() }; }

async function showDatagrams() {
  const words = ["decode", "--all", "--json", "--places", ...datagramWords()];
  const answer = await listed({ words, input: datagramInput(), form: "object" });
  if (answer) $("datagram-note").textContent = toldOf(answer);
}

const TOLD = 40;
// The lines of standard error, without those that only tell where a reason follows.
function toldOf({ err }) {
  const lines = reasons(err).split("\n").filter((it) => !/^bad hex( line \d+)?$/.test(it));
  return [...lines.slice(0, TOLD), ...(lines.length > TOLD ? [`and ${lines.length - TOLD} more lines`] : [])].join("\n");
}

// Shows a text of datagrams: in the field, or beside it if it is long.
function openDump(blob, name, text) {
  dump = text === null ? { blob, name } : null;
  $("hex").hidden = Boolean(dump);
  $("long-dump").hidden = !dump;
  if (dump) $("long-dump-told").textContent = `${name}, ${size(blob.size)}: too long for the field, so it is read without it.`;
  else $("hex").value = text;
  show("datagram");
  return showDatagrams();
}

function pasteDump(event) {
  const text = event.clipboardData.getData("text");
  if (text.length <= TYPED) return;
  event.preventDefault();
  openDump(new Blob([text]), "The pasted text", null);
}
