// Captures.
"use strict";

let capture = null; // { blob, name, marks, rows }: rows, once all of it is listed

function portWords() {
  return ["control-port", "user-port"].flatMap((it) => $(it).value ? [`--${it}`, $(it).value] : []);
}
function captureSource() { return { words: ["capture", "--all", ...portWords(), "-"], input: capture.blob }; }

function openCapture(blob, name) {
  capture = { blob, name, marks: [] };
  show("capture");
  return showCapture();
}

// Shows the capture that is open: as it was listed before, or anew.
function showCaptureAgain() { return capture && capture.rows ? opened(capture.rows) : showCapture(); }

async function showCapture() {
  if (!capture) return;
  capture = { ...capture, marks: [], rows: null };
  $("drop").hidden = true;
  $("capture-told").textContent = `${capture.name}, ${size(capture.blob.size)}`;
  $("capture-note").textContent = "";
  const shown = capture;
  const answer = await listed({ words: ["capture", "--brief", ...portWords(), "-"], input: shown.blob, form: "brief", isCapture: true });
  if (capture !== shown || state.view !== "capture") return;
  if (!answer) $("capture-note").textContent = "stopped: what is listed is the beginning of the capture";
  else {
    capture.rows = state.rows;
    $("capture-note").textContent = reasons(answer.err);
    $("capture-told").textContent += countsOf(answer.counts);
  }
}

// The line that ends a capture, in words.
function countsOf(line) {
  const found = /^frames (\d+) gtp (\d+) faults (\d+) cut (\d+) fragments (\d+)$/.exec(line);
  if (!found) return "";
  const [, frames, gtp, faults, cut, fragments] = found;
  const more = [[cut, "cut"], [fragments, "fragments"]].filter(([count]) => count !== "0").map(([count, what]) => `, ${count} ${what}`);
  return `: ${frames} frames, ${gtp} datagrams, ${faults} with a fault${more.join("")}`;
}

// The object of a datagram, of which this is the line of the list.
async function frameLine(line) {
  const number = Number(line.split(" ", 1)[0]), { blob, marks } = capture;
  const behind = marks.findIndex((it) => it.frames >= number), at = (behind < 0 ? marks.length : behind) - 1;
  if (at < 0) return null;
  const end = marks[at + 1] ? marks[at + 1].from : blob.size;
  return guarded(() => quick.ask({ does: "frame", input: blob, mark: marks[at], end, number, line, words: portWords() }));
}
