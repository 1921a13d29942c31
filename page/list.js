// The list of datagrams: only the rows in sight are drawn.
"use strict";

const HEIGHT = 22, HIGHEST = 8000000; // no browser draws what is much higher: a longer list is scrolled by parts of it
const COLUMNS = {
  datagram: ["52px 64px minmax(220px,1fr) 84px 84px minmax(260px,1.2fr)", ["No.", "Plane", "Message", "TEID", "Seq", "Fault"]],
  capture: ["72px 110px minmax(140px,.7fr) minmax(140px,.7fr) minmax(260px,2fr) 84px 84px",
    ["Frame", "Time", "From", "To", "Message or fault", "TEID", "Seq"]],
};

// An address in the form in which one writes it, without the longest run of zeros (RFC 5952).
function grouped(v6) {
  const text = v6.match(/..../g).map((it) => Number.parseInt(it, 16).toString(16)).join(":");
  const runs = [...text.matchAll(/\b0(?::0)+\b/g)].sort((one, other) => other[0].length - one[0].length);
  if (!runs.length) return text;
  const { 0: run, index } = runs[0];
  return `${text.slice(0, index).replace(/:$/, "")}::${text.slice(index + run.length).replace(/^:/, "")}`;
}
function nameOfEnd(address) { return address.length === 32 ? grouped(address) : address; }
function addressOf({ address, port }) { return `${address.length === 32 ? `[${grouped(address)}]` : address}:${port}`; }

// Seconds from the first datagram on, with six digits behind the point.
function since(time, first) {
  const micro = (it) => {
    const [seconds, part] = it.split(".");
    return BigInt(seconds) * 1000000n + BigInt(part.slice(0, 6));
  };
  const gone = micro(time) - micro(first), size = gone < 0n ? -gone : gone;
  return `${gone < 0n ? "-" : ""}${size / 1000000n}.${String(size % 1000000n).padStart(6, "0")}`;
}

function planeOf(head) {
  if (head.plane) return head.plane;
  const control = [2123, Number($("control-port").value || 2123)];
  return control.includes(head.from.port) || control.includes(head.to.port) ? "control" : "user";
}

function cellsOf(head) {
  if (state.view !== "capture") return [head.place, head.plane, head.message, head.teid, head.seq, head.fault];
  return [head.frame, since(head.time, state.rows.firstTime()), addressOf(head.from), addressOf(head.to), head.message, head.teid, head.seq];
}

function countShown() { return state.shown ? state.shown.length : state.rows.count; }
function placeAt(index) { return state.shown ? state.shown[index] : index; }
function indexOf(place) { return state.shown ? state.shown.indexOf(place) : place; }

function drawList() {
  const list = $("list"), [columns, names] = COLUMNS[state.view] || COLUMNS.datagram;
  list.style.setProperty("--columns", columns);
  const heads = make("div", { className: "heads", "aria-hidden": "true" }, ...names.map((it) => make("span", { textContent: it })));
  list.pad = make("div", { className: "pad" });
  list.replaceChildren(heads, list.pad);
  drawRows();
}

// How the list is scrolled: how high all of it is, the first row in sight, and how many are.
function scrolled() {
  const list = $("list"), count = countShown(), inSight = Math.max(1, Math.floor(list.clientHeight / HEIGHT) - 1);
  const high = Math.min(count * HEIGHT, HIGHEST), room = Math.max(1, high + HEIGHT - list.clientHeight); // a row is taken by the names of columns
  const isWhole = high === count * HEIGHT;
  const first = isWhole ? Math.floor(list.scrollTop / HEIGHT) : Math.round(Math.min(1, list.scrollTop / room) * (count - inSight));
  return { count, inSight, high, room, isWhole, first: Math.max(0, first) };
}

function drawRows() {
  const list = $("list");
  if (!list.pad || list.hidden) return;
  const { count, inSight, high, isWhole, first } = scrolled(), more = isWhole ? 8 : 0;
  list.pad.style.height = `${high}px`;
  const rows = [];
  for (let index = Math.max(0, first - more); index < Math.min(count, first + inSight + 2 + more); index++) {
    rows.push(rowOf(index, isWhole ? index * HEIGHT : list.scrollTop + (index - first) * HEIGHT));
  }
  list.pad.replaceChildren(...rows);
}

function rowOf(index, top) {
  const place = placeAt(index), head = state.rows.head(place);
  const row = make("div", {
    className: `row ${planeOf(head)}${head.fault ? " faulty" : ""}`, role: "option", id: `row-${index}`,
    "aria-selected": String(place === state.place), "aria-posinset": index + 1, "aria-setsize": countShown(),
  }, ...cellsOf(head).map((it) => make("span", { textContent: it, title: it ?? "" })));
  row.style.top = `${top}px`;
  row.onclick = () => getSelection().isCollapsed && choose(place); // a choice draws the rows anew, and would undo what one has marked to copy
  return row;
}

function bringToSight(index) {
  const list = $("list"), { count, inSight, room, isWhole, first } = scrolled();
  if (index >= first && index < first + inSight) return;
  const wanted = index < first ? index : index - inSight + 1;
  list.scrollTop = isWhole ? wanted * HEIGHT : wanted / (count - inSight) * room;
}

// Shows the list in a form: as rows, or as a sequence.
function listIn(form) {
  chooseTab($("list-forms"), $("list-forms").querySelector(`[data-form="${form}"]`));
  $("list").hidden = form !== "list";
  $("sequence").hidden = form !== "sequence";
}

function tellList() {
  const { shown, rows } = state, faults = shown ? shown.filter((it) => rows.isFaulty(it)).length : rows.faults;
  $("list-told").textContent = `${shown ? `${shown.length} of ` : ""}${counted(rows.count)}, ${faults} with a fault`;
}

function showList() {
  tellList();
  drawList();
  if (!$("sequence").hidden) drawSequence();
}

// Lists what a command writes of an input. What is listed is shown as it comes; nothing is, once something else is to be listed.
async function listed({ words, input, form, isCapture = false }) {
  long.stop();
  const rows = new Rows(form), message = { does: "list", words, input, form, isCapture };
  Object.assign(state, { coming: rows, isListing: true });
  const take = (piece) => {
    if (rows !== state.coming) return;
    rows.add(piece);
    if (isCapture) capture.marks.push(...piece.marks);
    if (rows !== state.rows) opened(rows);
    else if (rows.count) grown();
  };
  const isLong = (input.size ?? input.length) > LONG;
  const answer = await (isLong ? longWork(message, take) : guarded(() => quick.ask(message, { onPiece: take })));
  if (rows !== state.coming) return null;
  state.isListing = false;
  if (isFiltered()) await filterList();
  else showList();
  if (answer) timed(answer, counted(rows.count));
  return answer;
}

// Shows a new list, from its first datagram on.
function opened(rows) {
  Object.assign(state, { rows, shown: null, place: -1 });
  $("filter").value = "";
  $("only-faults").checked = false;
  $("list").scrollTop = 0;
  $("list-card").hidden = !hasList();
  $("below").hidden = !rows.count;
  $("list-forms").hidden = state.view !== "capture";
  if (state.view !== "capture") listIn("list");
  showList();
  if (rows.count) choose(0);
}

// Whether there is what one chooses from.
function hasList() { return state.rows.count >= (state.view === "capture" ? 1 : 2); }

// Shows that the list has more than before.
function grown() {
  $("list-card").hidden = !hasList();
  tellList();
  drawRows();
  if (state.place >= 0) return;
  $("below").hidden = false;
  choose(0);
}

// What the list is of: the words of the command that writes all lines of it, and its input.
function listSource() { return state.view === "capture" ? captureSource() : datagramSource(); }

function filterTexts() { return $("filter").value.toLowerCase().split(/\s+/).filter(Boolean).map(wordOf); }

// A word of the filter as the lines have it: there an address of IPv6 is 32 digits, and a port a word of its own.
function wordOf(word) {
  const v4 = /^(\d+(?:\.\d+){3}):(\d+)$/.exec(word), v6 = /^\[?([0-9a-f]{0,4}(?::[0-9a-f]{0,4})+)(?:\](?::(\d+))?)?$/.exec(word);
  if (v4) return `${v4[1]} ${v4[2]}`;
  if (!v6) return word;
  const [before, after] = v6[1].split("::").map((it) => it.split(":").filter(Boolean).map((group) => group.padStart(4, "0")).join(""));
  return `${after ? before + after.padStart(32 - before.length, "0") : before}${v6[2] ? ` ${v6[2]}` : ""}`;
}
function isFiltered() { return filterTexts().length > 0 || $("only-faults").checked; }

// Shows what the filter lets through; of a list that is still made, once it is.
async function filterList() {
  if (state.isListing) return;
  const texts = filterTexts(), { rows } = state;
  let shown = null;
  if (texts.length) {
    const answer = await longWork({ does: "find", texts, ...listSource() });
    if (rows !== state.rows) return;
    if (!answer) {
      tellList();
      $("list-told").textContent += ": the filter was stopped";
      return;
    }
    shown = answer.found.filter((it) => it < rows.count);
  }
  if ($("only-faults").checked) shown = (shown || [...Array(rows.count).keys()]).filter((it) => rows.isFaulty(it));
  state.shown = shown;
  $("list").scrollTop = 0;
  showList();
  const index = indexOf(state.place);
  if (index >= 0) bringToSight(index);
  else if (countShown()) await choose(placeAt(0));
}

function move(by) {
  const count = countShown(), at = indexOf(state.place);
  if (count) choose(placeAt(Math.max(0, Math.min(count - 1, at < 0 ? 0 : at + by))));
}

async function choose(place) {
  const { rows } = state, index = indexOf(place);
  state.place = place;
  if (index >= 0) {
    bringToSight(index);
    $("list").setAttribute("aria-activedescendant", `row-${index}`);
  }
  drawRows();
  markSequence();
  const line = rows.form === "brief" ? await frameLine(rows.line(place)) : rows.line(place);
  if (state.place !== place || state.rows !== rows) return;
  if (line) showDetail(JSON.parse(line), line);
  else showNothing("This frame could not be cut out of the capture.");
}
