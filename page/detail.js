// One datagram: its tree beside its octets.
"use strict";

function showDetail(object, line) {
  const octets = object.datagram === undefined ? null : octetsOf(object.datagram);
  const { nodes, mark } = octets ? treeOf(octets, object) : { nodes: saidNodes(object), mark: null };
  Object.assign(state, { object, line, octets, nodes, mark });
  $("below").hidden = false;
  $("detail-name").textContent = objectHead(object).message || "Octets";
  $("detail-told").textContent = aboutOf(object, octets);
  for (const it of ["copy-hex", "copy-lines"]) $(it).disabled = !octets;
  showFault(object.fault, mark);
  drawTree(nodes);
  drawOctets(octets || new Uint8Array(), mark);
  if (mark) {
    scrollToOctet(mark.from);
    showMark(mark.from, mark.to);
    bringToFault();
  }
}

// Shows that there is no datagram to show, and why.
function showNothing(why) {
  Object.assign(state, { object: null, line: "", octets: null, nodes: [], mark: null });
  $("detail-name").textContent = "Datagram";
  $("detail-told").textContent = why;
  $("fault").hidden = true;
  drawTree([]);
  drawOctets(new Uint8Array(), null);
}

function aboutOf({ plane, fault, cut, fragment }, octets) {
  if (octets) return `${octets.length} octets, ${plane} plane${fault ? "" : ", no fault"}`;
  if (cut) return `cut: the capture has ${cut.held} of its ${cut.of} octets`;
  return fragment ? "a fragment: the capture has not all of its octets" : "";
}

// What is said of a datagram whose octets are not at hand, by the members of its object.
function saidNodes(object) {
  const nodes = (members) => Object.entries(members).map(([name, value]) => typeof value === "object"
    ? node(name, "", null, null, { group: true, children: nodes(value) })
    : node(name, String(value), null, null));
  const { frame, time, from, to, fault, ...rest } = object;
  return nodes(rest);
}

// What `explain` prints of a code.
const codes = new Map();
async function readCodes() {
  const answer = await run(["explain"]);
  for (const line of (answer ? answer.out : "").split("\n")) {
    const found = /^(\S+(?: \S+)?): (.*)$/.exec(line);
    if (found) codes.set(found[1], found[2]);
  }
}

async function showFault(fault, mark) {
  const box = $("fault");
  box.hidden = !fault;
  if (!fault) return;
  const { code, told } = faultWords(fault);
  const meaning = make("span", { className: "meaning" });
  const go = make("button", { className: "tool", textContent: "Show the place", hidden: !mark || mark.from === mark.to });
  go.onclick = () => {
    if (!$("octets").cells[mark.from]) drawOctets(state.octets, mark, true);
    scrollToOctet(mark.from);
    showMark(mark.from, mark.to);
    bringToFault();
  };
  box.replaceChildren(make("b", { textContent: `fault ${code}` }), make("span", { className: "told", textContent: told }), meaning, go);
  await explained;
  meaning.textContent = codes.get(code) || "";
}

// ---- The tree

function drawTree(nodes) {
  const items = [];
  $("tree").replaceChildren(make("ul", { role: "none" }, ...nodes.map((it) => branch(it, 0, items))));
  $("tree").items = items;
  $("tree").removeAttribute("aria-activedescendant");
  state.item = null;
}

function branch(it, depth, items) {
  const item = make("li", {
    role: "treeitem", id: `item-${items.length}`, "aria-level": depth + 1, "aria-selected": "false",
    className: `${depth ? "" : "top"}${it.bad ? " bad" : ""}`,
  }, shownItem(it, depth));
  item.node = it;
  items.push(item);
  const shown = item.firstChild, opens = () => item.hasAttribute("aria-expanded");
  shown.onclick = (event) => {
    if (opens() && event.target === shown && event.offsetX < 24 + depth * 18) toggle(item);
    select(item, true);
  };
  shown.ondblclick = () => opens() && toggle(item);
  shown.onmouseenter = () => hover(it);
  shown.onmouseleave = () => hover(null);
  if (it.children.length) {
    item.setAttribute("aria-expanded", String(Boolean(it.open || it.group || depth === 0)));
    item.append(make("ul", { role: "group" }, ...it.children.map((inner) => branch(inner, depth + 1, items))));
  }
  return item;
}

function shownItem(it, depth) {
  const shown = make("div", { className: "item" }, make("span", { className: "name", textContent: it.label }));
  shown.style.setProperty("--depth", depth);
  if (it.note) shown.append(make("span", { className: "tag", textContent: it.note }));
  shown.append(make("span", { className: "value", textContent: it.value }));
  if (it.from !== null && it.from < it.to) {
    const place = it.to - it.from > 1 ? `${it.from}–${it.to - 1}` : String(it.from);
    shown.append(make("span", { className: "place", textContent: place }));
  }
  return shown;
}

function toggle(item) { item.setAttribute("aria-expanded", String(item.getAttribute("aria-expanded") !== "true")); }

function select(item, scrolls) {
  if (state.item) state.item.setAttribute("aria-selected", "false");
  state.item = item;
  item.setAttribute("aria-selected", "true");
  $("tree").setAttribute("aria-activedescendant", item.id);
  item.firstChild.scrollIntoView({ block: "nearest" });
  if (scrolls && item.node.from !== null) scrollToOctet(item.node.from);
  hover(null);
}

// Marks the octets of what is pointed at, else of what is selected, else of the fault.
function hover(it) {
  const marked = [it, state.item && state.item.node, state.mark].find((one) => one && one.from !== null);
  showMark(marked ? marked.from : 0, marked ? marked.to : 0);
}

function bringToFault() {
  const bad = $("tree").items.find((it) => it.node.bad);
  if (bad) bad.firstChild.scrollIntoView({ block: "nearest" });
}

function treeKey(event) {
  const shown = $("tree").items.filter((it) => it.firstChild.offsetParent !== null), { item } = state;
  const at = item ? shown.indexOf(item) : -1, open = item && item.getAttribute("aria-expanded");
  const go = (next) => select(shown[Math.max(0, Math.min(shown.length - 1, next))], true);
  const above = item && item.parentElement.closest("li");
  const does = {
    ArrowDown: () => go(at + 1),
    ArrowUp: () => go(at - 1),
    Home: () => go(0),
    End: () => go(shown.length - 1),
    ArrowRight: () => open === "false" ? toggle(item) : open === "true" && go(at + 1),
    ArrowLeft: () => open === "true" ? toggle(item) : above && select(above, true),
    Enter: () => open && toggle(item),
    " ": () => open && toggle(item),
  }[event.key];
  if (!does || !shown.length) return;
  does();
  event.preventDefault();
}

// ---- The octets

const SHOWN = 4096, WIDE = 16;

function drawOctets(octets, mark, all = false) {
  const box = $("octets"), cells = [], lines = [];
  const count = all ? octets.length : Math.min(octets.length, SHOWN);
  for (let from = 0; from < count; from += WIDE) lines.push(lineOf(octets, from, Math.min(from + WIDE, count), cells));
  if (count < octets.length) {
    const more = make("button", { className: "tool", textContent: `Show all ${octets.length} octets` });
    more.onclick = () => {
      drawOctets(octets, mark, true);
      hover(null);
    };
    lines.push(more);
  }
  box.replaceChildren(...lines);
  box.cells = cells;
  state.marked = [0, 0];
  if (mark) for (const it of cells.slice(mark.from, mark.to).flat()) it.classList.add("bad");
}

function lineOf(octets, from, to, cells) {
  const hex = make("span", { className: "digits" }), ascii = make("span", { className: "ascii", "aria-hidden": "true" });
  for (let at = from; at < to; at++) {
    const octet = octets[at];
    const one = make("i", { textContent: octet.toString(16).padStart(2, "0"), className: at % WIDE === 7 ? "gap" : "" });
    const other = make("i", { textContent: octet >= 32 && octet < 127 ? String.fromCharCode(octet) : "·" });
    one.at = other.at = at;
    cells.push([one, other]);
    hex.append(one);
    ascii.append(other);
  }
  return make("div", { className: "line" }, make("span", { className: "where", textContent: from.toString(16).padStart(4, "0") }), hex, ascii);
}

function showMark(from, to) {
  const cells = $("octets").cells || [], [before, after] = state.marked;
  for (const it of cells.slice(before, after).flat()) it.classList.remove("on");
  for (const it of cells.slice(from, to).flat()) it.classList.add("on");
  state.marked = [from, to];
}

function scrollToOctet(at) {
  const cells = $("octets").cells || [];
  if (cells[at]) cells[at][0].closest(".line").scrollIntoView({ block: "nearest" });
}

// The innermost node at an octet.
function atOctet(at) {
  let found = null;
  for (const item of $("tree").items) {
    const { from, to } = item.node;
    if (from !== null && from <= at && at < to && (!found || to - from <= found.node.to - found.node.from)) found = item;
  }
  return found;
}

function selectOctet({ target }) {
  const item = target.at !== undefined && atOctet(target.at);
  if (!item) return;
  for (let above = item.parentElement.closest("li"); above; above = above.parentElement.closest("li")) above.setAttribute("aria-expanded", "true");
  select(item, false);
}

async function copyLines() {
  if (!state.octets) return;
  const answer = await run(["decode", "--all", "-"], encoder.encode(`${state.object.plane} ${hexOf(state.octets)}`));
  if (answer) copy("Lines", answer.out.replace(/^datagram 0\n/, ""));
}
