// The frame of the page: tabs, keys, files, and how it begins.
"use strict";

const VIEWS = ["datagram", "capture", "scenario"];

function show(view) {
  if (state.view !== view) long.stop();
  Object.assign(state, { view, rows: new Rows("object"), coming: null, isListing: false, shown: null, place: -1 });
  for (const it of VIEWS) $(it).hidden = it !== view;
  chooseTab($("views"), $(`tab-${view}`));
  $("list-card").hidden = $("below").hidden = true;
  document.body.dataset.view = view;
}

function enter(view) {
  show(view);
  return { datagram: showDatagrams, capture: showCaptureAgain, scenario: showRun }[view]();
}

function chooseTab(list, chosen) {
  for (const it of list.querySelectorAll('[role="tab"]')) {
    it.setAttribute("aria-selected", String(it === chosen));
    it.tabIndex = it === chosen ? 0 : -1;
  }
}

function tabKeys(event) {
  const tabs = [...event.currentTarget.querySelectorAll('[role="tab"]')], at = tabs.indexOf(document.activeElement);
  const next = { ArrowRight: at + 1, ArrowLeft: at - 1, Home: 0, End: tabs.length - 1 }[event.key];
  if (at < 0 || next === undefined) return;
  const tab = tabs[(next + tabs.length) % tabs.length];
  tab.focus();
  tab.click();
  event.preventDefault();
}

function listKeys(event) {
  const page = Math.max(1, Math.floor($("list").clientHeight / HEIGHT) - 2);
  const by = { ArrowDown: 1, ArrowUp: -1, j: 1, k: -1, PageDown: page, PageUp: -page, Home: -Infinity, End: Infinity }[event.key];
  if (!by) return;
  move(by);
  event.preventDefault();
}

function pageKeys(event) {
  const isTyped = document.activeElement.matches("input:not([type=checkbox]), textarea, select");
  if (event.key !== "/" || isTyped || $("list-card").hidden) return;
  $("filter").focus();
  event.preventDefault();
}

function showForm({ currentTarget: tab }) {
  chooseTab($("forms"), tab);
  form = tab.dataset.form;
  return showRun();
}

// ---- Files

const CAPTURES = ["a1b2c3d4", "d4c3b2a1", "a1b23c4d", "4d3cb2a1", "0a0d0d0a"];

// Takes a file that was dropped or opened: a capture, a scenario, or datagrams in hexadecimal. What is none of them is read as a capture, and
// the program tells why it is none.
async function takeFile(file) {
  const front = new Uint8Array(await file.slice(0, 512).arrayBuffer()), begin = new TextDecoder("latin1").decode(front);
  if (CAPTURES.includes(hexOf(front.subarray(0, 4)))) return openCapture(file, file.name);
  if (/^\s*{/.test(begin)) return openScenario(await file.slice(0, LONGEST + 1).text());
  if (/[^\t\n\r -~]/.test(begin)) return openCapture(file, file.name);
  return openDump(file, file.name, file.size > TYPED ? null : await file.text());
}

function takeDrop(event) {
  event.preventDefault();
  document.body.classList.remove("dragging");
  if (event.dataTransfer.files[0]) takeFile(event.dataTransfer.files[0]);
}

// ---- Light and dark

function themed(name) {
  document.documentElement.dataset.theme = name;
  const drawn = $("drawn");
  if (drawn) drawn.className = name;
}

function beginTheme() {
  const dark = matchMedia("(prefers-color-scheme: dark)"), preferred = () => dark.matches ? "dark" : "light";
  let chosen = null;
  try { chosen = localStorage.getItem("theme"); } catch { /* no store on this address */ }
  themed(chosen || preferred());
  dark.addEventListener("change", () => chosen || themed(preferred()));
  $("theme").onclick = () => {
    chosen = document.documentElement.dataset.theme === "dark" ? "light" : "dark";
    try { localStorage.setItem("theme", chosen); } catch { /* the same */ }
    themed(chosen);
  };
}

// ---- What controls do

function fill(id, examples_, open, field = null) {
  $(id).append(...Object.keys(examples_).map((it) => make("option", { value: it, textContent: it })));
  $(id).onchange = ({ target }) => target.value && open(examples_[target.value], target.value);
  if (field) $(field).addEventListener("input", () => { $(id).value = ""; });
}

function beginDatagrams() {
  fill("example-datagram", examples.datagrams, (text) => {
    $("plane").value = "";
    openDump(null, "", text);
  }, "hex");
  $("hex").oninput = later(showDatagrams, 120);
  $("hex").onpaste = pasteDump;
  $("plane").onchange = $("join").onchange = showDatagrams;
  $("close-dump").onclick = () => openDump(null, "", "");
}

function beginCaptures() {
  fill("example-capture", examples.captures, (text, name) => openCapture(new Blob([octetsOfBase64(text)]), name));
  for (const it of ["control-port", "user-port"]) $(it).onchange = showCapture;
  $("open-capture").onclick = () => $("capture-file").click();
  $("capture-file").onchange = ({ target }) => {
    if (target.files[0]) takeFile(target.files[0]);
    target.value = "";
  };
}

function beginScenarios() {
  fill("example-scenario", examples.scenarios, openScenario, "json");
  $("json").oninput = later(showRun, 150);
  $("json").onpaste = pasteScenario;
  $("close-scenario").onclick = () => openScenario("");
  $("json").onscroll = () => { $("numbers").scrollTop = $("json").scrollTop; };
  for (const it of $("forms").children) it.onclick = showForm;
  $("save-pcap").onclick = savePcap;
}

function beginLists() {
  for (const it of $("list-forms").children) it.onclick = () => {
    listIn(it.dataset.form);
    showList();
  };
  $("list").onscroll = drawRows;
  $("list").onkeydown = listKeys;
  new ResizeObserver(drawRows).observe($("list"));
  $("filter").oninput = later(filterList, 120);
  $("only-faults").onchange = filterList;
  $("stop").onclick = () => {
    long.stop();
    tell("Stopped");
  };
}

function beginDetail() {
  $("tree").onkeydown = treeKey;
  $("octets").onclick = selectOctet;
  $("copy-hex").onclick = () => state.octets && copy("Octets", hexOf(state.octets));
  $("copy-json").onclick = () => state.line && copy("JSON", state.line);
  $("copy-lines").onclick = copyLines;
}

function beginPage() {
  for (const it of VIEWS) $(`tab-${it}`).onclick = () => enter(it);
  for (const it of document.querySelectorAll('[role="tablist"]')) it.addEventListener("keydown", tabKeys);
  $("share").onclick = share;
  addEventListener("hashchange", fromLink);
  addEventListener("keydown", pageKeys);
  addEventListener("dragover", (event) => {
    event.preventDefault();
    document.body.classList.add("dragging");
  });
  addEventListener("dragleave", (event) => event.relatedTarget || document.body.classList.remove("dragging"));
  addEventListener("drop", takeDrop);
}

// What the address links to, or an example.
async function showFirst() {
  if (!await fromLink()) await openDump(null, "", examples.datagrams["create-session-request"]);
  document.documentElement.dataset.first = performance.now().toFixed(1);
}

let explained = Promise.resolve();

async function begin() {
  for (const it of [beginTheme, beginDatagrams, beginCaptures, beginScenarios, beginLists, beginDetail, beginPage]) it();
  try { await module; } catch (error) {
    say(`This browser cannot run the program: ${error.message}`);
    return;
  }
  const first = showFirst();
  explained = first.then(readCodes);
  await explained;
  document.documentElement.dataset.ready = "yes";
}
// What the tests of the page take hold of.
globalThis.page = { state, quick, long, enter, choose, openCapture, openDump, openScenario, showDatagrams, showRun, filterList, linkOf, hexOf };
begin();
