// What is shown now, and how it is put on the page.
"use strict";

const $ = (id) => document.getElementById(id);
const examples = JSON.parse($("examples").textContent);
// The list: rows, its datagrams; coming, those that are to be its, while isListing; shown, the places of those that a filter lets through, or null
// for all; place, the one that is chosen. The detail: object and line, what the program says of it, as a value and as it stands there; octets;
// nodes, its tree; mark, the octets of its fault; item, what is selected in the tree; marked, which octets are marked now.
const state = {
  view: "datagram", rows: new Rows("object"), coming: null, isListing: false, shown: null, place: -1,
  object: null, line: "", octets: null, nodes: [], mark: null, item: null, marked: [0, 0],
};

function say(what) { $("state").textContent = what; }

// Says something for a while.
function tell(what) {
  say(what);
  setTimeout(() => $("state").textContent === what && say(""), 2500);
}

function make(name, properties = {}, ...children) {
  const made = document.createElement(name);
  for (const [key, value] of Object.entries(properties)) {
    if (key.includes("-") || key === "role") made.setAttribute(key, value);
    else made[key] = value;
  }
  made.append(...children);
  return made;
}

function size(count) {
  if (count < 10240) return `${count} octets`;
  return count < 1048576 ? `${(count / 1024).toFixed(0)} KB` : `${(count / 1048576).toFixed(1)} MB`;
}

function counted(count) { return `${count} ${count === 1 ? "datagram" : "datagrams"}`; }

function timed({ ms, memory }, what) {
  $("timing").textContent = `${what} in ${ms.toFixed(ms < 10 ? 1 : 0)} ms, ${size(memory)} of memory`;
}

// What standard error told, in words of this page, where nobody sees standard input.
function reasons(err) { return err.replace(/gtpshow: standard input[,:] /g, "").replace(/gtpshow: standard input/g, "the input").trim(); }

async function copy(what, value) {
  try { await navigator.clipboard.writeText(value); } catch {
    const area = make("textarea", { value });
    document.body.append(area);
    area.select();
    document.execCommand("copy");
    area.remove();
  }
  tell(`${what} copied`);
}

function later(what, wait) {
  let timer = 0;
  return () => {
    clearTimeout(timer);
    timer = setTimeout(what, wait);
  };
}
