// Scenarios, and their runs.
"use strict";

const DRAWN = 4194304, TEXT = 1048576; // characters of a picture that is drawn, and of a text that is shown
let form = "--svg", ran = 0, longScenario = null;

// Shows a scenario: in the editor, or beside it if it is long, and its run.
function openScenario(text) {
  longScenario = text.length > TYPED ? text : null;
  $("editor").hidden = Boolean(longScenario);
  $("long-scenario").hidden = !longScenario;
  if (longScenario) $("long-scenario-told").textContent = `${size(text.length)}: too long for the editor, so it is run without it.`;
  $("json").value = longScenario ? "" : text;
  show("scenario");
  return showRun();
}

function scenarioText() { return longScenario ?? $("json").value; }

function pasteScenario(event) {
  const text = event.clipboardData.getData("text");
  if (text.length <= TYPED) return;
  event.preventDefault();
  openScenario(text);
}

async function showRun() {
  const typed = scenarioText(), mine = ++ran;
  numberLines(typed, null);
  if (!typed.trim()) return showUnrun("Choose an example, write a scenario, or drop one here.");
  const message = { does: "run", words: ["replay", ...(form ? [form] : []), "-"], input: encoder.encode(typed) };
  const answer = await (typed.length > LONG ? longWork(message) : guarded(() => quick.ask(message)));
  if (!answer || mine !== ran || state.view !== "scenario") return;
  timed(answer, "replayed");
  if (answer.status > 1) return showRefused(typed, answer);
  $("save-pcap").disabled = false;
  $("scenario-note").textContent = reasons(answer.err);
  $("scenario-told").textContent = answer.status ? "an event came to something else than expected" : "each event came to what is expected";
  $("scenario-told").className = answer.status ? "bad" : "fine";
  if (form === "--svg") showPicture(answer.out);
  else showText(answer.out);
}

function showText(text) {
  $("picture").replaceChildren(make("pre", { textContent: text.slice(0, TEXT) }));
  if (text.length > TEXT) $("picture").prepend(make("p", { className: "soft", textContent: `The first ${size(TEXT)} of ${size(text.length)}.` }));
}

function showUnrun(why) {
  $("save-pcap").disabled = true;
  $("scenario-told").textContent = $("scenario-note").textContent = "";
  $("picture").replaceChildren(make("p", { className: "empty", textContent: why }));
  $("below").hidden = true;
}

// A scenario that is none, or for which there is no memory: what the program tells, and the line.
function showRefused(typed, answer) {
  showUnrun("There is no run.");
  $("scenario-note").textContent = [answer.out.trim(), reasons(answer.err)].filter(Boolean).join("\n");
  const line = lineOfRefusal(typed, answer);
  if (line && longScenario) $("scenario-note").textContent += `\nline ${line} of the scenario`;
  else if (line) numberLines(typed, line);
}

function lineOfRefusal(typed, { out, err }) {
  const line = /line (\d+), column/.exec(err), event = /^bad scenario event (\d+)$/m.exec(out + err);
  if (line) return Number(line[1]);
  return event ? lineOfEvent(typed, Number(event[1])) : null;
}

// The line on which an entry of `events` begins, in a text that is a JSON object; of a key that comes twice the last one counts.
function lineOfEvent(typed, wanted) {
  let depth = 0, key = "", isHeld = false, entry = 0, found = null;
  for (const { 0: token, index } of typed.matchAll(/"(?:[^"\\]|\\.)*"|[{}[\],:]|[^\s{}[\],:"]+/g)) {
    if (isHeld && depth === 2 && token === ",") entry++;
    else if (isHeld && depth === 2 && token !== "]" && entry === wanted) {
      found = index;
      isHeld = false;
    }
    if (depth === 1 && token[0] === '"') key = JSON.parse(token);
    if ("{[".includes(token)) {
      depth++;
      if (depth === 2 && key === "events") [isHeld, entry] = [token === "[", 0];
    } else if ("}]".includes(token)) {
      depth--;
      if (depth === 1) isHeld = false;
    }
  }
  return found === null ? null : typed.slice(0, found).split("\n").length;
}

function numberLines(typed, bad) {
  if (longScenario) return;
  const numbers = $("numbers"), count = typed.split("\n").length, before = bad === null ? count : bad - 1;
  const lines = (from, to) => Array.from({ length: Math.max(0, to - from + 1) }, (_, at) => `${from + at}\n`).join("");
  numbers.replaceChildren(lines(1, before));
  if (bad !== null) {
    numbers.append(make("b", { textContent: bad }), "\n", lines(bad + 1, count));
    const high = $("json").scrollHeight / count;
    $("json").scrollTop = Math.max(0, (bad - 4) * high);
  }
  numbers.scrollTop = $("json").scrollTop;
}

const PICTURE_STYLE = `svg{display:block;max-width:100%;height:auto}.control,.user{cursor:pointer}
.control:hover .label,.user:hover .label,.chosen .label{font-weight:bold}.control:focus-visible,.user:focus-visible{outline:2px solid #0b5cad}
:host(.dark) svg{filter:invert(.9) hue-rotate(180deg)}`;

// Shows a picture of a run: in a tree of its own, so that its styles stay its own. Each arrow shows its datagram.
function showPicture(svg) {
  if (svg.length > DRAWN) {
    const why = `A picture of ${size(svg.length)} is not drawn: see Text or Report.`;
    $("picture").replaceChildren(make("p", { className: "empty", textContent: why }));
    $("below").hidden = true;
    return;
  }
  const picture = new DOMParser().parseFromString(svg, "image/svg+xml").documentElement;
  const host = make("div", { id: "drawn", className: document.documentElement.dataset.theme }), root = host.attachShadow({ mode: "open" });
  const ground = picture.querySelector(':scope > rect[width="100%"]');
  if (ground) ground.remove();
  picture.setAttribute("viewBox", `0 0 ${picture.getAttribute("width")} ${picture.getAttribute("height")}`);
  root.append(make("style", { textContent: PICTURE_STYLE }), document.importNode(picture, true));
  const arrows = [...root.querySelectorAll("g")].filter((it) => it.querySelector(":scope > title"));
  for (const arrow of arrows) arrowOfRun(arrow, arrows);
  inRow(arrows);
  $("picture").replaceChildren(host);
  if (arrows.length) arrows[0].onclick();
  else $("below").hidden = true;
}

function arrowOfRun(arrow, arrows) {
  const label = arrow.querySelector(".label");
  arrow.setAttribute("role", "button");
  arrow.setAttribute("aria-label", label ? label.textContent : "datagram");
  pressed(arrow, () => {
    for (const it of arrows) it.classList.toggle("chosen", it === arrow);
    showOctets(arrow.querySelector("title").textContent, arrow.classList.contains("user"));
  });
}

async function showOctets(hex, isUser) {
  const answer = await run(["decode", "--all", "--json", "--places", "-"], encoder.encode(`${isUser ? "user" : "control"} ${hex}`));
  if (answer && answer.out && state.view === "scenario") showDetail(JSON.parse(answer.out), answer.out.trim());
}

async function savePcap() {
  const answer = await run(["replay", "--pcap", "-"], encoder.encode(scenarioText()), { raw: true });
  if (!answer || answer.status > 1) return;
  const link = make("a", { href: URL.createObjectURL(new Blob([answer.out])), download: "run.pcap" });
  link.click();
  setTimeout(() => URL.revokeObjectURL(link.href), 1000);
}
