// The datagrams of a list as a sequence between addresses.
"use strict";

const SVG = "http://www.w3.org/2000/svg";
const MOST = 400, STEP = 420, LEFT = 150, RIGHT = 190, TOP = 24, ROW = 28;

function draw(name, attributes, ...children) {
  const made = document.createElementNS(SVG, name);
  for (const [key, value] of Object.entries(attributes)) made.setAttribute(key, value);
  made.append(...children);
  return made;
}

function drawSequence() {
  const heads = [];
  for (let index = 0; index < Math.min(countShown(), MOST); index++) heads.push(state.rows.head(placeAt(index)));
  const ends = [...new Set(heads.flatMap((it) => [it.from.address, it.to.address]))];
  const wide = LEFT + STEP * Math.max(1, ends.length - 1) + RIGHT, high = TOP + ROW * heads.length;
  const svg = draw("svg", { width: wide, height: high, class: "ladder", role: "group", "aria-label": "Sequence of the datagrams" });
  ends.forEach((it, at) => svg.append(draw("path", { class: "life", d: `M${LEFT + at * STEP} 0V${high}` })));
  const names = draw("svg", { width: wide, height: 26, class: "ladder names" }, ...ends.map((it, at) =>
    draw("text", { x: LEFT + at * STEP, y: 18, "text-anchor": "middle" }, nameOfEnd(it))));
  const arrows = heads.map((head, row) => arrowOf(head, TOP + row * ROW, ends, wide));
  inRow(arrows);
  svg.append(...arrows);
  const count = countShown();
  $("sequence").replaceChildren(names, svg);
  if (count > MOST) $("sequence").prepend(make("p", { className: "soft", textContent: `The first ${MOST} of ${count}: a filter shows others.` }));
  markSequence();
}

function arrowOf(head, y, ends, wide) {
  const [from, to] = [head.from, head.to].map((it) => LEFT + ends.indexOf(it.address) * STEP);
  const tip = to > from ? -1 : 1, isLoop = from === to;
  const said = [head.message, head.teid].filter(Boolean).join(" ");
  const about = { class: `${planeOf(head)}${head.fault ? " faulty" : ""}`, "data-place": head.place, "aria-label": said };
  const group = draw("g", { ...about, role: "button" },
    draw("rect", { x: 0, y: y - 17, width: wide, height: ROW - 2 }),
    draw("text", { class: "soft", x: 8, y: y + 4 }, since(head.time, state.rows.firstTime())),
    draw("path", { d: isLoop ? `M${from} ${y - 6}h30v9h-26` : `M${from} ${y}H${to}m${7 * tip} -4l${-7 * tip} 4l${7 * tip} 4` }),
    draw("text", { x: isLoop ? from + 36 : (from + to) / 2, y: y - 4, "text-anchor": isLoop ? "start" : "middle" }, said));
  pressed(group, () => choose(head.place));
  return group;
}

// Has something done where one clicks, or presses the keys of a button.
function pressed(it, what) {
  it.onclick = what;
  it.onkeydown = (event) => {
    if (event.key !== "Enter" && event.key !== " ") return;
    what();
    event.preventDefault();
  };
}

// Makes buttons one stop of the Tab key; the arrow keys, Home and End go from one to another.
function inRow(buttons) {
  buttons.forEach((it, at) => {
    it.setAttribute("tabindex", at ? -1 : 0);
    it.addEventListener("keydown", (event) => {
      const to = buttons[{ ArrowDown: at + 1, ArrowUp: at - 1, Home: 0, End: buttons.length - 1 }[event.key]];
      if (!to) return;
      event.preventDefault();
      to.focus();
    });
    it.addEventListener("focus", () => {
      for (const one of buttons) one.setAttribute("tabindex", one === it ? 0 : -1);
    });
  });
}

function markSequence() {
  for (const it of $("sequence").querySelectorAll("g[data-place]")) it.classList.toggle("now", Number(it.dataset.place) === state.place);
}
