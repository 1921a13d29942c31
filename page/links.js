// Links: the state stands in the part of the address that is not sent.
"use strict";

const LONGEST = 16777216; // octets that a scenario may have, and what a link may unpack to

async function packed(value) {
  const stream = new Blob([value]).stream().pipeThrough(new CompressionStream("deflate-raw"));
  const octets = new Uint8Array(await new Response(stream).arrayBuffer());
  let chars = "";
  for (const it of octets) chars += String.fromCharCode(it);
  return btoa(chars).replace(/\+/g, "-").replace(/\//g, "_").replace(/=+$/, "");
}

async function unpacked(value) {
  const octets = octetsOfBase64(value.replace(/-/g, "+").replace(/_/g, "/"));
  const reader = new Blob([octets]).stream().pipeThrough(new DecompressionStream("deflate-raw")).getReader();
  const pieces = [];
  let held = 0;
  for (let read = await reader.read(); !read.done; read = await reader.read()) {
    held += read.value.length;
    if (held > LONGEST) throw new Error("too long");
    pieces.push(read.value);
  }
  return new Blob(pieces).text();
}

async function linkOf() {
  if (state.view === "scenario") return `#scenario=${await packed(scenarioText())}`;
  if (state.view === "capture" || dump) return state.octets && !$("below").hidden ? `#${state.object.plane}=${hexOf(state.octets)}` : "#";
  const typed = $("hex").value.trim(), isUser = $("plane").value === "user";
  if (/^[0-9a-fA-F]+$/.test(typed)) return `#${isUser ? "user" : "datagram"}=${typed}`;
  return typed ? `#dump=${await packed(isUser ? typed.replace(/^(?=.*[0-9a-fA-F])(?!control|user)/gm, "user ") : typed)}` : "#";
}

// What a link shows, by its name.
const LINKS = {
  datagram: (value) => openDump(null, "", value),
  control: (value) => openDump(null, "", `control ${value}`),
  user: (value) => openDump(null, "", `user ${value}`),
  dump: async (value) => openDump(null, "", await unpacked(value)),
  scenario: async (value) => openScenario(await unpacked(value)),
  example: (value) => openScenario(exampleOf(value)),
};

function exampleOf(name) {
  if (!Object.hasOwn(examples.scenarios, name)) throw new Error(name);
  return examples.scenarios[name];
}

// Shows what the address links to. Is there a link?
async function fromLink() {
  const found = /^#(\w+)=(.*)$/.exec(location.hash);
  if (!found || !Object.hasOwn(LINKS, found[1])) return false;
  try {
    await LINKS[found[1]](found[2].replace(/%20/g, " "));
    return true;
  } catch {
    say("The link cannot be read.");
    return false;
  }
}

async function share() {
  const link = await linkOf();
  history.replaceState(null, "", link);
  copy(`Link (${link.length} characters)`, location.href);
}
