// What the program shows of a datagram as a tree, and where it stands in its octets: elements where the program says, parts of a header and
// of a value where the standard's figures have them.
"use strict";

// The names of types, for elements that have none in an object: those that do not read, and those that are missing.
const ELEMENTS = {
  1: "imsi", 2: "cause", 3: "recovery", 71: "apn", 72: "ambr", 73: "ebi", 79: "paa", 80: "qos", 82: "rat", 83: "serving-network",
  84: "tft", 87: "fteid", 93: "bearer-context", 94: "charging-id", 99: "pdn-type", 100: "pti", 128: "selection",
};

function octetsOf(hex) {
  const octets = new Uint8Array(hex.length >> 1);
  for (let at = 0; at < octets.length; at++) octets[at] = parseInt(hex.substr(2 * at, 2), 16);
  return octets;
}
function hexOf(octets) {
  let text = "";
  for (const octet of octets) text += octet.toString(16).padStart(2, "0");
  return text;
}
const CONTEXT = 93;
const two = (octets, at) => octets[at] * 256 + octets[at + 1];

// A node of the tree: a label, a value in words, and the octets from..to that say so (none: from is null).
function node(label, value, from, to, more = {}) {
  return { label, value, from, to, children: [], ...more };
}

// A number, with its word if it has one.
function worded(number, word) { return word ? `${number}  ${word}` : String(number); }

// The members of a value, with the places of those that stand at a fixed place of the body.
const PARTS = {
  fteid: (value, part) => [
    part("interface", worded(value.interface, value.interface_name), 0, 1),
    part("teid", value.teid, 1, 4),
    ...(value.v4 ? [part("IPv4", value.v4, 5, 4)] : []),
    ...(value.v6 ? [part("IPv6", grouped(value.v6), value.v4 ? 9 : 5, 16)] : []),
  ],
  ambr: (value, part) => [part("uplink", `${value.uplink} kbit/s`, 0, 4), part("downlink", `${value.downlink} kbit/s`, 4, 4)],
  qos: (value, part) => [
    part("preemption capability", value.preemption_capability, 0, 1),
    part("priority level", value.priority_level, 0, 1),
    part("preemption vulnerability", value.preemption_vulnerability, 0, 1),
    part("class (QCI)", value.class, 1, 1),
    part("maximum uplink", `${value.maximum.uplink} kbit/s`, 2, 5),
    part("maximum downlink", `${value.maximum.downlink} kbit/s`, 7, 5),
    part("guaranteed uplink", `${value.guaranteed.uplink} kbit/s`, 12, 5),
    part("guaranteed downlink", `${value.guaranteed.downlink} kbit/s`, 17, 5),
  ],
  paa: (value, part) => [
    part("kind", value.kind === "other" ? worded(value.pdn_type, value.pdn_type_name) : value.kind, 0, 1),
    ...(value.v6 ? [part("prefix", value.prefix, 1, 1), part("IPv6", grouped(value.v6), 2, 16)] : []),
    ...(value.v4 ? [part("IPv4", value.v4, value.v6 ? 18 : 1, 4)] : []),
  ],
  cause: (value, part) => value.offending
    ? [
      part("cause", worded(value.cause, value.cause_name), 0, 1),
      part("offending", elementName(value.offending.type, value.offending.instance), 2, 4),
    ] : [],
};

function partsOf(name, value, at) {
  const part = (label, text, from, length) => node(label, text, at + from, at + from + length);
  return PARTS[name] ? PARTS[name](value, part) : [];
}

function elementName(type, instance) {
  return `${ELEMENTS[type] || "type"} ${type}${instance ? ` instance ${instance}` : ""}`;
}

// The value of an element in a few words.
function saidOf({ name, value, value_name: word }) {
  switch (name) {
    case "fteid": return [value.teid, value.v4, value.v6 && grouped(value.v6), value.interface_name].filter(Boolean).join("  ");
    case "ambr": return `${value.uplink} / ${value.downlink} kbit/s`;
    case "cause": return worded(value.cause, value.cause_name);
    case "qos": return `QCI ${value.class}, priority ${value.priority_level}`;
    case "paa": return [value.v4, value.v6 && `${grouped(value.v6)}/${value.prefix}`].filter(Boolean).join("  ") || `PDN type ${value.pdn_type}`;
    case "serving-network": return `${value.mcc} ${value.mnc}`;
    default: return worded(value, word);
  }
}

function short(octets) { return octets.length > 48 ? `${octets.slice(0, 48)}… (${octets.length / 2} octets)` : octets || "no octets"; }

// What a body tells by its form: a node a field, an item of a list by its number. Where its octets are is not said.
function fieldNodes(fields) {
  const isWord = (name) => name.endsWith("_name") && name.slice(0, -5) in fields;
  return Object.keys(fields).filter((name) => !isWord(name)).map((name) => fieldNode(name, fields[name], fields[`${name}_name`]));
}
function fieldNode(name, value, word) {
  if (value === true) return node(name, "", null, null);
  if (typeof value !== "object") return node(name, worded(value, word), null, null);
  const children = Array.isArray(value) ? value.map((it, at) => fieldNode(String(at + 1), it)) : fieldNodes(value);
  return node(name, "", null, null, { children });
}

// The one value of a form, or undefined.
function oneOf(fields) {
  const names = Object.keys(fields || {});
  return names.length === 1 && names[0] === "value" ? fields.value : undefined;
}

// What is said of an element beside its name: its value, the one of its form, or its octets.
function valueOf(element) {
  if (element.elements) return "";
  if (element.octets === undefined) return saidOf(element);
  return String(oneOf(element.fields) ?? short(element.octets));
}

// Elements, each where the program says that it stands: from the beginning of its message on.
function elementNodes(elements, begin) {
  return elements.map((element) => {
    const { length, name, type, instance } = element, at = begin + element.at;
    const made = node(name || ELEMENTS[type] || `type ${type}`, valueOf(element), at, at + length, {
      note: `${type}${instance ? `·${instance}` : ""}`, type, instance, group: Boolean(element.elements),
    });
    if (element.elements) made.children = elementNodes(element.elements, begin);
    else if (element.value !== undefined) made.children = partsOf(name, element.value, at + 4);
    if (element.fields && oneOf(element.fields) === undefined) made.children.push(...fieldNodes(element.fields));
    return made;
  });
}

// A message of the control plane that begins at a place: its header as its octets have it (TS 29.274 5.1), and what the program says of it.
function controlNode(octets, begin, message) {
  const has = message.type !== undefined;
  const flags = octets[begin], hasTeid = (flags & 8) !== 0, stated = begin + 4 + two(octets, begin + 2);
  const list = begin + (hasTeid ? 12 : 8);
  const end = has && message.second && stated <= octets.length ? stated : octets.length;
  const top = node(nameOf(message) || "octets", "", begin, end, { open: true });
  if (has) top.children.push(controlHeader(octets, begin, list, flags, message));
  top.children.push(...elementNodes(message.elements || [], begin));
  if (message.octets) top.children.push(node("octets", short(message.octets), list, end));
  const { rest } = message;
  if (rest !== undefined) top.children.push(node("rest", short(rest), end - rest.length / 2, end, { note: "no whole element" }));
  return message.second ? [top, ...controlNode(octets, end, message.second)] : [top];
}

function controlHeader(octets, begin, list, flags, message) {
  const hasTeid = message.teid !== undefined;
  const words = [
    `version ${flags >> 5}`, flags & 16 && "P (a second message follows)", flags & 8 && "T (has a TEID)", flags & 4 && "MP (has a priority)",
  ];
  const head = node("header", `${hasTeid ? `teid ${message.teid}  ` : ""}seq ${message.seq}`, begin, list, { note: "5.1" });
  head.children.push(
    node("version and flags", words.filter(Boolean).join(", "), begin, begin + 1),
    node("type", worded(message.type, message.name), begin + 1, begin + 2),
    node("length", two(octets, begin + 2), begin + 2, begin + 4));
  if (hasTeid) head.children.push(node("teid", message.teid, begin + 4, begin + 8));
  head.children.push(node("seq", message.seq, list - 4, list - 1));
  if (message.priority !== undefined) head.children.push(node("priority", message.priority, list - 1, list));
  return head;
}

function userNode(octets, message) {
  const top = node(nameOf(message) || "octets", "", 0, octets.length, { open: true });
  if (message.type === undefined) return [top];
  top.children.push(userHeader(octets, message));
  let at = 12;
  for (const it of message.extensions || []) {
    const length = octets[at] * 4;
    const value = String(oneOf(it.fields) ?? short(it.octets));
    const children = it.fields && oneOf(it.fields) === undefined ? fieldNodes(it.fields) : [];
    top.children.push(node(it.name || "extension header", value, at, at + length, { note: it.type.toString(16).padStart(2, "0"), children }));
    at += length;
  }
  if (message.teid_data) top.children.push(node("teid of the packet", message.teid_data, null, null), node("peer", message.peer, null, null));
  if (message.types !== undefined) top.children.push(node("types", short(message.types), null, null));
  for (const label of ["payload", "octets", "rest"]) {
    const hex = message[label];
    if (hex !== undefined) top.children.push(node(label, short(hex), octets.length - hex.length / 2, octets.length));
  }
  return [top];
}

function userHeader(octets, message) {
  const flags = octets[0], teid = hexOf(octets.subarray(4, 8)), { seq, npdu } = message, hasNumber = (flags & 2) !== 0 && seq !== undefined;
  const words = [
    `version ${flags >> 5}`, flags & 4 && "E (extension headers)", flags & 2 && "S (has a number)", flags & 1 && "PN (has an N-PDU number)",
  ];
  const end = Math.min(flags & 7 ? 12 : 8, octets.length);
  const head = node("header", `teid ${teid}${hasNumber ? `  seq ${seq}` : ""}`, 0, end, { note: "5.1" });
  head.children.push(
    node("version and flags", words.filter(Boolean).join(", "), 0, 1),
    node("type", worded(message.type, message.name), 1, 2),
    node("length", two(octets, 2), 2, 4),
    node("teid", teid, 4, 8));
  if (hasNumber) head.children.push(node("seq", seq, 8, 10));
  if (flags & 1 && npdu !== undefined) head.children.push(node("N-PDU number", npdu, 10, 11));
  return head;
}

// The innermost node of the program's that begins at a place.
function nodeAt(nodes, at) {
  for (const it of nodes) {
    const inner = nodeAt(it.children, at);
    if (inner) return inner;
    if (it.from === at && it.note !== undefined) return it;
  }
  return null;
}

// The end of the elements, a message's or a bearer context's, among which a place lies.
function endOfList(nodes, at) {
  const holder = nodes.find((it) => it.from <= at && at < it.to);
  return holder && (endOfList(holder.children.filter((it) => it.type === CONTEXT), at) ?? holder.to);
}

// The end of an element of the user plane (TS 29.281 8.1): one that states no length may be of no known form.
function endOfUserElement(octets, at) { return octets[at] >= 128 && at + 3 <= octets.length ? at + 3 + two(octets, at + 1) : octets.length; }

// The octets that a fault is about: those of what begins where it lies, or of its header those that it is about. None if it lies at the end.
function markOf(octets, fault, nodes) {
  const at = fault.element?.at ?? fault.at, part = (from, to) => ({ from: Math.min(from, octets.length), to: Math.min(to, octets.length) });
  switch (fault.code) {
    case "H1": case "U1": return part(at, at + fault.held);
    case "H2": case "U2": case "U3": case "U5": return part(at, at + 1);
    case "H3": case "U4": return part(at + 2, at + 4);
    case "H4": return part(at, at + 2);
    case "H6": return fault.bearer_context ? part(at, nodeAt(nodes, at).to) : part(at + 1, at + 2);
    case "U6": return part(at, octets.length);
    case "U7": return part(at, at + 4 * octets[at]);
    case "U8": return part(1, 2);
    case "U9": return part(at, endOfUserElement(octets, at));
    default: return part(at, nodeAt(nodes, at)?.to ?? endOfList(nodes, at) ?? octets.length);
  }
}

// The message, or the bearer context, that lacks an element.
function lacking(nodes, { at, bearer_context: number }) { return number ? nodeAt(nodes, at) : nodes.find((it) => it.from === at); }

// The whole of a datagram: its nodes and the mark of its fault.
function treeOf(octets, object) {
  const nodes = object.plane === "user" ? userNode(octets, object) : controlNode(octets, 0, object), { fault } = object;
  if (!fault) return { nodes, mark: null };
  const mark = markOf(octets, fault, nodes), holder = fault.code === "H6" ? lacking(nodes, fault) : null;
  if (holder) {
    holder.open = true;
    holder.children.push(node(elementName(fault.type, fault.instance), `missing, ${fault.mark}`, null, null, { bad: true }));
  }
  if (mark.from === mark.to) nodes.at(-1).bad = true;
  else spread(nodes, mark);
  return { nodes, mark };
}

// Opens what holds the mark, and marks what it is about: the node of these octets, else the innermost one that has them. Is there one?
function spread(nodes, mark) {
  let isHeld = false;
  for (const it of nodes) {
    if (it.from === null || it.from > mark.from || mark.to > it.to) continue;
    it.open = true;
    isHeld = true;
    it.bad = !spread(it.children, mark) || it.from === mark.from && it.to === mark.to;
  }
  return isHeld;
}
