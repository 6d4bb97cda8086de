// Draws a run of a Plan 9 network. The payload of the page has the input of `netsh check` and rows that netview computed.
// This script only draws: each fact about a packet, a step or an end is in a row. docs/VIEWS.md says how to use the page.
"use strict";

const startedAt = performance.now();
const failures = [];
window.addEventListener("error", (event) => noteFailure(event.message));
document.addEventListener("securitypolicyviolation", (event) => noteFailure(event.violatedDirective));

const ROW = 19; // the height of a row in pixels
const TEXT = 12; // from the top of a row to the foot of its text
const LINE = 17; // from the top of a row to the start of an arrow
const TOP = 8; // the space above the first row
const NEAR = 1200; // the entries that the chart draws before and after the current one
const PRINTED = 4000; // the most entries that print draws
const STEPS_NEAR = 12; // the steps that a list shows before and after the current one
const LANE = 8; // the width of the lane of a script
const LETTER = 7.5; // the width of a letter, by estimate
const PRINT_WIDTH = 700; // the width of a sheet in pixels
const PRINT_HEIGHT = 880; // the height of a sheet in pixels
const TICK = "\u2713";
const CROSS = "\u2717";
const DOTS = "\u2026";
const DASH = "\u2013";
const DROPS = { toobig: "too big", nostation: "no station", noroute: "no route", ttl: "ttl used up" };
const CAUSES = ["", "connection refused", "timed out", "hungup", "hungup by peer"];
const SYMBOLS = { answered: TICK, refused: CROSS, waits: DOTS, owes: DOTS, ahead: "" };

/** Notes an error of this script, for the reader and for tests. */
function noteFailure(text) {
  failures.push(text);
  document.body.dataset.errors = failures.length;
  const message = document.getElementById("message");
  message.textContent = `This page cannot show the run: ${text}`;
  message.hidden = false;
}

// Small helpers

const byId = (id) => document.getElementById(id);
const numberOf = (word) => (word === "-" ? null : Number(word));
const wordOf = (word) => (word === "-" ? null : word);
const clamp = (n, least, most) => Math.max(least, Math.min(most, n));

/** The first place in a sorted list, of `length` items, whose item is not below `wanted`. */
function lowerBound(length, itemAt, wanted) {
  let low = 0;
  let high = length;
  while (low < high) {
    const middle = (low + high) >> 1;
    if (itemAt(middle) < wanted) low = middle + 1;
    else high = middle;
  }
  return low;
}

/** An HTML element with attributes, and with texts or elements inside. */
function html(name, attributes = {}, ...children) {
  const made = document.createElement(name);
  for (const [key, value] of Object.entries(attributes)) made.setAttribute(key, value);
  made.append(...children);
  return made;
}

/** An SVG element with attributes, at the end of a parent. */
function svg(parent, name, attributes, text) {
  const made = document.createElementNS("http://www.w3.org/2000/svg", name);
  for (const key in attributes) made.setAttribute(key, attributes[key]);
  if (text !== undefined) made.textContent = text;
  parent.append(made);
  return made;
}

/** A button that moves to an entry. */
const jump = (text, n) => html("button", { type: "button", class: "link", "data-n": n }, text);

// The payload

/** Cuts the payload into the lines of its four parts. */
function readPayload(text) {
  const lines = text.split("\n");
  let at = lines.indexOf("page 1") + 1;
  const part = (name) => {
    const [word, count] = (lines[at] || "").split(" ");
    const after = at + 1 + Number(count);
    if (at === 0 || word !== `%${name}` || !(after < lines.length)) throw new Error(`its payload has no whole part ${name}`);
    const found = lines.slice(at + 1, after);
    at = after;
    return found;
  };
  return { input: part("input"), packets: part("packets"), steps: part("steps"), ends: part("ends") };
}

/** The bytes of an encoded line. A backslash and two hexadecimal digits are one byte. */
function bytesOfLine(line) {
  const bytes = [];
  for (let at = 0; at < line.length; at++) {
    if (line[at] === "\\" && at + 2 < line.length) {
      bytes.push(parseInt(line.slice(at + 1, at + 3), 16));
      at += 2;
    } else if (line[at] !== "\\") bytes.push(line.charCodeAt(at));
  }
  return Uint8Array.from(bytes);
}

const bytesOfHex = (hex) => Uint8Array.from(hex === "-" ? [] : hex.match(/../g).map((digits) => parseInt(digits, 16)));

/** A text for the screen: a control character becomes a dot. */
const shownText = (bytes) => new TextDecoder().decode(bytes).replace(/[\u0000-\u001f\u007f-\u009f]/g, "\u00b7");

/** Hosts, links and scripts of a world, in the order of its lines. */
function readWorld(lines) {
  const world = { hosts: [], links: [], scripts: [] };
  for (const line of lines) {
    const [word, name] = line.split(" ");
    if (word === "ndb") break;
    if (word === "medium") world.links.push(name);
    if (word === "host") world.hosts.push(name);
    if (word === "script" || word === "session") world.scripts.push(world.hosts.indexOf(name));
  }
  return world;
}

/** The entries of a history with their times, and the words of its last line if it has a summary. */
function readHistory(lines) {
  const texts = [];
  const times = [];
  let end = null;
  for (const line of lines) {
    const code = line.charCodeAt(0);
    if (code >= 48 && code <= 57) {
      const space = line.indexOf(" ") + 1;
      texts.push(line);
      times.push(parseInt(line.slice(space, space + 12), 10));
    } else if (line.startsWith("end ")) end = line.split(" ");
  }
  return { texts, times, end };
}

function readPacket(row, index) {
  const words = row.split(" ");
  const [stamp, link, frame, from, to, by, id, ack, again, text] = [0, 2, 3, 4, 5, 6, 9, 10, 11, 12].map((place) => numberOf(words[place]));
  const [kind, end, peer] = [words[1], wordOf(words[7]), wordOf(words[8])];
  const takes = words[13] === "-" ? [] : words[13].split(",").map(Number);
  // Three fields come later: whether the link lost it, the number of takes before its own, and its header.
  return { index, stamp, kind, link, frame, from, to, by, end, peer, id, ack, again, text, takes, lost: false, firstTake: 0, header: null };
}

function readStep(row, index) {
  const [line, script, word, time, first, last, reply] = row.split(" ");
  const numbers = { line: Number(line), script: Number(script), time: numberOf(time) };
  return { index, word, ...numbers, first: numberOf(first), last: numberOf(last), reply: numberOf(reply) };
}

/** The rows of each end, in the order of their stamps. */
function readEnds(rows) {
  const ends = new Map();
  for (const row of rows) {
    const end = row.split(" ", 2)[1];
    if (ends.has(end)) ends.get(end).push(row);
    else ends.set(end, [row]);
  }
  return ends;
}

/** All facts of the payload. */
function readRun(text) {
  const parts = readPayload(text);
  const cut = parts.input.indexOf("%history");
  const world = readWorld(cut < 0 ? parts.input : parts.input.slice(0, cut));
  const run = { ...world, ...readHistory(cut < 0 ? [] : parts.input.slice(cut + 1)) };
  run.lines = parts.input;
  run.count = run.texts.length;
  run.packets = parts.packets.map(readPacket);
  run.steps = parts.steps.map(readStep);
  run.ends = readEnds(parts.ends);
  const used = run.hosts.map(() => 0);
  run.lanes = run.scripts.map((host) => used[host]++);
  run.stepsOf = run.scripts.map(() => []);
  for (const step of run.steps) run.stepsOf[step.script].push(step);
  noteOutcomes(run);
  return run;
}

/** Notes for each packet its place among all takes, and whether the link lost it. */
function noteOutcomes(run) {
  const whole = run.end !== null && run.end[1] !== "limit";
  const newest = run.links.map(() => 0);
  run.takes = 0;
  for (const it of run.packets) if (it.takes.length) newest[it.link] = Math.max(newest[it.link], it.frame);
  for (const it of run.packets) {
    // Without a whole run, the newest frames can be on their way.
    it.lost = it.kind === "laid" && it.takes.length === 0 && (whole || it.frame < newest[it.link]);
    it.firstTake = run.takes;
    run.takes += it.takes.length;
  }
}

/** The frame of a link with a number. */
const frameOf = (link, frame) => run.packets.find((it) => it.frame === frame && it.link === link) || null;

// The words of an entry

/** The header of a packet, from the entry that sent it. */
function headerOf(packet) {
  if (packet.header === null) {
    const text = run.texts[packet.by];
    const [protocol, source, destination, ttl, tos, ...rest] = text.slice(text.indexOf(" + ") + 3).split(" ");
    const [length, ack, id, spec, kind] = protocol === "udp" ? rest : rest.slice(0, 5).reverse();
    const pair = source < destination ? `${source} ${destination}` : `${destination} ${source}`;
    packet.header = { protocol, source, destination, ttl: Number(ttl), tos, kind, spec, id, ack, length: Number(length), pair };
  }
  return packet.header;
}

/** The words of the reply of an entry. */
function replyOf(stamp) {
  const text = run.texts[stamp];
  return text.slice(text.indexOf(" = ") + 3).replace(/ \+ .*| ended$/, "").split(" ");
}

/** A reply as `netview steps` prints it. */
function replyText(stamp) {
  const [word, value] = replyOf(stamp);
  if (word === "hungup") return CAUSES[Number(value)];
  if (word === "bytes") return `bytes ${value === "-" ? 0 : value.length / 2}`;
  if (word === "lines" || word === "names") return `${word} ${(value.match(/../g) || []).filter((digits) => digits === "0a").length}`;
  if (value === undefined || word === "granted" || word === "opened") return word;
  return `${word} ${value}`;
}

/** The process that makes an entry. */
function callerText(number) {
  const script = run.scripts[number];
  if (script !== undefined) return `script ${number} of ${run.hosts[script]}`;
  const link = run.links[number - run.scripts.length];
  return link === undefined ? "clock" : `delivery process of ${link}`;
}

/** How many hosts forwarded a packet before this row. */
function hopsBefore(packet) {
  const words = run.texts[packet.stamp].split(" ");
  const cited = words[5] === "put" ? run.texts[Number(words[4])].split(" ") : words;
  if (cited[5] !== "take") return 0;
  const before = frameOf(Number(cited[3].slice(7)), Number(cited[8]));
  return before ? hopsBefore(before) + (words[5] === "put" ? 1 : 0) : 0;
}

/** The bytes that a packet carries. */
const bytesOfPacket = (packet) => bytesOfHex(packet.text === null ? "-" : run.texts[packet.text].split(" ")[7]);

// The words of packets and steps

/** A number relative to the first one, with its sign. */
function relative(n) {
  if (n === null) return DASH;
  return n < 2 ** 31 ? `+${n}` : `\u2212${2 ** 32 - n}`;
}

/** Kind, numbers and length of a packet. */
function contentText(packet) {
  const header = headerOf(packet);
  const length = header.length ? `, ${header.length} B` : "";
  if (header.protocol === "udp") {
    const port = (address) => address.split("!")[1];
    return `udp ${port(header.source)} to ${port(header.destination)}, ${header.length} B`;
  }
  return `${header.kind} ${relative(packet.id)} ack ${relative(packet.ack)}${length}`;
}

/** What became of a packet. */
function outcomeText(packet) {
  if (packet.kind !== "laid") return DROPS[packet.kind];
  if (packet.lost) return "lost";
  return packet.takes.length ? "" : "not taken";
}

function frameText(packet) {
  if (packet.frame === null) return "";
  return run.links.length > 1 ? `${packet.frame} of ${run.links[packet.link]}` : `${packet.frame}`;
}

/** What a packet carries, and what became of it. */
function storyText(packet) {
  const notes = [packet.again === null ? "" : "again", packet.takes.length > 1 ? "twice" : "", outcomeText(packet)];
  return [contentText(packet), ...notes.filter((it) => it)].join(", ");
}

/** The label of a packet in the chart. */
const labelText = (packet) => `${frameText(packet)} ${storyText(packet)}`.trim();

/** The name of an arrow for a screen reader. */
function packetName(packet) {
  const to = packet.to === null ? "" : ` to ${run.hosts[packet.to]}`;
  return `${run.hosts[packet.from]}${to}, packet ${labelText(packet)}`;
}

/** A step as the world has it. For writex it is the text, if all bytes are printable. */
function stepText(step) {
  if (step.shown === undefined) {
    const bytes = bytesOfLine(run.lines[step.line - 1]);
    const written = /^(writex \S+) ([0-9a-f]+)$/.exec(shownText(bytes));
    const text = written ? bytesOfHex(written[2]) : null;
    const printable = text !== null && text.every((byte) => byte >= 32 && byte < 127);
    step.shown = printable ? `${written[1]} "${shownText(text)}"` : shownText(bytes);
  }
  return step.shown;
}

const shortened = (text, most) => (text.length > most ? `${text.slice(0, most - 1)}${DOTS}` : text);

/** What became of a step, as `netview steps` says it. */
function stepResult(step) {
  if (step.word === "waits") return "waits";
  if (step.word === "owes") return "has a pending follow-up event";
  if (step.word === "ahead") return "";
  return `${step.time} ms, ${step.reply === null ? step.word : replyText(step.reply)}`;
}

// Rows of the chart

/** Whether the filters show a packet. */
function showsPacket(packet) {
  const { host, link, protocol, pair } = filter;
  if (host !== null && packet.from !== host && packet.to !== host) return false;
  if (link !== null && packet.link !== link) return false;
  if (protocol !== null && headerOf(packet).protocol !== protocol) return false;
  return pair === null || headerOf(packet).pair === pair;
}

const showsStep = (step) => filter.steps && step.word !== "ahead" && (filter.host === null || run.scripts[step.script] === filter.host);

/** Whether a step has ended. Otherwise its bar reaches the end of the run. */
const hasEnded = (step) => step.word === "answered" || step.word === "refused";

/** The entry after which a step has its row. */
const stampOfStep = (step) => (hasEnded(step) && step.last !== null ? step.last : run.count);

/** All that has a row, in order. A packet that a host drops comes after the copy that it took, and a step after a packet. */
function chartEvents() {
  const events = [];
  const orders = [];
  const add = (stamp, rank, event) => {
    orders.push((stamp * 4 + rank) * 2 ** 22 + events.length);
    events.push(event);
  };
  for (const packet of run.packets) {
    if (!showsPacket(packet)) continue;
    add(packet.stamp, 1, { stamp: packet.stamp, packet, step: null, copy: -1 });
    packet.takes.forEach((stamp, copy) => add(stamp, 0, { stamp, packet, step: null, copy }));
  }
  for (const step of run.steps) if (showsStep(step)) add(stampOfStep(step), 2, { stamp: stampOfStep(step), packet: null, step, copy: -1 });
  return Array.from(Float64Array.from(orders).sort(), (order) => events[order % 2 ** 22]);
}

/** Whether the text of an event, by an estimate of its width, reaches the time of its band at the left. */
function reachesTime({ packet, step, copy }, time) {
  const room = 10 + LETTER * `${time} ms`.length;
  if (step) {
    const host = run.scripts[step.script];
    const letters = 2 + Math.min(stepText(step).length, geometry.letters);
    return !isLastHost(host) && geometry.x[host] - 8 - geometry.lanes[host] - LETTER * letters < room;
  }
  return copy < 0 && labelGoesLeft(packet) && geometry.x[packet.from] - 36 - LETTER * labelText(packet).length < room;
}

/** Gives each event its row, and each time its band. Rows do not move until a filter changes. */
function layOut() {
  const { count, packets, steps } = run;
  const rowAt = new Int32Array(count + 2);
  const none = (length) => new Int32Array(length).fill(-1);
  layout = { rowAt, bands: [], rows: 0, packetRow: none(packets.length), takeRow: none(run.takes), stepRow: none(steps.length) };
  let filled = 0;
  let band = { time: -1, row: 0 };
  for (const event of chartEvents()) {
    while (filled <= event.stamp) rowAt[filled++] = layout.rows;
    const time = event.stamp < count ? run.times[event.stamp] : null;
    if (band.time !== time) {
      band = { time, row: layout.rows };
      layout.bands.push(band);
      if (time !== null && reachesTime(event, time)) layout.rows++;
    }
    const { packet, step, copy } = event;
    const row = layout.rows++;
    if (step) layout.stepRow[step.index] = row;
    else if (copy < 0) layout.packetRow[packet.index] = row;
    else layout.takeRow[packet.firstTake + copy] = row;
  }
  while (filled < rowAt.length) rowAt[filled++] = layout.rows;
  if (band.time === null) rowAt[count] = band.row;
  else layout.bands.push({ time: null, row: layout.rows });
  layout.rows++;
}

/** The columns of the hosts in a width: their places, and the room for the texts of steps. */
function columns(width) {
  const narrow = width < 700;
  const last = run.hosts.length - 1;
  const lanes = run.hosts.map((_, host) => run.scripts.filter((it) => it === host).length * LANE);
  const side = narrow ? 150 : 230;
  const left = side + (last > 0 ? Math.max(0, lanes[0] - 2 * LANE) : 0);
  const right = side + Math.max(0, (lanes[last] || 0) - 2 * LANE);
  const least = Math.max(narrow ? 150 : 170, ...lanes.map((it) => it + 120));
  const gap = last > 0 ? Math.max(least, (width - left - right) / last) : 0;
  return { width: Math.max(width, left + right + gap * last), x: run.hosts.map((_, host) => Math.round(left + gap * host)), lanes, letters: narrow ? 16 : 26 };
}

const isLastHost = (host) => host === run.hosts.length - 1;
const yOfRow = (row) => TOP + row * ROW;

/** Whether the label of a packet is at the left of its host. */
function labelGoesLeft(packet) {
  const isAtEdge = isLastHost(packet.from) && run.hosts.length > 1;
  return packet.kind !== "laid" || packet.to === packet.from ? isAtEdge : packet.to < packet.from;
}

// The chart

/** Draws rows of the chart. The result has each shape with the stamps that decide its class. */
function drawRows(chart, first, last) {
  chart.replaceChildren();
  const shapes = [];
  const layers = ["bands", "columns", "bars", "arrows", "labels"].map((name) => svg(chart, "g", { class: name }));
  drawBands(layers[0], layers[4], first, last);
  for (const x of geometry.x) svg(layers[1], "line", { class: "column", x1: x, x2: x, y1: yOfRow(first) - TOP, y2: yOfRow(last + 1) });
  drawScripts(shapes, layers, first, last);
  for (const packet of run.packets) {
    const row = layout.packetRow[packet.index];
    const end = packet.takes.length ? layout.takeRow[packet.firstTake + packet.takes.length - 1] : row;
    if (row >= 0 && row <= last && end >= first) drawPacket(shapes, layers, packet, row);
  }
  return shapes;
}

function drawBands(bands, labels, first, last) {
  layout.bands.forEach((band, place) => {
    const next = layout.bands[place + 1];
    const end = next ? next.row : layout.rows;
    if (band.row > last || end <= first) return;
    const top = Math.max(band.row, first);
    const height = (Math.min(end, last + 1) - top) * ROW;
    if (place % 2 === 0) svg(bands, "rect", { class: "band", x: 0, y: yOfRow(top), width: geometry.width, height });
    const text = band.time === null ? endText() : `${band.time} ms`;
    const row = band.time === null ? end - 1 : band.row;
    if (row >= first && row <= last) svg(labels, "text", { class: band.time === null ? "end" : "time", x: 4, y: yOfRow(row) + TEXT }, text);
  });
}

const endText = () => (run.end === null ? "end of the history, without a summary" : `end ${run.end[1]} ${run.end[2]} ms`);

/** The bars and the texts of all steps. A bar reaches from the end of one step to the end of the next. */
function drawScripts(shapes, layers, first, last) {
  run.stepsOf.forEach((steps) => {
    let from = 0;
    let begun = 0;
    for (const step of steps) {
      const row = layout.stepRow[step.index];
      if (row < 0) continue;
      if (from <= last && row >= first) drawStep(shapes, layers, { step, begun, from: Math.max(from, first), to: Math.min(row, last), ends: row <= last });
      from = row + 1;
      begun = stampOfStep(step) + 1;
    }
  });
}

/** A bar, its part before the current entry, and its text. */
function drawStep(shapes, layers, { step, begun, from, to, ends }) {
  const host = run.scripts[step.script];
  const side = isLastHost(host) ? 1 : -1;
  const x = geometry.x[host] + side * (6 + run.lanes[step.script] * LANE);
  const top = `M${x} ${yOfRow(from) + 2}V`;
  const bar = svg(layers[2], "path", { d: `${top}${yOfRow(to) + (ends ? LINE : ROW)}` });
  shapes.push({ shape: bar, kind: "bar", step, begun, top });
  if (!ends) return;
  const text = `${SYMBOLS[step.word]} ${shortened(stepText(step), geometry.letters)}`;
  const place = { x: geometry.x[host] + side * (8 + geometry.lanes[host]), y: yOfRow(to) + TEXT, "text-anchor": side > 0 ? "start" : "end" };
  const label = svg(layers[4], "text", { ...place, "data-n": Math.min(run.count, stampOfStep(step) + 1) }, text);
  if (text.endsWith(DOTS)) svg(label, "title", {}, stepText(step));
  shapes.push({ shape: label, kind: "step", step, inBand: isInBand(to) });
}

/** The arrows and the label of a packet. */
function drawPacket(shapes, layers, packet, row) {
  const name = packetName(packet);
  const attributes = { role: "button", tabindex: -1, "aria-label": name, "data-packet": packet.index };
  const drawGroup = (copy) => {
    const group = svg(layers[3], "g", attributes);
    shapes.push({ shape: group, kind: "packet", packet, copy });
    return group;
  };
  packet.takes.forEach((_, copy) => drawArrow(drawGroup(copy), packet, row, layout.takeRow[packet.firstTake + copy]));
  if (packet.kind !== "laid") drawDrop(drawGroup(0), packet, row);
  else if (packet.takes.length === 0) drawUntaken(drawGroup(0), packet, row);
  drawLabel(shapes, layers[4], packet, row);
}

function drawArrow(group, packet, row, take) {
  const from = geometry.x[packet.from];
  const to = geometry.x[packet.to];
  const y = yOfRow(row) + LINE;
  const end = yOfRow(take) + 10;
  const side = to > from || (to === from && !labelGoesLeft(packet)) ? 1 : -1;
  const foot = end - (8 * (end - y)) / Math.abs(to - from);
  const path = to === from ? `M${from} ${y}h${side * 60}V${end}H${from + side * 8}` : `M${from + side} ${y}L${to - side * 8} ${foot}`;
  const angle = to === from ? (side > 0 ? 180 : 0) : (Math.atan2(end - y, to - from) * 180) / Math.PI;
  svg(group, "path", { class: "reach", d: path });
  svg(group, "path", { class: "line", d: path });
  svg(group, "path", { class: "head", d: "M0 0L-9 -4V4Z", transform: `translate(${to} ${end}) rotate(${angle})` });
}

/** A frame that nobody took: its arrow ends in a cross if the link lost it. */
function drawUntaken(group, packet, row) {
  const from = geometry.x[packet.from];
  const to = geometry.x[packet.to];
  const side = to === from ? (labelGoesLeft(packet) ? -1 : 1) : Math.sign(to - from);
  const x = to === from ? from + side * 60 : from + (to - from) * 0.65;
  const y = yOfRow(row) + LINE;
  const path = `M${from + side} ${y}L${x} ${y + 2}`;
  svg(group, "path", { class: "reach", d: path });
  svg(group, "path", { class: "line", d: path });
  if (packet.lost) svg(group, "path", { class: "line sign cross", d: `M${x - 5} ${y - 3}l10 10m0 -10l-10 10` });
}

/** A packet that no link accepted: a short line with a crossed circle. */
function drawDrop(group, packet, row) {
  const side = labelGoesLeft(packet) ? -1 : 1;
  const from = geometry.x[packet.from];
  const y = yOfRow(row) + 9;
  const x = from + side * 24;
  svg(group, "path", { class: "reach", d: `M${from} ${y}H${x + side * 6}` });
  svg(group, "path", { class: "line", d: `M${from + side} ${y}H${x - side * 6}` });
  svg(group, "circle", { class: "line sign drop", cx: x, cy: y, r: 6 });
  svg(group, "path", { class: "line sign", d: `M${x - 4} ${y + 4}l8 -8` });
}

function drawLabel(shapes, layer, packet, row) {
  const side = labelGoesLeft(packet) ? -1 : 1;
  const beside = isLastHost(packet.from) === side > 0 ? geometry.lanes[packet.from] : 0;
  const x = geometry.x[packet.from] + side * (packet.kind === "laid" ? 8 + beside : 36);
  const anchor = side > 0 ? "start" : "end";
  const attributes = { x, y: yOfRow(row) + TEXT, "text-anchor": anchor, "aria-hidden": true, "data-packet": packet.index };
  shapes.push({ shape: svg(layer, "text", attributes, labelText(packet)), kind: "label", packet, copy: 0, inBand: isInBand(row) });
}

/** The class of a shape at the current entry. */
function classOf(it, n) {
  if (it.kind === "bar" || it.kind === "step") return stepClass(it, n);
  const { packet, copy } = it;
  const words = [it.kind];
  if (packet.kind !== "laid" || packet.lost) words.push("lost");
  else words.push(packet.again !== null || copy > 0 ? "again" : "sent");
  if (packet.again !== null || copy > 0) words.push("dashed");
  if (packet.stamp >= n) words.push("later");
  else if (packet.kind === "laid" && !packet.lost && !(packet.takes[copy] < n)) words.push("flying");
  if (packet === selected) words.push("chosen");
  if (it.inBand) words.push("in-band");
  return words.join(" ");
}

function stepClass(it, n) {
  const { step } = it;
  const words = [it.kind === "step" ? "step label" : "bar"];
  if (stampOfStep(step) < n) words.push(step.word);
  else words.push(n === run.count ? "waiting" : "later");
  if (it.inBand) words.push("in-band");
  return words.join(" ");
}

/** Whether a row is in a grey band. */
const isInBand = (row) => lowerBound(layout.bands.length, (place) => layout.bands[place].row, row + 1) % 2 === 1;

/** Draws the part of the chart around a row. */
function drawAround(row) {
  const entry = lowerBound(run.count, (stamp) => layout.rowAt[stamp], row);
  view.from = clamp(entry - NEAR, 0, run.count);
  view.to = clamp(entry + NEAR, 0, run.count);
  view.first = view.from === 0 ? 0 : layout.rowAt[view.from];
  view.last = view.to === run.count ? layout.rows : layout.rowAt[view.to];
  const height = yOfRow(layout.rows + 1);
  const chart = byId("chart");
  chart.setAttribute("width", geometry.width);
  chart.setAttribute("height", height);
  view.shapes = drawRows(chart, view.first, view.last);
  view.waits = svg(chart, "path", { class: "bar waiting" });
  view.line = svg(chart, "g", {});
  svg(view.line, "path", { class: "now-line", d: `M0 0H${geometry.width}` });
  svg(view.line, "path", { class: "now-mark", d: "M0 -6L9 0L0 6Z" });
  drawTable();
  countShapes();
  paint();
}

/** The names of the hosts above their columns. */
function drawNames(names) {
  names.replaceChildren();
  names.setAttribute("width", geometry.width);
  names.setAttribute("height", 24);
  run.hosts.forEach((host, place) => svg(names, "text", { class: "name", x: geometry.x[place], y: 17, "text-anchor": "middle" }, host));
}

const yOfNow = (n) => yOfRow(layout.rowAt[n]) - 0.5;

/** Gives each shape its class, and moves the line of the current entry. */
function paint() {
  const waits = [];
  for (const it of view.shapes) {
    const words = classOf(it, now);
    if (it.top && words === "bar later" && it.begun <= now) waits.push(`${it.top}${Math.max(yOfNow(now) - 3, 0)}`);
    if (words === it.words) continue;
    it.words = words;
    it.shape.setAttribute("class", words);
  }
  view.line.setAttribute("transform", `translate(0 ${yOfNow(now)})`);
  view.waits.setAttribute("d", waits.join(""));
  Object.assign(document.body.dataset, { now, packet: selected === null ? "" : packetKey(selected) });
}

/** Writes into attributes of the body what the chart has. Tests read them. */
function countShapes() {
  const count = (selector) => byId("chart").querySelectorAll(selector).length;
  Object.assign(document.body.dataset, { entries: run.count, from: view.from, to: view.to, rows: layout.rows, errors: failures.length });
  const texts = { steps: count("text[data-n]"), labels: count("text[data-packet]") };
  Object.assign(document.body.dataset, { arrows: count(".head"), crosses: count(".cross"), drops: count(".drop"), ...texts });
}

/** Scrolls the chart so that the line of the current entry is visible. */
function showNow() {
  const pane = byId("pane");
  const room = pane.clientHeight;
  const y = filter.table ? yInTable() : yOfNow(now) + 24;
  if (y < pane.scrollTop + 60 || y > pane.scrollTop + room - 60) pane.scrollTop = y - room * 0.55;
}

/** The place of the newest packet in the table. */
function yInTable() {
  const place = lowerBound(view.tableRows.length, (it) => view.tableRows[it][0].stamp, now) - 1;
  return place < 0 ? 0 : view.tableRows[place][1].offsetTop + ROW;
}

/** Draws the chart anew if the current entry left the middle half of what is drawn. */
function followNow() {
  const early = view.from > 0 && now < view.from + NEAR / 2;
  const late = view.to < run.count && now > view.to - NEAR / 2;
  if (early || late) drawAround(layout.rowAt[now]);
  else paint();
}

/** Draws the chart anew if a reader scrolled beyond what is drawn. */
function followScroll() {
  const { scrollTop, clientHeight } = byId("pane");
  const first = Math.floor((scrollTop - TOP) / ROW);
  const last = first + Math.ceil(clientHeight / ROW);
  const missing = (first < view.first && view.from > 0) || (last > view.last && view.to < run.count);
  if (missing && !filter.table) drawAround(clamp((first + last) >> 1, 0, layout.rows));
}

// The table

/** All packets near the current entry as a table, if the reader asked for it. */
function drawTable() {
  if (!filter.table) return;
  const shown = run.packets.filter((it) => layout.packetRow[it.index] >= 0 && it.stamp >= view.from && it.stamp <= view.to);
  const heads = ["packet", "from", "to", "content", "sent at", "taken at"].map((it) => html("th", { scope: "col" }, it));
  const body = html("tbody", {}, ...shown.map(tableRow));
  const part = view.from > 0 || view.to < run.count ? `, from entry ${view.from} to ${view.to}` : "";
  const caption = html("caption", {}, `Packets: ${shown.length}${part}`);
  view.tableRows = shown.map((packet, place) => [packet, body.children[place]]);
  byId("table").replaceChildren(html("table", {}, caption, html("thead", {}, html("tr", {}, ...heads)), body));
  paintTable();
}

function tableRow(packet) {
  const button = html("button", { type: "button", class: "link", "data-packet": packet.index }, frameText(packet) || DASH);
  const to = packet.to === null ? DASH : run.hosts[packet.to];
  const takes = packet.takes.map((stamp) => `${run.times[stamp]} ms, entry ${stamp}`).join("; ") || DASH;
  const sent = `${run.times[packet.stamp]} ms, entry ${packet.stamp}`;
  const cells = [button, run.hosts[packet.from], to, storyText(packet), sent, takes];
  return html("tr", {}, ...cells.map((it) => html("td", {}, it)));
}

function paintTable() {
  if (!filter.table) return;
  for (const [packet, row] of view.tableRows) {
    row.className = packet.stamp >= now ? "to-come" : "";
    row.hidden = filter.hide && packet.stamp >= now;
  }
}

// The panels

/** A list of names and values. A value is a text or an element. */
function definitions(pairs) {
  const list = html("dl");
  for (const [name, value] of pairs) list.append(html("dt", {}, name), html("dd", {}, value));
  return list;
}

/** The current entry: when, who, why, and its line. */
function drawNow() {
  const panel = byId("now");
  if (now === 0) {
    panel.replaceChildren(html("p", {}, "Nothing has happened."));
    return;
  }
  const words = run.texts[now - 1].split(" ");
  const line = html("p", {}, html("b", {}, `Entry ${now - 1}`), ` at ${words[1]} ms, ${callerText(Number(words[2]))}`);
  if (words[4] !== "-") line.append(", caused by ", jump(`entry ${words[4]}`, Number(words[4]) + 1));
  panel.replaceChildren(line, html("pre", {}, run.texts[now - 1]));
}

const placeOf = (stamp) => jump(`entry ${stamp}, ${run.times[stamp]} ms`, stamp + 1);

/** The selected packet: header, way, bytes and entries. */
function drawPacketPanel() {
  const panel = byId("packet");
  const packet = selected;
  if (packet === null) {
    byId("packet-title").textContent = "Packet";
    panel.replaceChildren(html("p", {}, "Choose an arrow, or press N."));
    return;
  }
  byId("packet-title").textContent = packet.frame === null ? "Packet on no link" : `Packet ${packet.frame} of ${run.links[packet.link]}`;
  const bytes = bytesOfPacket(packet);
  const parts = [definitions([...headerPairs(packet), ...wayPairs(packet)])];
  if (bytes.length) parts.push(html("pre", { "aria-label": "bytes" }, dumpText(bytes)));
  const stamps = [...new Set([packet.by, packet.stamp, ...packet.takes])].sort((one, other) => one - other);
  parts.push(html("pre", { "aria-label": "entries" }, stamps.map((stamp) => run.texts[stamp]).join("\n")));
  panel.replaceChildren(...parts);
}

/** The fields of the header. The numbers of IL come with their distance from the first number. */
function headerPairs(packet) {
  const { protocol, source, destination, ttl, tos, kind, spec, id, ack, length } = headerOf(packet);
  const left = ttl - hopsBefore(packet);
  const pairs = [["protocol", protocol], ["source", source], ["destination", destination], ["ttl", `${left}`], ["tos", tos]];
  const fromStart = (n, near) => (near === null ? n : `${n} (start ${relative(near)})`);
  if (protocol === "il") pairs.push(["kind", kind], ["spec", spec], ["id", fromStart(id, packet.id)], ["ack", fromStart(ack, packet.ack)]);
  return [...pairs, ["length", `${length}`]];
}

/** Where the packet was sent and taken, and which entry it repeats. */
function wayPairs(packet) {
  const sent = html("span", {}, placeOf(packet.stamp), `, by ${run.hosts[packet.from]}`);
  const taken = html("span");
  packet.takes.forEach((stamp, copy) => taken.append(copy ? "; " : "", placeOf(stamp), copy ? "" : `, by ${run.hosts[packet.to]}`));
  if (!packet.takes.length) taken.append(html("b", { class: "lost" }, outcomeText(packet)));
  const pairs = [["sent", sent], ["taken", taken]];
  if (packet.again !== null) pairs.push(["repeats", placeOf(packet.again)]);
  return pairs;
}

/** Bytes in hexadecimal and as text, eight a line. A long text is cut. */
function dumpText(bytes) {
  const most = 4096;
  const lines = [];
  for (let at = 0; at < Math.min(bytes.length, most); at += 8) {
    const part = [...bytes.slice(at, at + 8)];
    const digits = part.map((byte) => byte.toString(16).padStart(2, "0")).join(" ");
    const text = part.map((byte) => (byte >= 32 && byte < 127 ? String.fromCharCode(byte) : ".")).join("");
    lines.push(`${at.toString(16).padStart(4, "0")}  ${digits.padEnd(24)} ${text}`);
  }
  if (bytes.length > most) lines.push(`${DOTS} ${bytes.length - most} more bytes`);
  return lines.join("\n");
}

/** The newest packet before the current entry that passes a test. */
function newestPacket(test) {
  let place = lowerBound(run.packets.length, (it) => run.packets[it].stamp, now) - 1;
  while (place >= 0 && !test(run.packets[place])) place--;
  return run.packets[place] || null;
}

/** The two ends to show: of the selected packet, of the current entry, or of the newest packet that the filters show. */
function currentEnds() {
  const actor = now ? run.texts[now - 1].split(" ")[3] : "";
  const end = actor.startsWith("conv.") ? actor.slice(5) : null;
  const isNear = (it) => (it.end === end || it.peer === end) && showsPacket(it);
  const near = selected || (end && newestPacket(isNear)) || (filter.pair === null && end) || newestPacket((it) => it.end && showsPacket(it));
  if (!near) return [];
  if (near === end) return [end];
  // The end on the host that is first in the world is at the left.
  return [near.end, near.peer].filter((it) => it).sort((one, other) => one.localeCompare(other, "en", { numeric: true }));
}

/** The state of an end at the current entry, and the one before if the current entry changed it. */
function stateOfEnd(end) {
  const rows = run.ends.get(end) || [];
  const place = lowerBound(rows.length, (it) => parseInt(rows[it], 10), now) - 1;
  if (place < 0) return null;
  const words = rows[place].split(" ");
  const changed = Number(words[0]) === now - 1;
  return { words, before: changed ? (rows[place - 1] || "").split(" ") : words };
}

/** The names of an end's values, each with its place in a row. */
const END_ROWS = [["generation", 2], ["state", 3], ["local", 11], ["remote", 12], ["written", 4], ["acknowledged", 5], ["received", 6]];
END_ROWS.push(["unread", 7], ["early", 8], ["next retransmission", 9], ["closed because", 10]);

/** A value of an end in words. */
function endValue(column, word) {
  if (word === "-" || word === undefined) return DASH;
  if (column === 9) return `${word} ms`;
  if (column === 11 || column === 12) return word.replace("!", "\u200b!"); // a line can break before the port
  return column === 10 ? CAUSES[Number(word)] : word;
}

/** Both ends, side by side. What the current entry changed is marked. */
function drawEnds() {
  const ends = currentEnds();
  const states = ends.map(stateOfEnd);
  if (!states.some((it) => it)) {
    byId("ends").replaceChildren(html("p", {}, "No conversation yet."));
    return;
  }
  const names = ends.map((end) => {
    const [host, protocol, slot] = end.split(".");
    return html("th", { scope: "col" }, `${run.hosts[Number(host)]} ${protocol}/${slot}`);
  });
  const rows = END_ROWS.filter(([, column]) => states.some((it) => it && endValue(column, it.words[column]) !== DASH));
  const body = rows.map(([name, column]) => html("tr", {}, html("th", { scope: "row" }, name), ...states.map((it) => endCell(column, it))));
  byId("ends").replaceChildren(html("table", {}, html("tr", {}, html("td"), ...names), ...body));
}

function endCell(column, state) {
  if (state === null) return html("td", {}, DASH);
  const value = endValue(column, state.words[column]);
  const changed = state.words[column] !== state.before[column];
  return html("td", {}, changed ? html("mark", {}, value) : value);
}

/** The current step of a script: the first that has not ended. */
function currentStep(steps) {
  const open = steps.findIndex((step) => stampOfStep(step) >= now);
  return open < 0 ? steps.length : open;
}

/** The steps of each script around the current one. A list is made anew only if its step changed. */
function drawSteps() {
  run.stepsOf.forEach((steps, script) => {
    const current = currentStep(steps);
    const ended = now === run.count;
    const list = view.lists[script];
    if (list.current === current && list.ended === ended) return;
    Object.assign(list, { current, ended });
    const from = Math.max(0, current - STEPS_NEAR);
    const shown = steps.slice(from, current + STEPS_NEAR + 1);
    list.place.setAttribute("start", from + 1);
    list.place.replaceChildren(...shown.map((step, place) => stepItem(step, from + place - current)));
  });
}

/** A step in its list: before, at or after the current one. */
function stepItem(step, distance) {
  const target = Math.min(run.count, stampOfStep(step) + 1);
  const known = distance < 0 || now === run.count;
  const symbol = html("b", { class: known ? step.word : "" }, known ? SYMBOLS[step.word] : "");
  const result = known ? stepResult(step) : "";
  const button = jump(shortened(stepText(step), 60), target);
  const item = html("li", distance > 0 && !known ? { class: "to-come" } : {}, symbol, " ", button, " ", html("small", {}, result));
  if (distance === 0) item.setAttribute("aria-current", "step");
  return item;
}

function makeLists() {
  view.lists = run.scripts.map((host, script) => {
    const place = html("ol");
    byId("scripts").append(html("h3", {}, `${run.hosts[host]}, script ${script}`), place);
    return { place, current: -1, ended: false };
  });
}

// Moving

/** Moves to an entry: after `n` entries. */
function moveTo(n) {
  const before = performance.now();
  now = clamp(Math.round(n), 0, run.count);
  followNow();
  showNow();
  showPanels();
  document.body.dataset.moved = (performance.now() - before).toFixed(1);
}

function showPanels() {
  const place = `entry ${now} of ${run.count}, ${now ? run.times[now - 1] : 0} ms`;
  byId("slider").value = now;
  byId("slider").setAttribute("aria-valuetext", place);
  byId("place").textContent = place;
  drawNow();
  drawEnds();
  drawSteps();
  paintTable();
  keepFragment();
}

/** The entry after the last one of the next time. */
const timeOn = () => (now >= run.count ? run.count : lowerBound(run.count, (it) => run.times[it], run.times[now] + 1));

/** The first entry of the time of the current one. */
const timeBack = () => (now === 0 ? 0 : lowerBound(run.count, (it) => run.times[it], run.times[now - 1]));

/** Selects a packet, or none. */
function choose(packet) {
  selected = packet;
  paint();
  drawPacketPanel();
  drawEnds();
  makeReachable();
  keepFragment();
}

/** One arrow is in the order of the Tab key: the selected one, or the newest. */
function makeReachable() {
  const chart = byId("chart");
  for (const it of chart.querySelectorAll('[tabindex="0"]')) it.setAttribute("tabindex", -1);
  const wanted = selected || run.packets[lowerBound(run.packets.length, (it) => run.packets[it].stamp, now) - 1] || run.packets[0];
  const group = wanted && chart.querySelector(`g[data-packet="${wanted.index}"]`);
  if (group) group.setAttribute("tabindex", 0);
  return group;
}

/** Selects the next or the previous packet that the filters show, and moves to it. */
function choosePacket(direction) {
  const start = lowerBound(run.packets.length, (it) => run.packets[it].stamp, now);
  let place = selected !== null ? selected.index + direction : direction > 0 ? start : start - 1;
  while (run.packets[place] && !showsPacket(run.packets[place])) place += direction;
  const packet = run.packets[place];
  if (!packet) return;
  selected = packet;
  moveTo(packet.stamp + 1);
  choose(packet);
  const inChart = byId("chart").contains(document.activeElement);
  const group = makeReachable();
  if (inChart && group) group.focus({ preventScroll: true });
}

const KEYS = {
  ArrowLeft: () => moveTo(now - 1),
  ArrowRight: () => moveTo(now + 1),
  PageUp: () => moveTo(timeBack()),
  PageDown: () => moveTo(timeOn()),
  Home: () => moveTo(0),
  End: () => moveTo(run.count),
  n: () => choosePacket(1),
  p: () => choosePacket(-1),
  Escape: () => choose(null),
};

function onKey(event) {
  if (event.ctrlKey || event.altKey || event.metaKey || event.target instanceof HTMLSelectElement) return;
  const packet = event.target instanceof Element && event.target.closest("g[data-packet]");
  if (packet && (event.key === "Enter" || event.key === " ")) {
    event.preventDefault();
    choose(run.packets[Number(packet.dataset.packet)]);
    return;
  }
  const action = KEYS[event.key.length === 1 ? event.key.toLowerCase() : event.key];
  if (!action) return;
  event.preventDefault();
  action();
}

function onClick(event) {
  const target = event.target.closest("[data-packet], [data-n]");
  if (!target) return;
  if (target.dataset.n !== undefined) moveTo(Number(target.dataset.n));
  else choose(run.packets[Number(target.dataset.packet)]);
}

// Filters and the fragment

/** Fills a choice with all values of a filter. */
function fillChoice(id, values) {
  const options = values.map(([value, text]) => html("option", { value }, text));
  byId(id).replaceChildren(html("option", { value: "" }, "all"), ...options);
}

function fillChoices() {
  const number = (names) => names.map((name, place) => [place, name]);
  fillChoice("host", number(run.hosts));
  fillChoice("link", number(run.links));
  for (const id of ["protocol", "conversation"]) fillChoice(id, []);
}

/** Fills the choices that need all headers: before a fragment names one, and otherwise after the first drawing. */
function fillLateChoices() {
  if (view.filled) return;
  view.filled = true;
  const different = (values) => [...new Set(values)];
  fillChoice("protocol", different(run.packets.map((it) => headerOf(it).protocol)).map((it) => [it, it]));
  fillChoice("conversation", different(run.packets.map((it) => headerOf(it).pair)).map((it) => [it, it.replace(" ", ` ${DASH} `)]));
}

/** Reads the filters from the controls. */
function readChoices() {
  const number = (id) => (byId(id).value === "" ? null : Number(byId(id).value));
  filter.host = number("host");
  filter.link = number("link");
  filter.protocol = byId("protocol").value || null;
  filter.pair = byId("conversation").value || null;
  filter.steps = byId("steps").checked;
  filter.hide = byId("hide").checked;
  filter.table = byId("as-table").checked;
  document.body.classList.toggle("hide-later", filter.hide);
  byId("chart").toggleAttribute("hidden", filter.table);
  byId("names").toggleAttribute("hidden", filter.table);
  byId("table").hidden = !filter.table;
}

/** Draws all for new filters or a new width. */
function redraw() {
  readChoices();
  geometry = columns(byId("pane").clientWidth || 1000);
  drawNames(byId("names"));
  layOut();
  drawAround(layout.rowAt[now]);
  makeReachable();
  showNow();
  showPanels();
}

/** The word of a packet in a fragment: its frame on the first link, `LINK.FRAME`, or the entry of a drop. */
function packetKey(packet) {
  if (packet.frame === null) return `e${packet.stamp}`;
  return packet.link === 0 ? `${packet.frame}` : `${packet.link}.${packet.frame}`;
}

function packetOfKey(key) {
  if (key.startsWith("e")) return run.packets.find((it) => it.frame === null && it.stamp === Number(key.slice(1))) || null;
  const [link, frame] = (key.includes(".") ? key : `0.${key}`).split(".").map(Number);
  return frameOf(link, frame);
}

/** The fragment for the current entry, the selected packet and the filters. */
function fragment() {
  const words = [`n=${now}`];
  if (selected !== null) words.push(`k=${packetKey(selected)}`);
  if (filter.host !== null) words.push(`host=${encodeURIComponent(run.hosts[filter.host])}`);
  if (filter.link !== null) words.push(`link=${encodeURIComponent(run.links[filter.link])}`);
  if (filter.protocol !== null) words.push(`protocol=${filter.protocol}`);
  if (filter.pair !== null) words.push(`conversation=${filter.pair.replace(" ", ",")}`);
  if (!filter.steps) words.push("steps=0");
  if (filter.hide) words.push("hide=1");
  if (filter.table) words.push("table=1");
  return `#${words.join("&")}`;
}

/** Keeps the fragment of the address. A browser limits how often, so the page waits until the reader stops. */
function keepFragment() {
  clearTimeout(view.timer);
  view.timer = setTimeout(() => {
    if (fragment() !== location.hash) history.replaceState(null, "", fragment());
  }, 200);
}

/** Sets the controls, the packet and the entry from the fragment of the address. */
function readFragment() {
  const words = new URLSearchParams(location.hash.slice(1));
  const place = (names, name) => (names.includes(name) ? names.indexOf(name) : "");
  byId("host").value = place(run.hosts, words.get("host"));
  byId("link").value = place(run.links, words.get("link"));
  if (words.has("protocol") || words.has("conversation")) fillLateChoices();
  byId("protocol").value = words.get("protocol") || "";
  byId("conversation").value = (words.get("conversation") || "").replace(",", " ");
  for (const id of ["protocol", "conversation"]) if (byId(id).selectedIndex < 0) byId(id).value = "";
  byId("steps").checked = words.get("steps") !== "0";
  byId("hide").checked = words.get("hide") === "1";
  byId("as-table").checked = words.get("table") === "1";
  selected = words.has("k") ? packetOfKey(words.get("k")) : null;
  const n = Number(words.get("n"));
  now = words.has("n") && Number.isFinite(n) ? clamp(Math.round(n), 0, run.count) : run.count;
}

// Print

/** Draws the chart as sheets of paper: the whole chart, or what is near the current entry in a long run. */
function makeSheets() {
  const whole = run.count <= PRINTED;
  const screen = geometry;
  geometry = columns(PRINT_WIDTH);
  const most = Math.max(14, Math.floor((PRINT_HEIGHT * geometry.width) / PRINT_WIDTH / ROW) - 3);
  const [first, last] = whole ? [0, layout.rows] : [view.first, view.last];
  const note = whole ? "" : `This run has ${run.count} entries. The chart shows entries ${view.from} to ${view.to}.`;
  byId("sheets").replaceChildren(html("p", {}, note));
  for (let row = first; row < last; ) {
    const rows = row === first ? most - 7 : most; // the title and the legend are above the first sheet
    byId("sheets").append(sheet(row, Math.min(row + rows, last) - 1));
    row += rows;
  }
  geometry = screen;
}

/** Some rows with the names of the hosts above them. */
function sheet(first, last) {
  const height = (last - first + 1) * ROW + 30;
  const made = svg(document.createDocumentFragment(), "svg", { viewBox: `0 0 ${geometry.width} ${height}` });
  drawNames(svg(made, "g", {}));
  const rows = svg(made, "svg", { y: 24, width: geometry.width, height: height - 24, viewBox: `0 ${yOfRow(first) - 4} ${geometry.width} ${height - 24}` });
  for (const it of drawRows(rows, first, last)) it.shape.setAttribute("class", classOf(it, run.count));
  return made;
}

// The start

let run = null;
let layout = null;
let geometry = null;
let selected = null;
let now = 0;
const filter = { host: null, link: null, protocol: null, pair: null, steps: true, hide: false, table: false };
const view = { shapes: [], lists: [], tableRows: [], line: null, waits: null, timer: 0, filled: false, from: 0, to: 0, first: 0, last: 0 };

/** Calls a function one time before the next picture, however often it is asked for. */
function calmly(action) {
  let asked = 0;
  return () => {
    cancelAnimationFrame(asked);
    asked = requestAnimationFrame(action);
  };
}

function listen() {
  const clicks = { home: "Home", "back-time": "PageUp", back: "ArrowLeft", next: "ArrowRight", "next-time": "PageDown", end: "End" };
  for (const [id, key] of Object.entries(clicks)) byId(id).addEventListener("click", KEYS[key]);
  for (const id of ["host", "link", "protocol", "conversation", "steps", "hide", "as-table"]) byId(id).addEventListener("change", redraw);
  byId("slider").addEventListener("input", calmly(() => moveTo(Number(byId("slider").value))));
  byId("pane").addEventListener("scroll", calmly(followScroll));
  document.addEventListener("click", onClick);
  document.addEventListener("keydown", onKey);
  window.addEventListener("resize", calmly(redraw));
  window.addEventListener("hashchange", showFragment);
  window.addEventListener("beforeprint", makeSheets);
  window.addEventListener("afterprint", () => byId("sheets").replaceChildren());
}

function showFragment() {
  readFragment();
  redraw();
  drawPacketPanel();
}

function start() {
  run = readRun(byId("payload").textContent);
  byId("title").textContent = run.end === null ? "Run: history without a summary" : `Run: ${run.end[1]} at ${run.end[2]} ms`;
  byId("slider").max = run.count;
  fillChoices();
  makeLists();
  listen();
  showFragment();
  setTimeout(fillLateChoices, 0);
  document.body.dataset.drawn = (performance.now() - startedAt).toFixed(1);
}

start();
