"use strict";
// The run is drawn in pieces of SVG that were made before; this shows those that are in sight, and joins lines to arrows.
const run = JSON.parse(document.getElementById("run").textContent);
const $ = id => document.getElementById(id);
const LINE = 18, MARGIN = 12, SPACE = "http://www.w3.org/2000/svg";
const NAMES = { record: "the record", message: "a message of the record", trim: "a trim gap,", hole: "a hole,", bridge: "a bridge,", dataloss: "a data loss," };
const state = { step: 0, zoom: 1, lit: -1, pinned: -1, led: new Set(), ledLines: new Set(), hits: [], hit: -1, item: -1 };
const last = run.steps.length - 1;

// ---- the picture

const svg = document.createElementNS(SPACE, "svg"), gutter = document.createElementNS(SPACE, "svg");
let shown = [-1, -1];

function drawPicture(always) {
  const box = $("picture"), tall = run.row * state.zoom;
  gutter.style.left = `${box.scrollLeft}px`;
  const top = Math.max(0, Math.floor(box.scrollTop / tall) - MARGIN);
  const end = Math.min(run.steps.length, Math.ceil((box.scrollTop + box.clientHeight) / tall) + MARGIN);
  if (!always && shown[0] === top && shown[1] === end) return;
  shown = [top, end];
  const inside = piece => piece[0] < end && piece[1] >= top;
  const isThere = state.step >= top && state.step < end;
  const now = isThere ? `<rect class="now" y="${state.step * run.row}" width="${run.width}" height="${run.row}"/>` : "";
  // a row more, for what a message of the last step reaches to
  for (const [part, wide] of [[svg, run.width], [gutter, run.left]]) {
    part.style.top = `${top * tall}px`;
    part.setAttribute("width", wide * state.zoom);
    part.setAttribute("height", (end - top + 1) * tall);
    part.setAttribute("viewBox", `0 ${top * run.row} ${wide} ${(end - top + 1) * run.row}`);
  }
  const shade = `<rect class="shade" y="${top * run.row}" width="${run.left}" height="${(end - top + 1) * run.row}"/>`;
  gutter.innerHTML = shade + now + run.gutters.slice(top, end).join("");
  svg.innerHTML = now + run.spans.filter(inside).map(piece => piece[2]).join("") +
    run.arrows.filter(inside).map(piece => piece[3]).join("") + run.rows.slice(top, end).join("");
  light();
}

function sizePicture() {
  $("room").style.height = `${(run.steps.length + 1) * run.row * state.zoom}px`;
  $("room").style.width = `${run.width * state.zoom}px`;
  const size = `width="${run.width * state.zoom}" height="${40 * state.zoom}" viewBox="0 -40 ${run.width} 40"`;
  $("heads").innerHTML = `<svg class="run" ${size}>${run.heads}</svg>`;
  $("zoom").textContent = `${Math.round(state.zoom * 100)}%`;
  drawPicture(true);
}

function zoomTo(zoom) {
  const box = $("picture"), middle = (box.scrollTop + box.clientHeight / 2) / state.zoom;
  state.zoom = Math.min(2, Math.max(0.3, zoom));
  sizePicture();
  box.scrollTop = middle * state.zoom - box.clientHeight / 2;
}

// Lights up the arrows and lines that belong together; while some do, the others are dimmed.
function light() {
  const ids = new Set(state.led);
  for (const id of [state.pinned, state.lit]) if (id >= 0) ids.add(id);
  svg.classList.toggle("dim", ids.size > 0);
  for (const arrow of svg.querySelectorAll(".msg, .again")) {
    arrow.classList.toggle("lit", ids.has(Number(arrow.dataset.m ?? arrow.dataset.again)));
  }
  for (const entry of document.querySelectorAll(".entry[data-line], .line[data-line]")) {
    const message = run.message[entry.dataset.line];
    entry.classList.toggle("lit", message >= 0 && (message === state.lit || message === state.pinned));
    entry.classList.toggle("led", state.ledLines.has(Number(entry.dataset.line)));
  }
}

// ---- the transcript: an entry is an event (its index) or a line (the index less 1, negative)

const entries = [], entryOf = [];
run.steps.forEach(([event, turn, first, end]) => {
  if (turn === 0) entries.push(event);
  for (let line = first; line < end; line++) {
    entryOf[line] = entries.length;
    entries.push(-line - 1);
  }
});

function escaped(text) {
  return text.replace(/[&<>"]/g, c => ({ "&": "&amp;", "<": "&lt;", ">": "&gt;", '"': "&quot;" })[c]);
}

function entryText(entry, at) {
  const place = `style="top:${at * LINE}px"`;
  if (entry >= 0) return `<div class="entry event" data-event="${entry}" ${place}>${escaped(run.events[entry][1])}</div>`;
  const line = -entry - 1, step = run.stepOf[line];
  const number = line === run.steps[step][2] ? `<i>${step + 1}</i>` : "";
  const kinds = `entry${step === state.step ? " now" : ""}${state.found?.has(line) ? " hit" : ""}`;
  return `<div class="${kinds}" data-line="${line}" ${place}>${number}${lineText(line)}</div>`;
}

// A line, and of a message what became of it.
function lineText(line) {
  const message = run.message[line], end = message >= 0 ? `<s>${run.ends[message]}</s>` : "";
  return escaped(run.lines[line]) + end;
}

function drawLines() {
  const box = $("list"), top = Math.max(0, Math.floor(box.scrollTop / LINE) - MARGIN);
  const end = Math.min(entries.length, Math.ceil((box.scrollTop + box.clientHeight) / LINE) + MARGIN);
  $("lines").style.height = `${entries.length * LINE + 12}px`;
  $("lines").innerHTML = entries.slice(top, end).map((entry, k) => entryText(entry, top + k)).join("");
  light();
}

// Scrolls a box so that a stretch of it is in sight, if it isn't.
function bring(box, top, high) {
  const head = box.id === "picture" ? $("heads").offsetHeight : 0;
  if (top < box.scrollTop + 20 || top + high > box.scrollTop + box.clientHeight - head - 20) {
    box.scrollTop = top - (box.clientHeight - head) / 2 + high / 2;
  }
}

function bringAcross(place) {
  const box = $("picture"), left = run.left * state.zoom + 60;
  if (place >= 0 && (place < box.scrollLeft + left || place > box.scrollLeft + box.clientWidth - 60)) {
    box.scrollLeft = place - box.clientWidth / 2;
  }
}

// ---- the step

function standingAt(spans, step) {
  let low = 0, high = spans.length - 1;
  while (low < high) {
    const middle = (low + high + 1) >> 1;
    if (spans[middle][0] <= step) low = middle; else high = middle - 1;
  }
  return spans[low];
}

function drawStanding() {
  $("at").textContent = state.step + 1;
  $("step").textContent = `step ${state.step + 1} of ${last + 1}`;
  const rows = run.standing.map(([node, spans]) => {
    const [, name, lost] = standingAt(spans, state.step);
    const more = lost ? ` <span class="state lost">${lost}</span>` : "";
    return `<tr data-node="${node}"><td>node ${node}</td><td><span class="state ${name}">${name}</span>${more}</td></tr>`;
  });
  $("standing").querySelector("table").innerHTML = rows.join("");
  const flying = run.flying[state.step];
  $("flight").textContent = flying === 1 ? "1 message is on its way" : `${flying} messages are on their way`;
}

function goTo(step, from) {
  state.step = Math.min(last, Math.max(0, step));
  $("slider").value = state.step + 1;
  drawStanding();
  if (from !== "picture") {
    bring($("picture"), state.step * run.row * state.zoom, run.row * state.zoom);
    bringAcross(run.place[state.step] * state.zoom);
  }
  if (from !== "lines") {
    const [, , first, end] = run.steps[state.step];
    bring($("list"), entryOf[first] * LINE, (end - first) * LINE);
  }
  drawPicture(true);
  drawLines();
}

function goToLine(line) {
  state.pinned = run.message[line];
  bring($("list"), entryOf[line] * LINE, LINE);
  goTo(run.stepOf[line], "lines");
}

function hover(message) {
  if (message === state.lit) return;
  state.lit = message;
  light();
}

// ---- search

function search() {
  const wanted = $("search").value.trim().toLowerCase();
  state.hits = [];
  if (wanted) {
    entries.forEach(entry => {
      const text = entry >= 0 ? run.events[entry][1] : run.lines[-entry - 1];
      if (text.toLowerCase().includes(wanted)) state.hits.push(entry);
    });
  }
  state.found = new Set(state.hits.filter(entry => entry < 0).map(entry => -entry - 1));
  state.hit = -1;
  if (state.hits.length) hitAfter(1); else { tellHits(); drawLines(); }
}

function hitAfter(by) {
  if (!state.hits.length) return;
  state.hit = (state.hit + by + state.hits.length) % state.hits.length;
  const entry = state.hits[state.hit];
  if (entry < 0) goToLine(-entry - 1); else goTo(run.firstStep[entry]);
  tellHits();
}

function tellHits() {
  $("hits").textContent = !$("search").value.trim() ? "" : state.hits.length ? `${state.hit + 1} of ${state.hits.length}` : "none";
}

// ---- what readers got, and why

function tapeCell(item, number) {
  const title = `${item.kind} ${item.label}`;
  return `<button class="cell ${item.letter}" data-item="${number}" title="${title}"><b>${item.letter}</b>${item.label}</button>`;
}

function drawTapes() {
  $("tapes").innerHTML = run.readers.map(([name, told]) => {
    const cells = run.items.map((item, number) => item.reader !== name ? "" : tapeCell(item, number));
    return `<div class="tape"><b title="${told}">reader ${name}</b><div>${cells.join("") || "nothing yet"}</div></div>`;
  }).join("");
}

function showWhy(number) {
  const item = run.items[number];
  state.item = number;
  state.led = new Set();
  state.ledLines = new Set();
  const parts = item.why.map(([sentence, lines, more]) => {
    for (const line of lines) {
      state.ledLines.add(line);
      if (run.message[line] >= 0) state.led.add(run.message[line]);
    }
    const button = line => `<button class="line" data-line="${line}"><i>${run.stepOf[line] + 1}</i>${lineText(line)}</button>`;
    return `<p>${escaped(sentence)}</p>${lines.map(button).join("")}${more ? `<p>and ${more} more</p>` : ""}`;
  });
  $("why").hidden = false;
  $("why").querySelector("h2").textContent = `Why reader ${item.reader} got ${NAMES[item.kind]} ${item.label}`;
  $("why").querySelector("div").innerHTML = parts.join("");
  choose(number);
  state.pinned = -1;
  goTo(item.step);
  // where the lines that led to it fit into sight with it, they are
  const begin = Math.min(item.step, ...[...state.ledLines].map(line => run.stepOf[line])), tall = run.row * state.zoom;
  const room = $("picture").clientHeight - $("heads").offsetHeight;
  if ((item.step - begin + 4) * tall < room) $("picture").scrollTop = (begin - 1) * tall;
}

function choose(number) {
  for (const cell of document.querySelectorAll(".cell")) cell.classList.toggle("chosen", Number(cell.dataset.item) === number);
}

function closeWhy() {
  $("why").hidden = true;
  state.led = new Set();
  state.ledLines = new Set();
  state.pinned = state.item = -1;
  choose(-1);
  drawLines();
}
