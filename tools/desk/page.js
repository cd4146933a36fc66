// The page of a replay: it reads the moments from the data in the page, and draws the one that is picked.
"use strict";

const data = JSON.parse(document.getElementById("data").textContent);
const LETTERS = "ABCDEF";

// The measures of the picture, and the steps of its ticks.
const WIDTH = 1200, ROW = 18, TOP = 50, FIELD = 470, MARGIN = 32, INNER = WIDTH - FIELD - 2 * MARGIN;
const STEPS = [10, 20, 30, 60, 120, 300, 600, 900, 1800, 3600, 7200, 14400, 21600];
const FEW_FROZEN = 6; // so many of those that froze last are seen beside the waiting flights
const RING = "m-5 0a5 5 0 1 0 10 0a5 5 0 1 0-10 0z", RHOMB = "m0-6l6 6-6 6-6-6z", SQUARE = "m-8-8h16v16h-16z";
const STROKE = "m0-6v12", BEAM = "m-6-8h12m-6 0v16m-6 0h12", LEFTWARD = "m0 0l6-5v10z", RIGHTWARD = "m0 0l-6-5v10z";

// ---- The state of a moment

const KEPT = 32; // of so many moments one state is kept, so that a step back does not begin at the opening
const kept = new Map();

const copied = (state) => ({ ...state, flights: new Map(state.flights) });

// Changes a state into that of the next moment.
function apply(state, moment) {
  for (const index of moment.gone ?? []) state.flights.delete(index);
  for (const [index, category, eta, windows] of moment.flights ?? []) {
    const before = state.flights.get(index) ?? { callsign: data.names[index], second: null, frozen: false };
    state.flights.set(index, { ...before, category, eta, windows });
  }
  for (const [index, second, frozen] of moment.lands ?? []) {
    state.flights.set(index, { ...state.flights.get(index), second, frozen: frozen === 1 });
  }
  if (moment.closures !== undefined) state.closures = moment.closures;
  if (moment.horizon !== undefined) state.horizon = moment.horizon;
  state.findings = Array.isArray(moment.audit) ? moment.audit : [];
}

function stateAt(number) {
  let from = number - number % KEPT;
  while (from > 0 && !kept.has(from)) from -= KEPT;
  const known = kept.has(from);
  const state = known ? copied(kept.get(from)) : { flights: new Map(), closures: [], horizon: 0, findings: [] };
  for (let i = known ? from + 1 : 0; i <= number; i++) {
    apply(state, data.moments[i]);
    if (i % KEPT === 0) kept.set(i, copied(state));
  }
  return state;
}

// ---- Who moved

const byTurn = (a, b) => a.eta - b.eta || (a.callsign < b.callsign ? -1 : 1);
const bySecond = (a, b) => a.second - b.second || (a.callsign < b.callsign ? -1 : 1);

// The flights in rows: landings in order, then those that do not land.
function rowsOf(state) {
  const flights = [...state.flights].map(([index, flight]) => ({ ...flight, index }));
  const waiting = flights.filter((it) => !it.frozen).sort(byTurn);
  const ranks = new Map(waiting.map((it, i) => [it.callsign, i + 1]));
  const landed = flights.filter((it) => it.second !== null).sort(bySecond);
  let place = 0;
  const rows = landed.map((it, i) => ({
    ...it, rank: ranks.get(it.callsign), place: it.frozen ? undefined : ++place, owed: owedBehind(it, landed[i + 1]),
  }));
  const others = waiting.filter((it) => it.second === null);
  return rows.concat(others.map((it) => ({ ...it, rank: ranks.get(it.callsign) })));
}

function owedBehind(leader, follower) {
  return follower && leader.second + data.table[leader.category][LETTERS.indexOf(follower.category)];
}

// What an event changed of a flight, in words, and where it would have landed.
function changeOf(row, before, move, froze) {
  if (before === undefined) return { words: "new", isNew: true };
  const words = [];
  if (row.eta !== before.eta) words.push(`due ${signed(row.eta - before.eta)}`);
  if (row.second === null && before.second !== null) words.push("no landing");
  if (froze) words.push("froze");
  if (move === undefined) return { words: words.join(", ") };
  const [, seconds, places] = move;
  if (seconds !== 0) words.push(signed(seconds));
  if (places !== 0) words.push(`${places > 0 ? "+" : ""}${places} pl`);
  return { words: words.join(", "), moved: true, from: row.second - seconds };
}

// ---- Words

const two = (number) => String(number).padStart(2, "0");

function clockTime(second) {
  const day = Math.floor(second / 86400), rest = second % 86400;
  const time = `${two(Math.floor(rest / 3600))}:${two(Math.floor(rest / 60) % 60)}:${two(rest % 60)}`;
  return day > 0 ? `+${day} ${time}` : time;
}

function duration(seconds) {
  const size = Math.abs(seconds);
  return `${seconds < 0 ? "-" : ""}${Math.floor(size / 60)}:${two(size % 60)}`;
}

const signed = (seconds) => (seconds > 0 ? "+" : "") + duration(seconds);

const escaped = (text) => text.replace(/[&<>"']/g, (it) => `&#${it.charCodeAt(0)};`);

// ---- The parts of a picture

function frameOf(rows, horizon) {
  const held = rows.map((it) => it.second ?? it.eta);
  let first = held.length ? Math.min(...held) : horizon, last = held.length ? Math.max(...held) : horizon;
  const reach = Math.max(Math.floor((last - first) / 2), 150);
  const near = rows.flatMap((it) => it.second === null ? [it.eta, ...it.windows.flat()] : [it.eta, it.from ?? it.eta]);
  const seen = [...near, horizon || first].filter((it) => first - reach <= it && it <= last + reach);
  first = Math.min(first, ...seen);
  last = Math.max(last, ...seen);
  return { first, last: Math.max(last, first + 60) };
}

function along(frame, second) {
  const place = FIELD + MARGIN + (second - frame.first) * INNER / (frame.last - frame.first);
  return Math.round(Math.min(Math.max(place, FIELD), WIDTH) * 10) / 10;
}

const path = (style, d, hint) => `<path class="${style}" d="${d}">${hint ? `<title>${hint}</title>` : ""}</path>`;

function rect(style, x, y, width, height, hint) {
  return `<rect class="${style}" x="${x}" y="${y}" width="${width}" height="${height}"><title>${hint}</title></rect>`;
}

// A closure over all rows, where it is seen; at least two pixels of it.
function closureOf(span, frame, bottom) {
  const left = along(frame, span[0]), right = along(frame, span[1]);
  if (left === WIDTH || right === FIELD) return "";
  const hint = `closed ${clockTime(span[0])} to ${clockTime(span[1])}`;
  return rect("c", left, TOP, Math.max(right - left, 2), bottom - TOP, hint);
}

function fieldOf(state, frame, bottom) {
  const drawn = state.closures.map((it) => closureOf(it, frame, bottom));
  const step = STEPS.find((it) => it * 11 >= frame.last - frame.first) ?? 21600;
  for (let tick = Math.ceil(frame.first / step) * step; tick <= frame.last; tick += step) {
    const x = along(frame, tick);
    drawn.push(path("k", `M${x} ${TOP}V${bottom}`));
    drawn.push(`<text class="k" x="${x}" y="${TOP - 6}">${clockTime(tick)}</text>`);
  }
  if (state.horizon && frame.first <= state.horizon && state.horizon <= frame.last) {
    drawn.push(path("h", `M${along(frame, state.horizon)} ${TOP}V${bottom}`, `horizon ${clockTime(state.horizon)}`));
  }
  return drawn.join("");
}

function cell(x, text, style) {
  return text === undefined || text === "" ? "" : `<tspan class="${style ?? ""}" x="${x}">${text}</tspan>`;
}

function wordsOf(row, y, red) {
  const shift = row.rank && row.place ? row.place - row.rank : undefined;
  const cells = [
    cell(8, row.callsign), cell(70, row.category), cell(122, row.rank, "n"), cell(160, row.place, "n"),
    cell(198, shift > 0 ? `+${shift}` : shift, "n"),
    cell(210, row.second === null ? "" : clockTime(row.second)),
    cell(326, row.second === null ? "" : duration(row.second - row.eta), "n"), cell(340, row.words, "q"),
  ];
  return `<text${red ? ` class="x"` : ""} y="${y + 4}">${cells.join("")}</text>${path("r", `M8 ${y + 9}H${WIDTH}`)}`;
}

function windowOf(row, span, frame, y) {
  const hint = `${row.callsign} window ${clockTime(span[0])} to ${clockTime(span[1])}`;
  const left = along(frame, span[0]), right = along(frame, span[1] + 1);
  if (right === FIELD) return path("o", `M${FIELD} ${y}${LEFTWARD}`, hint);
  if (left === WIDTH) return path("o", `M${WIDTH} ${y}${RIGHTWARD}`, hint);
  if (right - left > 12) return rect("w", left, y - 4, right - left, 8, hint);
  return path("v", `M${(left + right) / 2} ${y}${BEAM}`, hint);
}

function shapesOf(row, frame, y, red) {
  const drawn = row.windows.map((it) => windowOf(row, it, frame, y));
  const due = along(frame, row.eta);
  const outside = due === FIELD ? LEFTWARD : RIGHTWARD;
  const inside = FIELD < due && due < WIDTH;
  const push = (style, d, hint) => drawn.push(path(style, d, `${row.callsign} ${hint}`));
  push(inside ? "e" : "f", `M${due} ${y}${inside ? STROKE : outside}`, `estimate ${clockTime(row.eta)}`);
  if (row.second === null) return drawn.join("");
  const x = along(frame, row.second);
  push("d", `M${due} ${y}H${x}`, `delay ${duration(row.second - row.eta)}`);
  if (row.owed !== undefined) {
    push("s", `M${x} ${y + 7}H${along(frame, row.owed)}`, `lets the next land at ${clockTime(row.owed)}`);
  }
  if (row.moved) push("q", `M${along(frame, row.from)} ${y}${RING}`, `landed before at ${clockTime(row.from)}`);
  push(row.frozen ? "f" : "m", `M${x} ${y}${row.frozen ? RHOMB : RING}`, `lands ${clockTime(row.second)}`);
  if (red) drawn.push(path("x", `M${x} ${y}${SQUARE}`));
  return drawn.join("");
}

// ---- The picture

const KEY = [["w", "M8 10h24v8h-24z"], ["e", "M100 8v12"], ["d", "M180 14h24"], ["m", `M267 14${RING}`],
  ["f", `M347 14${RHOMB}`], ["s", "M417 14h24"], ["h", "M532 6v16"], ["c", "M606 7h18v14h-18z"],
  ["q", `M690 14${RING}`], ["x", `M805 14${SQUARE}`]].map(([style, d]) => path(style, d)).join("")
  + [[37, "window"], [107, "estimate"], [209, "delay"], [277, "waiting"], [358, "frozen"], [446, "separation"],
    [539, "horizon"], [629, "closed"], [700, "landed before"], [818, "a finding"]]
    .map(([x, it]) => `<text x="${x}" y="18">${it}</text>`).join("");
const COLUMNS = [[8, "flight"], [70, "cat"], [122, "rank", "n"], [160, "place", "n"], [198, "shift", "n"],
  [210, "lands"], [326, "delay", "n"], [340, "changed"]].map(([x, it, style]) => cell(x, it, style)).join("");
const HATCHING = `<pattern id="z" width="7" height="7" patternUnits="userSpaceOnUse" patternTransform="rotate(45)">`
  + `<path stroke-opacity=".6" d="M3 0V7"/></pattern><rect class="g" width="100%" height="100%"/>`;

function rowOf(row, number, frame, named) {
  const y = TOP + 12 + ROW * number, red = named.has(row.callsign);
  const band = row.moved || row.isNew ? path(row.moved ? "p" : "u", `M0 ${y - 9}h${WIDTH}v${ROW}H0z`) : "";
  const inside = band + wordsOf(row, y, red) + shapesOf(row, frame, y, red);
  return `<g class="row" data-callsign="${row.callsign}">${inside}</g>`;
}

function pictureOf(state, rows) {
  const frame = frameOf(rows, state.horizon), bottom = TOP + ROW * rows.length + 6;
  const named = new Set(state.findings.flatMap((it) => it.split(" ").slice(1)));
  const head = `<svg xmlns="http://www.w3.org/2000/svg" viewBox="0 0 ${WIDTH} ${bottom + 4}">${HATCHING}${KEY}`;
  const drawn = rows.map((row, number) => rowOf(row, number, frame, named));
  return `${head}<text y="${TOP - 6}">${COLUMNS}</text>${fieldOf(state, frame, bottom)}${drawn.join("")}</svg>`;
}

// ---- The page

const part = (id) => document.getElementById(id);
let current = 0;
let naming; // browsers complain where the address changes with every step of a key that is held

function entryOf(moment, number) {
  const many = moment.moves ? `<i>${moment.moves.length} moved</i>` : "";
  const style = moment.refused ? ` class="refused"` : "";
  return `<li><a href="#${number}"${style}><b>${number}</b><span>${escaped(moment.happened)}</span>${many}</a></li>`;
}

// The rows of a moment with what changed since the one before. Of the frozen flights the last few, or all.
function seenRows(state, number) {
  const { moves = [], froze = [] } = data.moments[number], old = (number > 0 ? stateAt(number - 1) : state).flights;
  const moved = new Map(moves.map((it) => [it[0], it]));
  const rows = rowsOf(state).map((it) =>
    ({ ...it, ...changeOf(it, old.get(it.index), moved.get(it.index), froze.includes(it.index)) }));
  const frozen = rows.filter((it) => it.frozen).length;
  const unseen = part("all").checked ? 0 : Math.max(frozen - FEW_FROZEN, 0);
  part("unseen").textContent = unseen ? `(${unseen} earlier ones are not shown)` : "";
  return rows.slice(unseen);
}

function show(number) {
  current = Math.min(Math.max(number, 0), data.moments.length - 1);
  const moment = data.moments[current], state = stateAt(current);
  part("event").textContent = moment.happened + (moment.refused ? `: refused, ${moment.refused}` : "");
  part("where").textContent = (moment.where ?? "the opening") + (moment.clock ? `, clock ${moment.clock}` : "");
  part("value").textContent = `${moment.value}; audit: ${[].concat(moment.audit ?? "ok").join(", ")}`;
  part("picture").innerHTML = pictureOf(state, seenRows(state, current));
  part("events").querySelector("[aria-current]")?.removeAttribute("aria-current");
  const entry = part("events").children[current].firstChild;
  entry.setAttribute("aria-current", "true");
  entry.scrollIntoView({ block: "nearest" });
  clearTimeout(naming);
  naming = setTimeout(() => history.replaceState(null, "", `#${current}`), 300);
}

// The next moment, or the one before, in which a flight moved.
function nextMoved(step) {
  let number = current + step;
  while (data.moments[number] && !data.moments[number].moves) number += step;
  return data.moments[number] ? number : current;
}

const KEYS = {
  ArrowDown: () => current + 1, ArrowRight: () => current + 1, j: () => current + 1,
  ArrowUp: () => current - 1, ArrowLeft: () => current - 1, k: () => current - 1,
  PageDown: () => current + 20, PageUp: () => current - 20,
  Home: () => 0, End: () => data.moments.length - 1,
  n: () => nextMoved(1), p: () => nextMoved(-1),
};

document.addEventListener("keydown", (event) => {
  const step = KEYS[event.key.length === 1 ? event.key.toLowerCase() : event.key];
  if (step === undefined || event.ctrlKey || event.metaKey || event.altKey) return;
  event.preventDefault();
  show(step());
});
part("events").addEventListener("click", (event) => {
  const entry = event.target.closest("a");
  if (entry === null) return;
  event.preventDefault();
  show(Number(entry.hash.slice(1)));
});
window.addEventListener("hashchange", () => show(Number(location.hash.slice(1)) || 0));
part("all").addEventListener("change", () => show(current));

part("events").innerHTML = data.moments.map(entryOf).join("");
show(Number(location.hash.slice(1)) || 0);
