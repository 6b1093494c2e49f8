"use strict";

// ---- what the page was given

const data = JSON.parse(document.getElementById("data").textContent);
const size = data.names.length;
const hubs = data.hubs;
const isHub = new Set(hubs);
const exists = new Set(data.existing);
const nodes = [...Array(size).keys()];
const words = (rows) => rows.map((row) => row.split(" "));
const flows = words(data.flows);
const costs = words(data.costs);
// By origin and destination: the first hub and the last.
const ways = words(data.ways).map((row) =>
  row.map((word) => [hubs[Math.floor(word / hubs.length)], hubs[word % hubs.length]]));
const amounts = flows.map((row) => row.map(Number));
const out = amounts.map((row) => row.reduce((sum, flow) => sum + flow, 0));
const into = nodes.map((j) => nodes.reduce((sum, i) => sum + amounts[i][j], 0));
const total = nodes.map((node) => out[node] + into[node]);
const mostFlow = Math.max(...total) || 1;

// What is shown: flows of some origins or of all, the routes of one place, and perhaps one route of these.
const shown = { origins: null, place: null, from: true, route: null };
const view = { scale: 1, x: 0, y: 0 };

// ---- numbers

const PLACES = 12;

// A decimal text in units of 10^-12, so that sums lose no digit.
function units(text) {
  const [whole, part = ""] = text.split(".");
  return BigInt(whole + part.padEnd(PLACES, "0"));
}

function decimal(sum) {
  const digits = sum.toString().padStart(PLACES + 1, "0");
  const part = digits.slice(-PLACES).replace(/0+$/, "");
  return digits.slice(0, -PLACES) + (part && "." + part);
}

// A number for a reader's eye: commas, and at most three decimals.
function readable(text) {
  const [whole, part = ""] = String(text).split(".");
  const few = part.slice(0, 3).replace(/0+$/, "");
  return whole.replace(/\B(?=(\d{3})+$)/g, ",") + (few && "." + few) + (/[1-9]/.test(part.slice(3)) ? "…" : "");
}

// All digits, with commas.
function readableWhole(text) {
  const [whole, part = ""] = text.split(".");
  return readable(whole) + (part && "." + part);
}

// How many decimals a column of these numbers shows: fewer where they are large.
function decimalsOf(texts) {
  const most = Math.max(...texts.map(Number), 0);
  const few = [[1e4, 1], [100, 2], [1, 3]].find(([least]) => most >= least);
  return Math.min(few ? few[1] : 6, Math.max(...texts.map((text) => (text.split(".")[1] || "").length), 0));
}

// A number cut to this number of decimals, with commas.
function cut(text, decimals) {
  const [whole, part = ""] = text.split(".");
  return readable(whole) + (decimals ? "." + part.slice(0, decimals).padEnd(decimals, "0") : "");
}

// A sum of flows, which was added up in floating point.
const flowText = (flow) => readable(Number(flow.toPrecision(12)).toFixed(6));

function short(flow) {
  for (const [unit, letter] of [[1e9, " bn"], [1e6, " M"], [1e3, " k"]])
    if (flow >= unit) return +(flow / unit).toPrecision(6) + letter;
  return String(+flow.toPrecision(6));
}

// ---- elements

function make(tag, attributes = {}, ...children) {
  const element = document.createElement(tag);
  for (const [name, value] of Object.entries(attributes)) {
    if (name.startsWith("on")) element.addEventListener(name.slice(2), value);
    else if (value !== null) element.setAttribute(name, value);
  }
  element.append(...children);
  return element;
}

function drawn(tag, attributes, parent) {
  const element = document.createElementNS("http://www.w3.org/2000/svg", tag);
  for (const [name, value] of Object.entries(attributes)) element.setAttribute(name, value);
  if (parent) parent.append(element);
  return element;
}

const at = (id) => document.getElementById(id);

// ---- tables that can be sorted

const MOST_ROWS = 1000;
const number = (text) => ({ text, full: readableWhole(text), by: Number(text) });
const name = (node) => ({ text: data.names[node], by: node });

// Columns are pairs of a title and whether it holds numbers; a row has cells, and perhaps what a click on it does.
function sortable(columns, rows, foot = []) {
  const order = { column: null, down: false };
  const body = make("tbody");
  const heads = columns.map(([title, isNumber], column) => {
    const click = () => {
      order.down = order.column === column ? !order.down : isNumber;
      order.column = column;
      fill();
    };
    return make("th", { class: isNumber ? "number" : "", scope: "col" },
      make("button", { type: "button", onclick: click }, title));
  });
  const decimals = columns.map(([, isNumber], column) =>
    isNumber ? decimalsOf(rows.map((row) => row.cells[column].text)) : null);
  const cell = ({ text, full = null }, column) => {
    const isNumber = columns[column][1];
    const shownText = isNumber && text ? cut(text, decimals[column]) : text;
    return make("td", { class: isNumber ? "number" : "", title: full }, shownText);
  };
  function fill() {
    const sorted = [...rows];
    if (order.column !== null) {
      const by = (row) => row.cells[order.column].by;
      sorted.sort((a, b) => (by(a) < by(b) ? -1 : by(a) > by(b) ? 1 : 0) * (order.down ? -1 : 1));
    }
    heads.forEach((head, column) => {
      if (column === order.column) head.setAttribute("aria-sort", order.down ? "descending" : "ascending");
      else head.removeAttribute("aria-sort");
    });
    body.replaceChildren(...sorted.slice(0, MOST_ROWS).map((row) => {
      const line = make("tr", { class: row.click ? "follows" : "" }, ...row.cells.map(cell));
      if (row.click) line.addEventListener("click", () => row.click(line));
      return line;
    }));
  }
  fill();
  const table = make("table", {}, make("thead", {}, make("tr", {}, ...heads)), body);
  if (foot.length) table.append(make("tfoot", {}, make("tr", {}, ...foot.map(cell))));
  if (rows.length <= MOST_ROWS) return [table];
  const told = `the first ${readable(MOST_ROWS)} of ${readable(rows.length)} rows, as sorted`;
  return [table, make("p", { class: "small" }, told)];
}

// ---- the map: sizes and places

const picture = at("picture");
const layers = Object.fromEntries(["back", "spokes", "trunks", "chosen", "hits", "marks", "texts"]
  .map((layer) => [layer, drawn("g", {}, picture)]));
const background = drawn("rect", { fill: "#fff" }, layers.back);
const style = size <= 30 ? { largest: 15, smallest: 4, trunk: 11, spoke: 2.2, text: 13, share: 0 }
  : size <= 80 ? { largest: 11, smallest: 3, trunk: 9, spoke: 1.7, text: 12, share: 0.05 }
    : { largest: 9, smallest: 2.4, trunk: 8, spoke: 1.2, text: 11, share: 0.15 };
const MARGIN = 44;
const SIDES = [[1, 0], [-1, 0], [0, 1], [0, -1], [1, 1], [1, -1], [-1, 1], [-1, -1]];
const ALL_NAMED = 30;
// How far from its mark a name stands, in pixels, where there is room.
const NEAR = 3;
const canvas = document.createElement("canvas").getContext("2d");

function frame() {
  return { width: picture.clientWidth || 800, height: picture.clientHeight || 600 };
}

// The place of a node in pixels.
function spot(node) {
  const { width, height } = frame();
  const fit = Math.min((width - 2 * MARGIN) / (data.extent[0] || 1), (height - 2 * MARGIN) / (data.extent[1] || 1));
  const [x, y] = data.places[node];
  const left = (width - fit * data.extent[0]) / 2 + fit * x;
  const top = (height - fit * data.extent[1]) / 2 + fit * y;
  return [view.x + view.scale * left, view.y + view.scale * top];
}

const growth = () => Math.min(1.8, Math.max(1, Math.sqrt(view.scale)));
// A hub of little flow of its own is still to be seen.
const least = (node) => style.smallest * (isHub.has(node) ? 2 : 1);
const radius = (node) => growth() * Math.max(least(node), style.largest * Math.sqrt(total[node] / mostFlow));

// ---- the map: lines

// The flow of each link, by its two ends, of these routes; links from a node to itself carry none.
function linksOf(pairs) {
  const links = { first: new Map(), middle: new Map(), last: new Map() };
  for (const [i, j] of pairs) {
    const [k, m] = ways[i][j];
    for (const [kind, start, stop] of [["first", i, k], ["middle", k, m], ["last", m, j]]) {
      if (start === stop || !amounts[i][j]) continue;
      const key = start * size + stop;
      links[kind].set(key, (links[kind].get(key) || 0) + amounts[i][j]);
    }
  }
  return links;
}

// Both directions of links together: the two ends, and the flow there and back.
function bothWays(...maps) {
  const lines = new Map();
  for (const map of maps) {
    for (const [key, flow] of map) {
      const [start, stop] = [Math.floor(key / size), key % size];
      const [low, high] = [Math.min(start, stop), Math.max(start, stop)];
      const line = lines.get(low * size + high) || { low, high, there: 0, back: 0, flow: 0 };
      line[start === low ? "there" : "back"] += flow;
      line.flow += flow;
      lines.set(low * size + high, line);
    }
  }
  return [...lines.values()].sort((a, b) => a.flow - b.flow);
}

const origins = () => shown.origins ? [...shown.origins] : nodes;
const pairsOf = (starts) => starts.flatMap((i) => nodes.map((j) => [i, j]));

// The routes of the place that is chosen: from it or to it; or the one route of these.
function chosenPairs() {
  if (shown.route) return [shown.route];
  return nodes.map((other) => shown.from ? [shown.place, other] : [other, shown.place]);
}

// A spoke is drawn if it has enough of the flow of one of its ends that is no hub.
function isStrong(line) {
  const ends = [line.low, line.high].filter((node) => !isHub.has(node));
  return (ends.length ? ends : [line.low, line.high]).some((node) => line.flow >= style.share * total[node]);
}

let lines = [];

function addLine(layer, line, kind, widest, most, isFaint) {
  const width = Math.max(0.5, widest * line.flow / most);
  const element = drawn("line", { class: kind + (isFaint ? " faint" : ""), "stroke-width": width.toFixed(2) }, layer);
  lines.push({ element, line });
  if (isFaint) return;
  const hit = drawn("line", { class: "hit", "stroke-width": Math.max(kind === "spoke" ? 5 : 10, width) }, layers.hits);
  hit.told = () => linkText(line, kind);
  lines.push({ element: hit, line });
}

const KINDS = { spoke: "to and from a hub", trunk: "trunk",
  first: "to the first hub", middle: "trunk", last: "from the last hub" };

function linkText(line, kind) {
  const [low, high] = [data.names[line.low], data.names[line.high]];
  const ways = [[low, high, line.there], [high, low, line.back]].filter(([, , flow]) => flow > 0);
  return [KINDS[kind], ...ways.map(([start, stop, flow]) => `${start} → ${stop}: ${flowText(flow)}`)].join("\n");
}

function drawLines() {
  for (const layer of ["spokes", "trunks", "chosen", "hits"]) layers[layer].replaceChildren();
  lines = [];
  const isFaint = shown.place !== null;
  const links = linksOf(pairsOf(origins()));
  const spokes = bothWays(links.first, links.last);
  const trunks = bothWays(links.middle);
  const strong = shown.origins ? spokes : spokes.filter(isStrong);
  const mostSpoke = Math.max(...strong.map((line) => line.flow), 0) || 1;
  const mostTrunk = Math.max(...trunks.map((line) => line.flow), 0) || 1;
  for (const line of strong) addLine(layers.spokes, line, "spoke", style.spoke, mostSpoke, isFaint);
  for (const line of trunks) addLine(layers.trunks, line, "trunk", style.trunk, mostTrunk, isFaint);
  if (isFaint) {
    const chosen = linksOf(chosenPairs());
    const kinds = ["last", "first", "middle"].map((kind) => [kind, bothWays(chosen[kind])]);
    const most = Math.max(...kinds.flatMap(([, all]) => all.map((line) => line.flow)), 0) || 1;
    const widest = shown.route ? 4 : style.trunk;
    for (const [kind, all] of kinds) for (const line of all) addLine(layers.chosen, line, kind, widest, most, false);
  }
  legend(strong.length < spokes.length, mostTrunk, trunks.length, strong.length);
}

// ---- the map: marks and names

// The smaller marks come later, and hubs before others only if these are much smaller, so that none is hidden.
const HUB_FIRST = 0.35;
const SPENT = "existing, its cost counts as 0";
const marks = [...nodes]
  .sort((a, b) => total[b] * (isHub.has(b) ? HUB_FIRST : 1) - total[a] * (isHub.has(a) ? HUB_FIRST : 1))
  .map((node) => {
    const kind = isHub.has(node) ? "rect" : "circle";
    const label = titleOf(node);
    const mark = drawn(kind, { "data-node": node + 1, tabindex: 0, role: "button", "aria-label": label }, layers.marks);
    mark.told = () => nodeText(node);
    mark.addEventListener("click", (event) => { event.stopPropagation(); choose(node); });
    mark.addEventListener("keydown", (event) => { if (event.key === "Enter") choose(node); });
    return [node, mark];
  });

// A place with what it is.
function titleOf(node) {
  const kinds = [...(isHub.has(node) ? ["hub"] : []), ...(exists.has(node) ? [SPENT] : [])];
  return [data.names[node], ...kinds].join(", ");
}

function nodeText(node) {
  const text = [titleOf(node)];
  text.push(`flow out ${flowText(out[node])}`, `flow in ${flowText(into[node])}`);
  if (isHub.has(node)) {
    const row = data.hubRows[hubs.indexOf(node)];
    text.push(`collects ${readable(row.collected)}`, `delivers ${readable(row.delivered)}`);
  }
  return text.join("\n");
}

function placeMarks() {
  for (const [node, mark] of marks) {
    const [x, y] = spot(node);
    const r = radius(node);
    mark.setAttribute("class", isHub.has(node) ? "node hub" : "node");
    mark.classList.toggle("exists", exists.has(node));
    mark.classList.toggle("selected", shown.place === node);
    mark.classList.toggle("unserved", shown.origins !== null && !shown.origins.has(node));
    const shape = isHub.has(node) ? { x: x - r, y: y - r, width: 2 * r, height: 2 * r } : { cx: x, cy: y, r };
    for (const [key, value] of Object.entries(shape)) mark.setAttribute(key, value.toFixed(1));
  }
  for (const { element, line } of lines) {
    const [[x1, y1], [x2, y2]] = [spot(line.low), spot(line.high)];
    for (const [key, value] of Object.entries({ x1, y1, x2, y2 })) element.setAttribute(key, value.toFixed(1));
  }
}

// Names of hubs and of few nodes in any case, of others where there is room; none lies on a mark or on another name.
function placeNames() {
  layers.texts.replaceChildren();
  const { width, height } = frame();
  const taken = nodes.map((node) => {
    const [x, y] = spot(node);
    const r = radius(node);
    return [x - r, y - r, x + r, y + r];
  });
  const strong = strongTrunks();
  const hits = (box) => taken.filter((other) =>
    other[0] < box[2] && box[0] < other[2] && other[1] < box[3] && box[1] < other[3]).length
    + (strong.some((trunk) => crosses(trunk, box)) ? 0.5 : 0)
    + (box[0] < 0 || box[1] < 0 || box[2] > width || box[3] > height ? 100 : 0);
  const first = (node) => node === shown.place ? 2 : isHub.has(node) ? 1 : 0;
  for (const node of [...nodes].sort((a, b) => first(b) - first(a) || total[b] - total[a])) {
    const [x, y] = spot(node);
    if (x < 0 || y < 0 || x > width || y > height) continue;
    const forced = size <= ALL_NAMED || node === shown.place || (isHub.has(node) && hubs.length <= ALL_NAMED);
    const best = bestBox(node, x, y, forced, hits);
    if (best.hidden >= 1 && !forced) continue;
    taken.push(best.box);
    const [left, top, right, bottom] = best.box;
    if (best.away > NEAR) {
      // A name that stands farther away is led to.
      const [x2, y2] = [Math.min(right, Math.max(left, x)), Math.min(bottom, Math.max(top, y))];
      drawn("line", { class: "leader", x1: x, y1: y, x2, y2 }, layers.texts);
    }
    const attributes = { class: "name" + (isHub.has(node) ? " hub" : ""), x: left.toFixed(1),
      y: (bottom - (bottom - top) * 0.24).toFixed(1), "font-size": fontOf(node) };
    drawn("text", attributes, layers.texts).textContent = data.names[node];
  }
}

const fontOf = (node) => style.text + (isHub.has(node) ? 1 : 0);

function bestBox(node, x, y, forced, hits) {
  canvas.font = `${isHub.has(node) ? "bold " : ""}${fontOf(node)}px system-ui, "DejaVu Sans", sans-serif`;
  const wide = canvas.measureText(data.names[node]).width + 2;
  const high = fontOf(node) * 1.15;
  let best = { hidden: Infinity };
  for (const away of forced ? [NEAR, 14, 26] : [NEAR]) {
    for (const [across, up] of SIDES) {
      const reach = (radius(node) + away) * (across && up ? 0.75 : 1);
      const left = x + across * reach - wide * (1 - across) / 2;
      const top = y - up * reach - high * (1 + up) / 2;
      const box = [left, top, left + wide, top + high];
      const hidden = hits(box);
      if (hidden < best.hidden) best = { box, hidden, away };
    }
    if (best.hidden === 0) break;
  }
  return best;
}

// The stronger trunks that are drawn and not faint, each by the places of its ends.
function strongTrunks() {
  const kind = shown.place === null ? "trunk" : "middle";
  const drawnTrunks = lines.filter(({ element }) => element.classList.contains(kind));
  const most = Math.max(...drawnTrunks.map(({ line }) => line.flow), 0);
  return drawnTrunks.filter(({ line }) => line.flow >= most / 4)
    .map(({ line }) => [...spot(line.low), ...spot(line.high)]);
}

// Whether a line from end to end lies on a box, by cutting it to the box.
function crosses([x1, y1, x2, y2], [left, top, right, bottom]) {
  let [low, high] = [0, 1];
  for (const [start, step, least, most] of [[x1, x2 - x1, left, right], [y1, y2 - y1, top, bottom]]) {
    if (step === 0) {
      if (start < least || start > most) return false;
      continue;
    }
    const ends = [(least - start) / step, (most - start) / step];
    low = Math.max(low, Math.min(...ends));
    high = Math.min(high, Math.max(...ends));
  }
  return low <= high;
}

function draw() {
  const { width, height } = frame();
  background.setAttribute("width", width);
  background.setAttribute("height", height);
  drawLines();
  move();
}

function move() {
  placeMarks();
  placeNames();
}

// ---- the legend

function legend(someLeftOut, mostTrunk, trunks, spokes) {
  const line = (kind, width, text) => {
    const mark = drawn("svg", { width: 30, height: 14 });
    drawn("line", { class: kind, x1: 4, y1: 7, x2: 26, y2: 7, "stroke-width": width }, mark);
    return make("span", {}, mark, text);
  };
  const round = (most) => {
    const power = 10 ** Math.floor(Math.log10(most));
    const top = [5, 2, 1].map((step) => step * power).find((step) => step <= most * 1.0000001);
    return top >= 5 || most >= 5 ? [top, top / 5] : [top];
  };
  const entries = round(mostFlow).map((flow) => {
    const r = Math.max(style.smallest, style.largest * Math.sqrt(flow / mostFlow));
    const mark = drawn("svg", { width: 2 * r + 2, height: 2 * r + 2 });
    drawn("circle", { class: "node", cx: r + 1, cy: r + 1, r }, mark);
    return make("span", {}, mark, `flow ${short(flow)}`);
  });
  const square = drawn("svg", { width: 16, height: 16 });
  drawn("rect", { class: "node hub", x: 2, y: 2, width: 12, height: 12 }, square);
  entries.push(make("span", {}, square, "hub"));
  if (exists.size) {
    const ring = drawn("svg", { width: 16, height: 16 });
    drawn("rect", { class: "node hub exists", x: 2, y: 2, width: 12, height: 12 }, ring);
    entries.push(make("span", {}, ring, SPENT));
  }
  if (shown.place !== null) {
    entries.push(...["first", "middle", "last"].map((kind) => line(kind, 4, KINDS[kind])));
  } else {
    for (const flow of trunks ? round(mostTrunk) : [])
      entries.push(line("trunk", Math.max(0.5, style.trunk * flow / mostTrunk), `trunk ${short(flow)}`));
    const part = someLeftOut ? ` (from ${100 * style.share}% of a place's flow)` : "";
    if (spokes) entries.push(line("spoke", style.spoke, KINDS.spoke + part));
  }
  if (data.note) entries.push(make("span", {}, data.note));
  at("legend").replaceChildren(...entries);
}

// ---- what the page says of a place

function heading(text, small) {
  return make("h2", {}, text, " ", make("small", {}, small));
}

// Hints, or the routes of the origins or of the place that are chosen.
function details() {
  const box = at("details");
  if (shown.place === null && !shown.origins) {
    box.replaceChildren(make("p", { class: "small" },
      "Click on a place for its routes and what they cost, on a hub for its loads too. Scroll to zoom, drag to move."));
    return;
  }
  if (shown.place === null) {
    const told = shown.origins.size === 1 ? "the chosen origin" : `the ${shown.origins.size} chosen origins`;
    box.replaceChildren(heading("Routes", `from ${told}`), ...routeTable(pairsOf(origins()), true));
    return;
  }
  const place = shown.place;
  const turn = (from, text) => make("button", { type: "button", "aria-pressed": String(shown.from === from),
    onclick: () => { shown.from = from; shown.route = null; update(); } }, text);
  box.replaceChildren(
    heading(data.names[place], titleOf(place).slice(data.names[place].length + 2)),
    ...(isHub.has(place) ? loads(place) : []),
    make("p", {}, "Routes ", turn(true, "from here"), " ", turn(false, "to here"), " ",
      make("button", { type: "button", onclick: () => choose(null) }, "close")),
    ...routeTable(chosenPairsOfPlace(), false));
}

const chosenPairsOfPlace = () => nodes.map((other) => shown.from ? [shown.place, other] : [other, shown.place]);

function loads(hub) {
  const row = data.hubRows[hubs.indexOf(hub)];
  const facts = [["collects, as first hub", row.collected], ["delivers, as last hub", row.delivered],
    ["fixed cost", row.fixed]];
  const table = make("table", { id: "loads" }, make("tbody", {}, ...facts.map(([text, value]) => {
    const amount = make("td", { class: "number", title: readableWhole(value) }, readable(value));
    return make("tr", {}, make("td", {}, text), amount);
  })));
  const rows = data.trunkRows.filter(([start, stop]) => start === hub || stop === hub)
    .map(([start, stop, flow, cost]) => ({ cells: [name(start), name(stop), number(flow), number(cost)] }));
  const trunks = make("div", { class: "table", id: "loads-trunks" },
    ...sortable([["Trunk from", false], ["to", false], ["Flow", true], ["Cost", true]], rows));
  return rows.length ? [table, trunks] : [table];
}

// A click on the row of a route shows it alone, a second one all again.
function showRoute(row, pair) {
  const isNew = !row.classList.contains("shown");
  for (const other of row.parentElement.children) other.classList.toggle("shown", isNew && other === row);
  shown.route = isNew ? pair : null;
  draw();
}

// The routes of these pairs; a click on one shows it alone. The other end comes first where one place is chosen.
function routeTable(pairs, withOrigin) {
  let [flow, cost] = [0n, 0n];
  const rows = pairs.map(([i, j]) => {
    flow += units(flows[i][j]);
    cost += units(costs[i][j]);
    const ends = withOrigin ? [name(i), name(j)] : [name(shown.from ? j : i)];
    const [k, m] = ways[i][j];
    const cells = [...ends, name(k), name(m), number(flows[i][j]), number(costs[i][j])];
    return { cells, click: withOrigin ? null : (line) => showRoute(line, [i, j]) };
  });
  const titles = withOrigin ? ["Origin", "Destination"] : [shown.from ? "Destination" : "Origin"];
  const texts = [...titles, "First hub", "Last hub"].map((title) => [title, false]);
  const columns = [...texts, ["Flow", true], ["Cost", true]];
  const empty = columns.slice(1, -2).map(() => ({ text: "" }));
  const sums = [{ text: "together" }, ...empty, number(decimal(flow)), number(decimal(cost))];
  return [make("div", { class: "table", id: "routes" }, ...sortable(columns, rows, sums))];
}

// ---- the tables below

function parts() {
  const colors = { collection: "#d07a00", trunk: "#1f3b63", delivery: "#2e8b57", fixed: "#c8401f" };
  const all = Number(data.total) || 1;
  const share = (cost) => (100 * Number(cost) / all).toFixed(1) + "%";
  const decimals = decimalsOf([data.total]);
  at("bar").append(...data.parts.map(([part, cost]) =>
    make("div", { style: `flex: ${Number(cost) / all} 0 0; background: ${colors[part]}`, title: part })));
  at("amounts").append(
    ...data.parts.map(([part, cost]) => make("span", { title: readableWhole(cost) },
      make("span", { class: "mark", style: `background: ${colors[part]}` }),
      `${part} ${cut(cost, decimals)} (${share(cost)})`)),
    make("strong", { title: readableWhole(data.total) }, `total ${cut(data.total, decimals)}`),
    make("span", { title: readableWhole(data.bound) }, `bound ${cut(data.bound, decimals)}`),
    make("span", {}, `gap ${data.gap}`));
}

// What was asked: the network without a hub, or with a place as one. Without an answer there is no number.
const asked = (kind) => data.whatIf.filter((line) => line.kind === kind);
const none = { text: "", by: Infinity };
// How far it rises, in per cent where that can be told, with all digits of the rise for the pointer; and what changes.
function risen(line = { outcome: "" }) {
  if (line.rise === undefined) return [none, { text: line.outcome, by: line.outcome }];
  const share = { text: line.percent || line.rise, full: "rise " + readableWhole(line.rise), by: Number(line.rise) };
  const least = line.least === line.rise ? "" : "not proved: at least " + readable(line.least);
  return [share, { text: [least, line.change].filter(Boolean).join("; "), by: line.change }];
}

function tables() {
  const losses = new Map(asked("without").map((line) => [line.node, line]));
  const hubRows = data.hubRows.map((row, place) => ({
    cells: [name(hubs[place]), number(row.fixed), number(row.collected), number(row.delivered),
      ...(losses.size ? risen(losses.get(hubs[place])) : [])],
    click: () => choose(hubs[place]),
  }));
  const columns = [["Hub", false], ["Fixed cost", true], ["Collects", true], ["Delivers", true]];
  const lost = losses.size ? [["Without, %", true], ["Then", false]] : [];
  at("hub-table").append(...sortable([...columns, ...lost], hubRows));
  const gainRows = asked("with").map((line) => ({ cells: [name(line.node), ...risen(line)],
    click: () => choose(line.node) }));
  at("further").hidden = gainRows.length === 0;
  at("further-table").append(...sortable([["Place", false], ["As a hub, %", true], ["Then", false]], gainRows));
  at("risen").hidden = data.whatIf.length === 0;
  const trunkRows = data.trunkRows.map(([start, stop, flow, cost]) =>
    ({ cells: [name(start), name(stop), number(flow), number(cost)] }));
  at("trunk-table").append(...sortable([["From", false], ["To", false], ["Flow", true], ["Cost", true]], trunkRows));
}

// ---- choices

function update() {
  details();
  draw();
}

function choose(node) {
  shown.place = node === shown.place ? null : node;
  shown.route = null;
  update();
}

function chooseOrigins(chosen) {
  shown.origins = chosen.length && chosen.length < size ? new Set(chosen) : null;
  shown.place = shown.route = null;
  const told = at("told");
  if (shown.origins) {
    const cost = pairsOf(chosen).reduce((sum, [i, j]) => sum + units(costs[i][j]), 0n);
    told.textContent = `The map shows what ${chosen.length} of ${size} places send, for ${readable(decimal(cost))}`;
  } else told.textContent = `The map shows what all ${size} places send`;
  update();
}

function startOrigins() {
  const list = at("chosen");
  const options = nodes.map((node) =>
    make("option", { value: node }, data.names[node] + (isHub.has(node) ? " (hub)" : "")));
  list.append(...options);
  list.addEventListener("change", () => chooseOrigins([...list.selectedOptions].map((option) => Number(option.value))));
  at("all").addEventListener("click", () => {
    for (const option of options) option.selected = false;
    chooseOrigins([]);
  });
  at("filter").addEventListener("input", (event) => {
    const wanted = event.target.value.toLowerCase();
    for (const option of options) option.hidden = !option.text.toLowerCase().includes(wanted);
  });
}

// ---- the pointer, zoom and moving

function startPointer() {
  const box = at("pointer");
  picture.addEventListener("mousemove", (event) => {
    const told = event.target.told;
    box.hidden = !told;
    if (!told) return;
    box.textContent = told();
    box.style.left = Math.min(event.clientX + 14, innerWidth - box.offsetWidth - 8) + "px";
    box.style.top = Math.min(event.clientY + 14, innerHeight - box.offsetHeight - 8) + "px";
  });
  picture.addEventListener("mouseleave", () => { box.hidden = true; });
}

function zoom(factor, x, y) {
  const scale = Math.min(60, Math.max(1, view.scale * factor));
  const change = scale / view.scale;
  view.x = scale === 1 ? 0 : x - change * (x - view.x);
  view.y = scale === 1 ? 0 : y - change * (y - view.y);
  view.scale = scale;
  move();
}

function startZoom() {
  picture.addEventListener("wheel", (event) => {
    event.preventDefault();
    const box = picture.getBoundingClientRect();
    zoom(Math.exp(-event.deltaY / 400), event.clientX - box.left, event.clientY - box.top);
  }, { passive: false });
  for (const button of document.querySelectorAll("[data-zoom]")) {
    const { width, height } = frame();
    button.addEventListener("click", () => zoom(Number(button.dataset.zoom), width / 2, height / 2));
  }
  let held = null;
  picture.addEventListener("pointerdown", (event) => { held = { x: event.clientX, y: event.clientY, moved: false }; });
  addEventListener("pointermove", (event) => {
    if (!held) return;
    const [across, down] = [event.clientX - held.x, event.clientY - held.y];
    if (!held.moved && Math.hypot(across, down) < 4) return;
    Object.assign(held, { x: event.clientX, y: event.clientY, moved: true });
    picture.classList.add("moving");
    view.x += across;
    view.y += down;
    move();
  });
  addEventListener("pointerup", () => {
    picture.classList.remove("moving");
    // The click that ends a move chooses nothing.
    const stop = (event) => event.stopPropagation();
    if (held && held.moved) {
      addEventListener("click", stop, true);
      setTimeout(() => removeEventListener("click", stop, true));
    }
    held = null;
  });
  background.addEventListener("click", () => { if (shown.place !== null) choose(null); });
  addEventListener("keydown", (event) => { if (event.key === "Escape" && shown.place !== null) choose(null); });
  addEventListener("resize", draw);
}

parts();
tables();
startOrigins();
startPointer();
startZoom();
chooseOrigins([]);
