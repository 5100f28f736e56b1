// The entities as a graph, with those of the slice marked: boxes with attributes, lines to parents and kept ancestors;
// and the same as a table.
import { counted, el, svg } from "./dom.js";
import { ancestorsOf } from "./entities.js";
import { arrange, pathOf, ranks } from "./layout.js";
import { clipped, printedId } from "./values.js";

const CHARACTER = 7.3, ROW = 18, PAD = 10, WIDEST = 32, MOST_ROWS = 10, MOST_DRAWN = 60, MOST_LISTED = 500;
const STATES = {
  kept: ["✓ kept", "kept"],
  ancestor: ["✓ as an ancestor", "as an ancestor alone"],
  away: ["✗ left out", "left out"],
  absent: ["not in the store", "not in the store"],
};

function stateOf(entity) {
  if (entity.kept) return "kept";
  if (entity.isAbove) return "ancestor";
  return entity.listed ? "away" : "absent";
}

function boxOf(entity, column) {
  const reported = (row) => clipped(`${row.kept ? "✓" : "✗"} ${row.name}: ${row.value}`, WIDEST);
  const rows = entity.rows.slice(0, MOST_ROWS).map((row) => ({ kept: row.kept, text: reported(row) }));
  const left = entity.rows.length - rows.length;
  if (left) rows.push({ kept: true, text: `… ${left} more, in the table` });
  const title = clipped(printedId(entity.uid), WIDEST), state = stateOf(entity);
  const status = [STATES[state][0], ...entity.roles].join(", ");
  const longest = Math.max(title.length + 1, status.length, ...rows.map((row) => row.text.length));
  const weight = ["kept", "ancestor", "away", "absent"].indexOf(state) + (entity.roles.length ? 0 : 0.5);
  const width = longest * CHARACTER + 2 * PAD, height = (2 + rows.length) * ROW + PAD;
  return { entity, rows, title, state, status, column, weight, width, height };
}

function drawnBox(box) {
  const lines = box.rows.map((row, i) =>
    svg("text", { x: PAD, y: (i + 3) * ROW - 4, class: row.kept ? "row" : "row fallen" }, row.text));
  const place = `translate(${box.x}, ${box.y})`;
  return svg("g", { class: `entity ${box.state}`, transform: place, "data-id": box.entity.key },
    svg("title", {}, printedId(box.entity.uid)),
    svg("rect", { width: box.width, height: box.height, rx: 6 }),
    svg("text", { x: PAD, y: ROW - 2, class: "title" }, box.title),
    svg("text", { x: PAD, y: 2 * ROW - 3, class: "status" }, box.status),
    lines);
}

// The lines: to each ancestor that is kept, and to each parent that is left out.
function linesOf(boxes) {
  const lines = [];
  for (const from of boxes.values()) {
    const up = new Set(from.entity.ancestors);
    for (const key of new Set([...from.entity.parents, ...up])) {
      if (boxes.has(key)) lines.push({ from, to: boxes.get(key), kept: up.has(key) });
    }
  }
  return lines.sort((a, b) => a.kept - b.kept);
}

function drawnLine(line) {
  const kind = line.kept ? "kept" : "away";
  return svg("path", { class: `edge ${kind}`, "marker-end": `url(#${kind}-end)`, d: pathOf(line) });
}

function arrow(id) {
  const size = { markerWidth: 10, markerHeight: 10, markerUnits: "userSpaceOnUse" };
  return svg("marker", { id, viewBox: "0 0 8 8", refX: 7, refY: 4, orient: "auto", ...size },
    svg("path", { d: "M 0 0 L 8 4 L 0 8 z" }));
}

function drawing(all) {
  const isShort = all.size <= MOST_DRAWN;
  const shown = [...all.values()].filter((one) => isShort || one.kept || one.isAbove).slice(0, MOST_DRAWN);
  const keys = new Set(shown.map((entity) => entity.key));
  const above = (entity) => [...entity.parents, ...entity.ancestors].filter((key) => keys.has(key));
  const rank = ranks(new Map(shown.map((entity) => [entity.key, above(entity)])));
  const boxes = new Map(shown.map((entity) => [entity.key, boxOf(entity, rank.get(entity.key))]));
  const lines = linesOf(boxes);
  const { width, height } = arrange([...boxes.values()], lines);
  const names = { role: "img", "aria-labelledby": "graph-title", "aria-describedby": "graph-hint" };
  const picture = svg("svg", { class: "graph", width, height, viewBox: `0 0 ${width} ${height}`, ...names },
    svg("defs", {}, arrow("kept-end"), arrow("away-end")), lines.map(drawnLine), [...boxes.values()].map(drawnBox));
  const left = all.size - shown.length;
  return [scrolled("The graph of the entities", picture),
    left ? el("p", {}, `${left} more entities are not drawn; the table has them.`) : null];
}

const scrolled = (name, inner) =>
  el("div", { class: "scroll", tabindex: "0", role: "region", "aria-label": name }, inner);

function listed(items, text) {
  const reported = items.slice(0, 30).map(text).join(", ");
  return items.length > 30 ? `${reported} and ${items.length - 30} more` : reported;
}

function cells(entity, all) {
  const reported = (row) => (row.kept ? `${row.name}: ${row.value}` : row.name);
  const names = (kept) => listed(entity.rows.filter((row) => row.kept === kept), reported);
  const ids = (keys) => listed([...keys], (key) => printedId(all.get(key).uid));
  const up = new Set(entity.ancestors);
  const fallen = [...ancestorsOf(entity, all)].filter((key) => !up.has(key));
  const roles = entity.roles.length ? ` (${entity.roles.join(", ")})` : "";
  return [printedId(entity.uid) + roles, STATES[stateOf(entity)][1], names(true), names(false), ids(up), ids(fallen)];
}

function table(all) {
  const heads = ["entity", "in the slice", "attributes and tags kept", "left out", "ancestors kept", "left out"];
  const listed = [...all.values()].filter((entity) => entity.listed || entity.kept);
  const shown = listed.sort((a, b) => b.kept - a.kept).slice(0, MOST_LISTED);
  const row = (entity) => el("tr", { class: entity.kept ? "kept" : "away" },
    cells(entity, all).map((text, i) => el(i ? "td" : "th", i ? {} : { scope: "row" }, text)));
  const whole = el("table", { id: "graph-table" },
    el("thead", {}, el("tr", {}, heads.map((head) => el("th", { scope: "col" }, head)))),
    el("tbody", {}, shown.map(row)));
  const left = listed.length - shown.length;
  return el("details", {}, el("summary", {}, "The same as a table"), scrolled("The entities as a table", whole),
    left ? el("p", {}, `${left} more are in the entities alone.`) : null);
}

export function entityGraph(all) {
  const entities = [...all.values()].filter((entity) => entity.listed);
  const kept = entities.filter((entity) => entity.kept).length;
  return el("section", { class: "entities" },
    el("h3", { id: "graph-title" }, `The slice keeps ${kept} of ${counted(entities.length, "entity", "entities")}`),
    el("p", { class: "quiet", id: "graph-hint" },
      el("span", { class: "key kept" }, "✓ kept"), " is in the slice, ",
      el("span", { class: "key ancestor" }, "✓ as an ancestor"), " is named there as an ancestor, ",
      el("span", { class: "key away" }, "✗ left out"), " is not in it: each policy has the same outcome without. ",
      "A full line leads to an ancestor that is kept, a dashed one to a parent that is left out."),
    drawing(all), table(all));
}
