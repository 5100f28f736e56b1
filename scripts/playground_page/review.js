// What `review` says as a table: a row for each policy, a column for each action.
import { el } from "./dom.js";

const CELL = { all: ["✓", "on all of its requests"], none: ["·", "on none"] };

function cell(count, most, action) {
  const [mark, said] = count === 0 ? CELL.none : count === most ? CELL.all : [`${count}/${most}`, `on ${count} of ${most}`];
  return el("td", { class: count ? "may" : "never", title: `${action}: ${said}` }, mark);
}

function list(title, items) {
  if (!items.length) return null;
  const left = items.length - 100;
  return [el("h3", {}, title), el("ul", {}, items.slice(0, 100).map((item) => el("li", {}, el("code", {}, item)))),
    left > 0 ? el("p", {}, `${left} more are below.`) : null];
}

export function reviewTable({ actions, rows, never, unreached }) {
  const head = (text, kind) => el("th", { scope: "col", class: kind }, text);
  const heads = [head("policy"), head("effect"), ...actions.map(({ action }) => head(action, "action")), head("level")];
  const row = ({ policy, effect, counts, level }) => el("tr", {},
    el("th", { scope: "row" }, policy), el("td", {}, effect),
    counts.map((count, i) => cell(count, actions[i].most, actions[i].action)), el("td", {}, level));
  const table = el("table", { id: "review-table" },
    el("thead", {}, el("tr", {}, heads)),
    el("tbody", {}, rows.map(row)));
  return el("section", {},
    el("p", { class: "quiet" }, "✓: it can be true on each type of requests of the action, 1/2: on one of two, ·: on none."),
    el("div", { class: "scroll", tabindex: "0", role: "region", "aria-label": "The review as a table" }, table),
    list("Never true", never), list("No permit reaches these, so they are always denied", unreached));
}
