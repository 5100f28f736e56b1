// What is reported of an answer: one sentence, the findings with their lines, the decision with its reasons.
import { counted, el } from "./dom.js";
import { own } from "./values.js";

const MOST = 200;
const BEFORE = 20; // so many characters are shown before what is marked, so that this is seen on narrow screens
const STATUS = {
  2: "The program did not take the command.",
  3: "This is no document.",
  4: "The request breaks a rule of the schema.",
  5: "An entity breaks a rule of the schema.",
  6: "The request has an unknown entry, so nothing is decided.",
  11: "The document is longer than the program reads.",
};
const LIMITS = {
  time: ({ seconds }) => `Stopped: the answer took more than ${seconds} s, the limit of this page.`,
  memory: ({ mebibytes }) =>
    `Stopped: the answer needed more than ${mebibytes} MiB, the limit of this page; nothing was written.`,
  length: () => "Stopped: the answer is longer than this page shows; its beginning is below.",
};

// How it is: good, bad or a Deny; and the sentence.
export function summary(reply, decision, document, about) {
  const { answer, faults, findings } = reply;
  if (!answer) return ["bad", `Not read: ${counted(faults.length, "place has", "places have")} a fault.`];
  if (answer.limit) return ["bad", LIMITS[answer.limit](about.limits)];
  if (answer.status < 0) return ["bad", `The program ended by signal ${-answer.status}, and wrote nothing.`];
  if (answer.status === 0) {
    return [decision && decision.decision === "Deny" ? "deny" : "good", accepted(reply, decision, document)];
  }
  if (answer.status !== 1) return ["bad", STATUS[answer.status] || `The program ended with status ${answer.status}.`];
  const errors = findings.filter((finding) => finding.severity === "error").length;
  const reported = findings.length ? `: ${counted(errors, "error", "errors")}${warned(findings.length - errors)}` : "";
  return ["bad", `The policies are refused${reported}.`];
}

const warned = (count) => (count ? `, ${counted(count, "warning", "warnings")}` : "");

function accepted({ answer, findings }, decision, document) {
  const command = answer.words[0];
  if (command === "check" || command === "level") {
    const level = command === "level" ? ` at level ${answer.words[1]}` : "";
    return `The policies are accepted${level}: no errors${warned(findings.length)}.`;
  }
  if (command === "request") return conforms(document.request || {});
  if (command === "manifest") return "What the policies can read, for each type of requests:";
  if (command === "review") return "On which requests each policy can be true:";
  if (command === "list") return listed(answer.text.split("\n"));
  return decided(decision);
}

// The last line says whether more follow; behind it there is nothing.
function listed(lines) {
  const may = counted(lines.length - 2, "principal of the entities", "principals of the entities");
  return `${may} may do what is asked${lines.at(-2) === "more" ? ", and more follow" : ""}.`;
}

function conforms(request) {
  const known = ["principal", "action", "resource", "context"].filter((entry) => request[entry]).length;
  if (known === 4) return "The request and the entities conform to the schema.";
  if (known === 0) return "The entities conform to the schema; there is no request to test.";
  return "The entities conform to the schema, and so does what is known of the request.";
}

function decided({ decision, reasons, errors }) {
  const by = reasons.length ? `, by ${reasons.join("; ")}` : ": no permit is true";
  const failed = errors.length ? ` ${counted(errors.length, "policy", "policies")} failed and did not count.` : "";
  return `${decision}${by}.${failed}`;
}

const partName = (span) => `${span.part} ${span.line}:${span.column}`;

function lineOf(span, text) {
  const line = text.lastIndexOf("\n", span.start - 1) + 1;
  const start = Math.min(span.start, line + text.slice(line).search(/\S|$/));
  const newline = text.indexOf("\n", span.start);
  const end = newline < 0 ? text.length : newline;
  const from = Math.max(start, span.start - BEFORE);
  const to = Math.min(end, Math.max(span.end, span.start) + 60);
  return el("code", { class: "line" },
    el("span", { class: "number" }, `${span.line} `), from > start ? "…" : "", text.slice(from, span.start),
    el("mark", { class: span.kind }, text.slice(span.start, Math.min(span.end, end))),
    text.slice(Math.min(span.end, end), Math.max(to, span.end)).split("\n")[0], to < end ? "…" : "");
}

// A button that leads to a place in a text.
const goTo = (span, page, label) =>
  el("button", { type: "button", class: "go", on: { click: () => page.show(span) } }, label || partName(span));

function places(spans, page) {
  return spans.slice(0, 20).map((span) =>
    el("div", { class: "place" }, goTo(span, page), lineOf(span, page.textOf(span.part))));
}

function item(finding, page) {
  const spans = finding.spans.map((span) => ({ ...span, kind: finding.severity || "error" }));
  const kind = finding.kind ? [el("span", { class: "kind" }, finding.kind), ": "] : [];
  const place = finding.place ? `${finding.place}: ` : "";
  return el("li", { class: `finding ${finding.severity || "error"}` },
    el("p", {}, el("strong", {}, finding.severity || "fault"), " ", kind, place, finding.text),
    [finding.help, finding.hint].filter(Boolean).map((text) => el("p", { class: "help" }, "help: ", text)),
    places(spans, page));
}

// A list with its title; nothing where the list is empty.
export function findingList(title, found, page) {
  if (!found.length) return null;
  const left = `The first ${found.length} are reported; all are below, as the program wrote them.`;
  return el("section", {}, el("h3", {}, title),
    el("ol", { class: "findings" }, found.map((finding) => item(finding, page))),
    found.length >= MOST ? el("p", {}, left) : null);
}

function policyItem(id, page, spans, text) {
  const span = own(spans, id);
  const name = el("code", {}, id);
  return el("li", {}, span ? goTo(span, page, name) : name, text);
}

// What was left away or added where Cedar's texts were read.
export function noteList(found, page) {
  if (!found.length) return null;
  const reported = (note) => el("li", {}, note.spans.map((span) => goTo(span, page)), " ", note.text);
  return el("details", { class: "notes" },
    el("summary", {}, `${counted(found.length, "note", "notes")} on how Cedar’s texts were read`),
    el("ul", {}, found.map(reported)));
}

// The policies behind a decision, and those that failed.
export function decisionBox({ decision, reasons, errors }, spans, page) {
  const said = `Reasons, the ${decision === "Allow" ? "permits" : "forbids"} that are true:`;
  const none = "No permit is true, and no forbid: what nothing permits is denied.";
  return el("section", { class: "decision" },
    el("p", {}, reasons.length ? said : none),
    el("ul", { class: "reasons" }, reasons.map((id) => policyItem(id, page, spans, ""))),
    errors.length ? el("p", {}, "Policies that failed, and did not count:") : null,
    errors.length ? el("ul", {}, errors.map(([id, text]) => policyItem(id, page, spans, `: ${text}`))) : null);
}
