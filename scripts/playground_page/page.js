// The page: fields on the left, the answer on the right. Each change asks the server of this page for an answer.
import { byId, chosen, el, notice } from "./dom.js";
import { Editor } from "./editor.js";
import { entitiesOf } from "./entities.js";
import { copy, empty, open, saveAll, saveDocument } from "./files.js";
import { entityGraph } from "./graph.js";
import { manifestTrees } from "./manifest.js";
import { reviewTable } from "./review.js";
import { testList, testSummary } from "./tests.js";
import { decisionBox, findingList, noteList, summary } from "./reported.js";
import { own, readJson } from "./values.js";

const WAIT = 300;
const FIRST = "cedar/tinytodo";
const CEDAR = ["policies", "schema", "entities", "request", "links", "tests"];
const COMMANDS = {
  check: "what is wrong with the policies",
  level: "and whether they read N or more steps from the request",
  review: "on which types of requests each policy can be true, and the least level of each",
  request: "whether request and entities conform to the schema",
  manifest: "what the policies can read, for each type of requests",
  slice: "the decision, and the entities that are enough for it",
  decide: "the decision on all entities",
  list: "which principals of the entities may do what is asked, 100 at most",
  test: "whether the tests in the part of this name pass, and which policies they reach",
};

class Page {
  constructor({ examples, about }) {
    this.examples = new Map(examples.map((example) => [example.name, example]));
    this.about = about;
    this.asked = 0;
    this.form = "text";
    this.editors = new Map([...CEDAR, "document"].map((part) => [part, new Editor(part, part, () => this.changed())]));
  }

  get parts() {
    const names = this.form === "document" ? ["document"] : CEDAR;
    return Object.fromEntries(names.map((name) => [name, this.textOf(name)]));
  }

  get job() {
    return { form: this.form, parts: this.parts, command: chosen("command"), level: Number(byId("level").value) || 0 };
  }

  textOf(part) {
    return this.editors.get(part).text;
  }

  // The fields.

  fill(form, parts) {
    this.form = form;
    byId("tools").elements.form.value = form;
    for (const [part, editor] of this.editors) editor.text = parts[part] || "";
    this.edited = false;
    this.tabs();
    this.ask();
  }

  tabs() {
    const names = this.form === "document" ? ["document"] : CEDAR;
    const tab = (part) => el("button", {
      type: "button", role: "tab", id: `tab-${part}`, "aria-controls": `panel-${part}`,
      on: { click: () => this.pick(part), keydown: (event) => this.step(event, names) },
    }, part);
    const panel = (part) => el("div", { role: "tabpanel", id: `panel-${part}`, "aria-labelledby": `tab-${part}` },
      this.editors.get(part).box);
    byId("tabs").replaceChildren(...names.map(tab));
    byId("panels").replaceChildren(...names.map(panel));
    this.pick(names.includes(this.part) ? this.part : names[0]);
  }

  pick(part) {
    this.part = part;
    for (const tab of byId("tabs").children) {
      const isPicked = tab.id === `tab-${part}`;
      tab.setAttribute("aria-selected", String(isPicked));
      tab.tabIndex = isPicked ? 0 : -1;
      byId(tab.getAttribute("aria-controls")).hidden = !isPicked;
    }
    this.editors.get(part).follow();
  }

  // The arrow keys go from tab to tab.
  step(event, names) {
    const at = names.indexOf(this.part);
    const to = { ArrowRight: at + 1, ArrowLeft: at - 1, Home: 0, End: names.length - 1 }[event.key];
    if (to === undefined) return;
    event.preventDefault();
    this.pick(names[(to + names.length) % names.length]);
    byId(`tab-${this.part}`).focus();
  }

  show(span) {
    this.pick(span.part);
    this.editors.get(span.part).show(span);
  }

  changed() {
    this.edited = true;
    clearTimeout(this.timer);
    this.timer = setTimeout(() => this.ask(), WAIT);
  }

  // The examples and the forms.

  async load(name, request = 0) {
    const example = this.examples.get(name), wanted = chosen("form");
    this.example = name;
    byId("example").value = name;
    byId("request").replaceChildren(...example.requests.map(({ title }, i) => el("option", { value: i }, title)));
    byId("request-label").hidden = !example.requests.length;
    byId("request").value = request;
    this.part = null;
    notice("");
    if (example.forms[wanted]) return this.fill(wanted, this.withRequest(example.forms[wanted]));
    const own = Object.keys(example.forms)[0], parts = this.withRequest(example.forms[own]);
    const reply = await this.send("convert", { form: own, parts, to: wanted });
    return reply && reply.parts ? this.fill(wanted, reply.parts) : this.fill(own, parts);
  }

  withRequest(parts) {
    const { requests } = this.examples.get(this.example);
    return requests.length ? { ...parts, request: requests[Number(byId("request").value)].text } : parts;
  }

  // Another request of the example: in Cedar's forms the other texts stay as they are.
  chooseRequest() {
    if (this.form === "document") return this.load(this.example, byId("request").value);
    this.editors.get("request").text = this.withRequest({}).request;
    return this.ask();
  }

  async turn(to) {
    const own = this.examples.get(this.example);
    notice("");
    if (own && !this.edited && own.forms[to]) return this.fill(to, this.withRequest(own.forms[to]));
    const reply = await this.send("convert", { form: this.form, parts: this.parts, to });
    if (reply && reply.parts) {
      const { edited } = this;
      this.fill(to, { ...reply.parts, tests: this.textOf("tests") });
      this.edited = edited;
      return notice("The same in another form; comments and annotations other than @id are left away.");
    }
    byId("tools").elements.form.value = this.form;
    return notice(reply ? `This can’t be turned: ${reply.faults.map((fault) => fault.text).join("; ")}` : "");
  }

  // The answer.

  async send(path, job) {
    try {
      const headers = { "Content-Type": "application/json" };
      const sent = await fetch(path, { method: "POST", headers, body: JSON.stringify(job) });
      const reply = await sent.json();
      if (sent.ok) return reply;
      this.fail(reply.refused);
    } catch {
      this.fail("scripts/playground has ended, or can’t be reached: start it again.");
    }
    return null;
  }

  fail(text) {
    byId("summary").className = "summary bad";
    byId("summary").textContent = text;
    byId("reported").replaceChildren();
    byId("written").textContent = "";
  }

  async ask() {
    clearTimeout(this.timer);
    const turn = ++this.asked;
    byId("command-text").textContent = COMMANDS[chosen("command")];
    byId("level-label").hidden = chosen("command") !== "level";
    document.body.dataset.busy = "yes";
    const reply = await this.send("answer", this.job);
    if (turn !== this.asked) return;
    this.reply = reply;
    if (reply) this.tell(reply);
    document.body.dataset.busy = "no";
    document.body.dataset.turn = turn;
  }

  tell(reply) {
    const { answer } = reply, command = answer && answer.words[0];
    const is = (...names) => answer && !answer.limit && answer.status === 0 && names.includes(command);
    const decision = is("slice", "decide") ? readJson(answer.text) : null;
    const document = is("request", "slice", "manifest") ? readJson(reply.document) : null;
    const [kind, text] = reply.tests ? testSummary(reply.tests) : summary(reply, decision, document, this.about);
    byId("summary").className = `summary ${kind}`;
    byId("summary").textContent = text;
    const reported = [
      findingList("Faults", reply.faults, this),
      findingList("Findings", reply.findings, this),
      decision ? decisionBox(decision, reply.policies, this) : null,
      is("slice") ? entityGraph(entitiesOf(document, decision.slice)) : null,
      is("manifest") ? manifestTrees(readJson(answer.text), document) : null,
      is("review") && reply.review ? reviewTable(reply.review) : null,
      reply.tests ? testList(reply.tests, this) : null,
      findingList("Likely mistakes, by scripts/lint", reply.warnings, this),
      noteList(reply.notes, this),
    ];
    byId("reported").replaceChildren(...reported.filter(Boolean));
    this.write(answer);
    this.underline(reply, decision);
  }

  // The answer as it was written.
  write(answer) {
    byId("written").textContent = answer ? answer.text : "";
    byId("written-title").textContent = answer ? howRun(answer) : "The program was not asked";
  }

  // Underlines what the answer is about, and says at each tab how much.
  underline(reply, decision) {
    const reported = [...reply.faults, ...reply.findings, ...reply.warnings];
    const found = reported.flatMap((one) => one.spans.map((span) => ({ ...span, kind: one.severity || "error" })));
    const reasons = (decision ? decision.reasons : []).map((id) => own(reply.policies, id)).filter(Boolean);
    const marked = [...found, ...reasons.map((span) => ({ ...span, kind: "reason" }))];
    for (const [part, editor] of this.editors) {
      editor.mark(marked.filter((span) => span.part === part));
      const tab = byId(`tab-${part}`), count = found.filter((span) => span.part === part).length;
      if (tab) tab.replaceChildren(part, count ? counter(count) : "");
    }
  }
}

const howRun = ({ words, status, seconds }) =>
  `As the program wrote it: ${words.join(" ")}, status ${status}, ${Math.round(seconds * 1000)} ms`;

const counter = (count) =>
  el("span", { class: "count" }, ` ${count} ⚠`, el("span", { class: "unseen" }, " places to look at"));

function listen(page) {
  byId("example").addEventListener("change", (event) => page.load(event.target.value));
  for (const button of byId("starts").querySelectorAll("button[data-example]")) {
    button.addEventListener("click", () => {
      byId("commands").elements.command.value = button.dataset.command;
      page.load(button.dataset.example);
    });
  }
  byId("request").addEventListener("change", () => page.chooseRequest());
  for (const input of byId("tools").elements.form) input.addEventListener("change", () => page.turn(input.value));
  for (const input of byId("commands").elements.command) input.addEventListener("change", () => page.ask());
  byId("level").addEventListener("input", () => page.ask());
  for (const form of document.forms) form.addEventListener("submit", (event) => event.preventDefault());
  byId("copy").addEventListener("click", () => copy(page));
  byId("save-document").addEventListener("click", () => saveDocument(page));
  byId("save").addEventListener("click", () => saveAll(page));
  byId("open").addEventListener("click", () => byId("file").click());
  byId("file").addEventListener("change", async (event) => {
    await open(page, event.target.files);
    event.target.value = "";
  });
  byId("empty").addEventListener("click", () => empty(page));
  for (const button of byId("loss").querySelectorAll("button")) {
    button.addEventListener("click", () => byId("loss").close(button.value));
  }
  listenToDrops(page);
}

// Files that are dropped anywhere are opened.
function listenToDrops(page) {
  document.addEventListener("dragover", (event) => event.preventDefault());
  document.addEventListener("drop", (event) => {
    event.preventDefault();
    if (event.dataTransfer.files.length) open(page, event.dataTransfer.files);
  });
}

function offer(page) {
  const groups = new Map();
  for (const { name, title, group } of page.examples.values()) {
    if (!groups.has(group)) groups.set(group, el("optgroup", { label: group }));
    groups.get(group).append(el("option", { value: name }, title));
  }
  byId("example").replaceChildren(...groups.values());
}

function tellAbout({ name, version, note, limits }) {
  const program = `${name}${version ? `, version ${version},` : ""}`;
  const most = `in at most ${limits.seconds} s and ${limits.mebibytes} MiB each time`;
  byId("about").textContent = `${program} answers, ${most}. ${note} `
    + "This page draws what it writes, proves nothing, and keeps nothing.";
}

async function begin() {
  const sent = await fetch("examples"), given = await sent.json();
  if (!sent.ok) throw new Error(given.refused);
  const page = new Page(given);
  offer(page);
  listen(page);
  tellAbout(page.about);
  window.playground = page; // for a look from the browser's console, and for tests
  await page.load(FIRST);
}

begin().catch((fault) => {
  byId("summary").className = "summary bad";
  byId("summary").textContent = `The page can’t begin: ${fault.message}`;
});
