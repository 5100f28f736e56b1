// What is copied, saved and opened.
import { byId, el, notice } from "./dom.js";

const FORMS = ["text", "json", "document"];

function download(name, text) {
  const address = URL.createObjectURL(new Blob([text], { type: "application/json" }));
  el("a", { href: address, download: name }).click();
  setTimeout(() => URL.revokeObjectURL(address), 1000);
}

const fileName = (page) => (page.example || "mine").replace(/.*\//, "");

export async function copy(page) {
  if (!page.reply || !page.reply.document) return notice("There is no document to copy: mend the faults first.");
  try {
    await navigator.clipboard.writeText(page.reply.document);
  } catch {
    return notice("The browser does not let it be copied; save it.");
  }
  return notice("The document is copied, as the program was given it.");
}

export function saveDocument(page) {
  if (!page.reply || !page.reply.document) return notice("There is no document to save: mend the faults first.");
  return download(`${fileName(page)}.palvumiose.json`, page.reply.document);
}

// All texts and the command, to be opened here again.
export function saveAll(page) {
  download(`${fileName(page)}.playground.json`, JSON.stringify({ playground: 1, ...page.job }, null, 1));
}

// What a file holds, by its text and its name: a part of Cedar's, a document, or what was saved here.
export function kindOf(name, text) {
  let value;
  try {
    value = JSON.parse(text);
  } catch {
    return kindOfText(name, text);
  }
  return kindOfJson(value);
}

function kindOfText(name, text) {
  if (name.endsWith(".cedarschema")) return "schema";
  if (name.endsWith(".cedar")) return "policies";
  const plain = text.replace(/\/\/[^\n]*/g, "").trimStart();
  if (/^(@\w+(\("[^"]*"\))?\s*)*(permit|forbid)\b/.test(plain)) return "policies";
  return /^(@\w+(\("[^"]*"\))?\s*)*(namespace|entity|action|type)\b/.test(plain) ? "schema" : "document";
}

function kindOfJson(value) {
  if (Array.isArray(value)) {
    if (value.some((one) => one && one.decision && one.request)) return "tests";
    return value.some((one) => one && (one.template_id || one.templateId)) ? "links" : "entities";
  }
  if (!value || typeof value !== "object") return "document";
  const has = (...names) => names.every((name) => Object.hasOwn(value, name));
  if (value.playground === 1 && value.parts) return "saved";
  if (has("schema")) return "document";
  if (has("effect") || has("staticPolicies")) return "policies";
  if (has("templateLinks")) return "links";
  if (has("principal", "action")) return "request";
  const isSpace = (one) => one && (one.entityTypes || one.actions);
  return Object.values(value).some(isSpace) ? "schema" : "document";
}

// Asks before texts are lost that were written here.
function mayReplace(page, names) {
  const lost = names.filter((name) => page.textOf(name).trim());
  if (!page.edited || !lost.length) return Promise.resolve(true);
  const dialog = byId("loss");
  byId("loss-text").textContent = `This replaces what is in ${lost.join(", ")}.`;
  dialog.returnValue = "no";
  dialog.showModal();
  return new Promise((done) => {
    dialog.addEventListener("close", () => done(dialog.returnValue === "yes"), { once: true });
  });
}

const CEDAR = ["policies", "schema", "entities", "request", "links", "tests"];

function forget(page) {
  page.example = null;
  byId("example").selectedIndex = -1;
  byId("request-label").hidden = true;
}

async function openWhole(page, kind, text) {
  if (!await mayReplace(page, page.form === "document" ? ["document"] : CEDAR)) return false;
  forget(page);
  if (kind === "document") page.fill("document", { document: text });
  else openSaved(page, JSON.parse(text));
  return true;
}

function openSaved(page, saved) {
  const texts = Object.fromEntries(Object.entries(saved.parts).filter(([, one]) => typeof one === "string"));
  if (typeof saved.command === "string") byId("commands").elements.command.value = saved.command;
  if (Number.isInteger(saved.level)) byId("level").value = saved.level;
  page.fill(FORMS.includes(saved.form) ? saved.form : "text", texts);
}

// Opens files, each into the part that it is; what was not written here makes room for them.
export async function open(page, files) {
  const read = await Promise.all([...files].map(async (file) => ({ name: file.name, text: await file.text() })));
  const opened = read.map((file) => ({ ...file, kind: kindOf(file.name, file.text) }));
  const whole = opened.find(({ kind }) => kind === "document" || kind === "saved");
  if (whole) {
    if (await openWhole(page, whole.kind, whole.text)) notice(`${whole.name} is opened.`);
    return;
  }
  const parts = new Map();
  for (const { kind, text } of opened) parts.set(kind, parts.has(kind) ? `${parts.get(kind)}\n${text}` : text);
  if (!parts.size || !await mayReplace(page, page.form === "document" ? ["document"] : [...parts.keys()])) return;
  const own = page.edited && page.form !== "document" ? page.parts : {};
  const form = page.form === "document" ? "text" : page.form;
  forget(page);
  page.fill(form, { ...own, ...Object.fromEntries(parts) });
  page.edited = true;
  page.pick(opened.at(-1).kind);
  notice(opened.map(({ name, kind }) => `${name} is opened as ${kind}.`).join(" "));
}

// Empty texts.
export async function empty(page) {
  if (!await mayReplace(page, page.form === "document" ? ["document"] : CEDAR)) return;
  forget(page);
  notice("");
  page.fill("text", {});
}
