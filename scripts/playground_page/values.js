// Reads the JSON of documents and answers, and prints ids and values as Cedar does. Numbers stay as they are written.
const ESCAPES = { "\\": "\\\\", '"': '\\"', "\n": "\\n", "\r": "\\r", "\t": "\\t", "\0": "\\0" };
const PARTS = /"(?:[^"\\]|\\.)*"|-?\d[\d.eE+-]*/g;

// A number becomes {number: its digits}, which no value of a document is.
export function readJson(text) {
  return JSON.parse(text.replace(PARTS, (part) => (part[0] === '"' ? part : `{"number":"${part}"}`)));
}

export const quoted = (text) => `"${text.replace(/[\\"\n\r\t\0]/g, (c) => ESCAPES[c])}"`;
export const printedId = ([type, eid]) => `${type}::${quoted(eid)}`;
export const keyOf = (uid) => JSON.stringify(uid);

// A member of an object of JSON; undefined where there is none, whatever its name.
export const own = (object, name) => (object && Object.hasOwn(object, name) ? object[name] : undefined);

const isName = (text) => /^[A-Za-z_]\w*$/.test(text);
export const memberName = (name) => (isName(name) ? name : quoted(name));

export function printed(value) {
  if (typeof value === "string") return quoted(value);
  if (typeof value === "boolean") return String(value);
  if (Array.isArray(value)) return `[${value.map(printed).join(", ")}]`;
  if (value.number !== undefined) return value.number;
  if (value.id) return printedId(value.id);
  if (value.record) {
    return `{${Object.entries(value.record).map(([name, v]) => `${memberName(name)}: ${printed(v)}`).join(", ")}}`;
  }
  const [kind, of] = Object.entries(value)[0];
  return `${kind}(${of.number !== undefined ? of.number : quoted(of)})`;
}

export const clipped = (text, length) => (text.length > length ? `${text.slice(0, length - 1)}…` : text);
