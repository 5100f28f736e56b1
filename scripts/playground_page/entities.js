// The entities of a document beside those of a slice: what is kept of each, and what is left out. All of it is read from
// the document and from the answer.
import { keyOf, memberName, own, printed } from "./values.js";

// A row for each attribute, or for each field where a record was kept in part.
function rows(name, value, kept, found) {
  const inner = value && value.record;
  if (inner && kept && kept.record && Object.keys(inner).length) {
    for (const [field, v] of Object.entries(inner)) {
      rows(`${name}.${memberName(field)}`, v, own(kept.record, field), found);
    }
  } else {
    found.push({ name, value: printed(kept === undefined ? value : kept), kept: kept !== undefined });
  }
  return found;
}

const allRows = (values, kept, label) =>
  Object.entries(values || {}).flatMap(([name, v]) => rows(label(name), v, own(kept, name), []));

class Entity {
  constructor(uid) {
    Object.assign(this, { uid, key: keyOf(uid), listed: false, kept: false, isAbove: false });
    Object.assign(this, { rows: [], parents: [], roles: [], ancestors: [] });
  }
}

export function entitiesOf(document, slice) {
  const found = new Map();
  const at = (uid) => found.get(keyOf(uid)) || found.set(keyOf(uid), new Entity(uid)).get(keyOf(uid));
  const kept = new Map(slice.map((entity) => [keyOf(entity.id), entity]));
  for (const entity of document.entities || []) {
    const here = at(entity.id), of = kept.get(here.key);
    here.listed = true;
    here.kept = Boolean(of);
    here.parents = (entity.parents || []).map((uid) => at(uid).key);
    here.rows = [
      ...allRows(entity.attrs, of && of.attrs, memberName),
      ...allRows(entity.tags, of && of.tags, (name) => `tag ${memberName(name)}`),
    ];
  }
  for (const entity of slice) {
    const here = at(entity.id);
    here.kept = true;
    here.ancestors = entity.ancestors.map((uid) => at(uid).key);
    for (const uid of entity.ancestors) at(uid).isAbove = true;
  }
  for (const role of ["principal", "action", "resource"]) {
    const uid = (document.request || {})[role];
    if (uid && (role !== "action" || found.has(keyOf(uid)))) at(uid).roles.push(role);
  }
  return found;
}

// All ancestors of an entity in the document.
export function ancestorsOf(entity, all) {
  const seen = new Set(), left = [...entity.parents];
  while (left.length) {
    const key = left.pop();
    if (!seen.has(key)) {
      seen.add(key);
      left.push(...all.get(key).parents);
    }
  }
  return seen;
}
