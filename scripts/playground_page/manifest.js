// A manifest as a tree for each type of requests. What is read has its level: how many steps from the request the
// entity is that has it, counted along the path by the schema's types, as docs/FORMAT.md says under Levels.
import { counted, el } from "./dom.js";
import { keyOf, memberName, own, printedId } from "./values.js";

const MOST = 200;
const plain = (type) => (type && type.optional !== undefined ? type.optional : type);

class Types {
  constructor(schema) {
    this.types = schema.entityTypes || {};
    this.actions = new Map((schema.actions || []).map((action) => [keyOf(action.id), action]));
  }

  // The type of what requests of a type begin with.
  ofKey(key, kind) {
    if (key.literal) return { entity: key.literal[0] };
    if (key.var === "context") return { record: (this.actions.get(keyOf(kind.action)) || {}).context || {} };
    return { entity: key.var === "action" ? kind.action[0] : kind[key.var] };
  }

  field(type, name) {
    if (!type || !(type.record || type.entity)) return null;
    const members = type.record || (own(this.types, type.entity) || {}).attributes;
    return plain(own(members, name)) || null;
  }

  tags(type) {
    return type && type.entity ? plain((own(this.types, type.entity) || {}).tags) : null;
  }
}

const below = (level, type) => (level === null || !type ? null : type.entity ? level + 1 : level);

function badge(level) {
  if (level === null) return el("span", { class: "level none" }, "by id");
  return el("span", { class: `level level-${Math.min(level, 5)}` }, `level ${level}`);
}

// The paths of a trie that end at ancestors, as texts.
function ancestorPaths(trie) {
  const found = [];
  const walk = (node, path) => {
    if (node.isAncestor) found.push(path);
    for (const [name, child] of node.children) walk(child, `${path}.${memberName(name)}`);
    for (const tag of node.tags || []) walk(tag, `${path}.(any tag)`);
  };
  for (const [key, node] of trie.trie) walk(node, key.literal ? printedId(key.literal) : key.var);
  return found;
}

function branch(label, node, type, level, types) {
  const deeper = below(level, type);
  const asked = ancestorPaths(node.ancestorsTrie);
  const children = [
    ...node.children.map(([name, child]) => branch(memberName(name), child, types.field(type, name), deeper, types)),
    ...(node.tags || []).map((tag) => branch("any tag", tag, types.tags(type), deeper, types)),
    ...asked.map((path) => el("li", {}, el("span", { class: "in" }, "in "), el("code", {}, path), " ", badge(deeper))),
  ];
  return el("li", {}, el("code", {}, label), " ", badge(level), children.length ? el("ul", {}, children) : null);
}

function deepest(tree) {
  const badges = [...tree.querySelectorAll(".level:not(.none)")];
  return Math.max(0, ...badges.map((one) => Number(one.textContent.slice("level ".length))));
}

function requestType([kind, root], types, isOpen, isOwn) {
  const begun = ([key, node]) =>
    branch(key.literal ? printedId(key.literal) : key.var, node, types.ofKey(key, kind), key.literal ? null : 0, types);
  const tree = el("ul", { class: "tree" }, root.trie.map(begun));
  const name = `${printedId(kind.action)}: ${kind.principal} on ${kind.resource}`;
  const reported = root.trie.length ? `reads to level ${deepest(tree)}` : "reads nothing";
  return el("details", { class: "kind-of-request", open: isOpen },
    el("summary", {}, el("code", {}, name), " ",
      el("span", { class: "quiet" }, reported + (isOwn ? ", the request’s own type" : ""))),
    root.trie.length ? tree : el("p", { class: "quiet" }, "The policies read nothing here."));
}

export function manifestTrees(manifest, document) {
  const types = new Types(document.schema), { principal, action, resource } = document.request || {};
  const isOwn = (kind) => Boolean(principal && action && resource) && keyOf(kind.action) === keyOf(action)
    && kind.principal === principal[0] && kind.resource === resource[0];
  const has = manifest.perAction.some(([kind]) => isOwn(kind));
  const shown = manifest.perAction.slice(0, MOST), left = manifest.perAction.length - shown.length;
  const isOpen = (kind, i) => (has ? isOwn(kind) : i < 2);
  const trees = shown.map((entry, i) => requestType(entry, types, isOpen(entry[0], i), isOwn(entry[0])));
  return el("section", { class: "manifest" },
    el("h3", {}, `${counted(manifest.perAction.length, "type", "types")} of requests`),
    el("p", { class: "quiet" }, "A level says how many steps from the request the entities are that are read: ",
      [0, 1, 2, 3].map((level) => [badge(level), " "]).flat(), badge(null), " an id that a policy names."),
    trees, left ? el("p", {}, `${left} more are below, as the program wrote them.`) : null);
}
