// Makes elements: el("p", {class: "quiet"}, "text", child). A property `on` has listeners by their events.
const SVG = "http://www.w3.org/2000/svg";

function made(element, properties, children) {
  for (const [name, value] of Object.entries(properties || {})) {
    if (name === "on") {
      for (const [event, listener] of Object.entries(value)) element.addEventListener(event, listener);
    } else if (value !== null && value !== undefined && value !== false) {
      element.setAttribute(name, value === true ? "" : value);
    }
  }
  element.append(...children.flat().filter((child) => child !== null && child !== undefined));
  return element;
}

export const el = (tag, properties, ...children) => made(document.createElement(tag), properties, children);
export const svg = (tag, properties, ...children) => made(document.createElementNS(SVG, tag), properties, children);
export const byId = (id) => document.getElementById(id);
export const chosen = (name) => document.querySelector(`input[name=${name}]:checked`).value;
export const counted = (number, one, many) => `${number} ${number === 1 ? one : many}`;

// Says something beside the answer.
export function notice(text) {
  byId("notice").textContent = text;
}
