// A field for one text: lines are numbered, and spans of it are underlined behind the text.
import { el } from "./dom.js";

const LINE_HEIGHT = 20;

export class Editor {
  constructor(part, label, changed) {
    this.part = part;
    this.marks = el("div", { class: "marks" });
    this.numbers = el("div", { class: "numbers" });
    this.area = el("textarea", {
      "aria-label": label, spellcheck: "false", autocomplete: "off", autocapitalize: "off", wrap: "off",
      on: { input: () => { this.mark([]); changed(); }, scroll: () => this.follow() },
    });
    this.box = el("div", { class: "editor" },
      el("div", { class: "gutter", "aria-hidden": "true" }, this.numbers),
      el("div", { class: "field" }, el("div", { class: "behind", "aria-hidden": "true" }, this.marks), this.area));
    this.spans = [];
  }

  get text() {
    return this.area.value;
  }

  set text(text) {
    this.area.value = text;
    this.area.scrollTop = this.area.scrollLeft = 0;
    this.mark([]);
  }

  // Underlines spans, each with a start, an end and a kind: error, warning or reason.
  mark(spans) {
    const text = this.text;
    this.marks.replaceChildren(...pieces(text, spans), "\n");
    this.spans = spans;
    const lines = text.split("\n").length;
    if (lines !== this.lines) {
      this.lines = lines;
      this.numbers.textContent = Array.from({ length: lines }, (_, i) => i + 1).join("\n");
    }
    this.follow();
  }

  follow() {
    const { scrollLeft, scrollTop } = this.area;
    this.marks.style.transform = `translate(${-scrollLeft}px, ${-scrollTop}px)`;
    this.numbers.style.transform = `translateY(${-scrollTop}px)`;
  }

  // Puts the focus on a span, and brings it into sight.
  show(span) {
    this.area.focus({ preventScroll: true });
    this.area.setSelectionRange(span.start, span.end);
    this.scrollTo(span);
    this.area.scrollIntoView({ block: "nearest" });
  }

  scrollTo(span) {
    this.area.scrollTop = Math.max(0, (span.line - 4) * LINE_HEIGHT);
    this.area.scrollLeft = span.column > 60 ? (span.column - 20) * 7.5 : 0;
  }
}

// The text in pieces, those of spans as marks; where spans overlap, what an earlier one has stays its own.
function pieces(text, spans) {
  const found = [];
  let at = 0;
  for (const span of [...spans].sort((a, b) => a.start - b.start || a.end - b.end)) {
    const start = Math.max(span.start, at);
    if (span.end <= start) continue;
    found.push(text.slice(at, start), el("mark", { class: span.kind }, text.slice(start, span.end)));
    at = span.end;
  }
  found.push(text.slice(at));
  return found;
}
