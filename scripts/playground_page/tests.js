// What has become of the tests of policies.
import { el } from "./dom.js";

function item({ name, wrong, spans }, page) {
  const go = spans.map((span) => el("button", { type: "button", class: "go", on: { click: () => page.show(span) } },
    `tests ${span.line}:${span.column}`));
  return el("li", { class: wrong ? "finding error" : "finding" },
    el("p", {}, el("strong", {}, wrong ? "✗ failed" : "✓ passed"), " ", name, wrong ? `: ${wrong}` : "", " ", go));
}

export function testList({ refused, results, coverage }, page) {
  if (refused) return el("p", {}, refused);
  const sorted = [...results].sort((a, b) => Boolean(b.wrong) - Boolean(a.wrong));
  return el("section", { id: "tests" }, el("ol", { class: "findings" }, sorted.map((one) => item(one, page))),
    el("ul", {}, coverage.map((line) => el("li", {}, line))));
}

// The summary of tests that were run.
export function testSummary({ refused, results }) {
  if (refused) return ["bad", "No test was run."];
  const failed = results.filter((one) => one.wrong).length;
  return failed ? ["bad", `${failed} of ${results.length} tests failed.`] : ["good", `All tests passed: ${results.length}.`];
}
