// The elements of a page whose text does not stand out from what is behind it by 4.5 to 1: for test-playground-browser.
(() => {
  const parts = (color) => color.match(/[\d.]+/g).map(Number);
  const linear = (v) => (v <= 0.04045 ? v / 12.92 : ((v + 0.055) / 1.055) ** 2.4);
  const light = ([r, g, b]) => 0.2126 * linear(r / 255) + 0.7152 * linear(g / 255) + 0.0722 * linear(b / 255);
  const behind = (element) => {
    const color = parts(getComputedStyle(element).backgroundColor);
    return color.length < 4 || color[3] > 0.9 || !element.parentElement ? color : behind(element.parentElement);
  };
  const isOther = (element) => element.closest("noscript, .marks, svg, script, option");
  const isSeen = (element) => element.getClientRects().length && !isOther(element);
  const hasText = (element) => [...element.childNodes].some((node) => node.nodeType === 3 && node.data.trim());
  const found = new Set();
  for (const element of document.querySelectorAll("body *")) {
    if (!isSeen(element) || !hasText(element)) continue;
    const [a, b] = [light(parts(getComputedStyle(element).color)), light(behind(element))].sort((x, y) => y - x);
    if ((a + 0.05) / (b + 0.05) < 4.5) found.add(`${element.tagName}.${element.className}`);
  }
  return [...found];
})();
