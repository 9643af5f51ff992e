// Texts on the page that are hard to read: those whose colour stands out from what is behind them by less than 4.5 to 1.

// Runs in the page, and answers each such text with its contrast.
function faintTexts() {
  const LEAST = 4.5;
  const parts = (colour) => colour.match(/[\d.]+/g).map(Number);
  const linear = (value) => (value <= 10 ? value / 255 / 12.92 : ((value / 255 + 0.055) / 1.055) ** 2.4);
  const light = ([red, green, blue]) => 0.2126 * linear(red) + 0.7152 * linear(green) + 0.0722 * linear(blue);
  const behind = (element) => {
    for (let one = element; one; one = one.parentElement) {
      const [red, green, blue, cover = 1] = parts(getComputedStyle(one).backgroundColor);
      if (cover > 0.9) return [red, green, blue];
    }
    return [255, 255, 255];
  };
  const found = [], walk = document.createTreeWalker(document.body, NodeFilter.SHOW_TEXT);
  while (walk.nextNode()) {
    const text = walk.currentNode.data.trim(), element = walk.currentNode.parentElement, style = getComputedStyle(element);
    if (text === "" || element.getClientRects().length === 0 || element.closest(":disabled, option, script, style")) continue;
    const [one, other] = [light(parts(element.closest("svg") ? style.fill : style.color)), light(behind(element))].sort((a, b) => b - a);
    const contrast = (one + 0.05) / (other + 0.05);
    if (contrast < LEAST) found.push(`${text.slice(0, 30)} ${contrast.toFixed(2)}`);
  }
  return found;
}

export const FAINT_TEXTS = `(${faintTexts})()`;
