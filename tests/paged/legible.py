"""What anybody must be able to read and to hit on a page in a browser: contrast, letters, targets."""

from typing import Dict

from paged.devtools import Tab

SCREENS = ((390, 844), (1024, 768), (1440, 900))
CONTRAST = 4.5  # to one, of a text and what is behind it: WCAG 2.2, success criterion 1.4.3
TARGET = 24  # pixels, either way, of what is pressed: success criterion 2.5.8
LETTERS = 12  # pixels of a letter
DRAWN = "new Promise((done) => requestAnimationFrame(() => requestAnimationFrame(() => done(true))))"

# Texts with less contrast than is wanted: the text, its contrast, where it stands. What lies behind a text is painted from the
# root to its element; what is disabled may be pale.
PALE = """
((least) => {
  const canvas = new OffscreenCanvas(1, 1).getContext('2d', { willReadFrequently: true });
  const parts = (colour) => {
    canvas.clearRect(0, 0, 1, 1);
    canvas.fillStyle = colour;
    canvas.fillRect(0, 0, 1, 1);
    const [red, green, blue, alpha] = canvas.getImageData(0, 0, 1, 1).data;
    return [red, green, blue, alpha / 255];
  };
  const over = (upper, lower) => {
    const alpha = upper[3] + lower[3] * (1 - upper[3]);
    const mixed = [0, 1, 2].map((at) => alpha && (upper[at] * upper[3] + lower[at] * lower[3] * (1 - upper[3])) / alpha);
    return [...mixed, alpha];
  };
  const luminance = (colour) => {
    const [red, green, blue] = colour.map((part) => part / 255).map((part) =>
      part <= 0.04045 ? part / 12.92 : ((part + 0.055) / 1.055) ** 2.4);
    return 0.2126 * red + 0.7152 * green + 0.0722 * blue;
  };
  const contrast = (one, colour) => {
    let behind = [0, 0, 0, 0];
    let text = parts(colour);
    for (let at = one; at; at = at.parentElement) {
      const style = getComputedStyle(at);
      const ground = parts(style.backgroundColor);
      behind = over(behind, ground);
      text = over(text, ground);
      behind[3] *= Number(style.opacity);
      text[3] *= Number(style.opacity);
    }
    const white = [255, 255, 255, 1];
    const [low, high] = [over(behind, white), over(text, white)].map(luminance).sort((a, b) => a - b);
    return (high + 0.05) / (low + 0.05);
  };
  const isShown = (one) => one.checkVisibility({ visibilityProperty: true, opacityProperty: true }) && !one.closest('.unseen, :disabled');
  const where = (one) => `${one.tagName.toLowerCase()} ${one.id || one.className} in ${one.closest('[id]')?.id}`;
  const found = [];
  const take = (one, colour, text) => {
    const ratio = contrast(one, colour);
    if (ratio < least) found.push([text.trim().slice(0, 30), Math.round(100 * ratio) / 100, where(one)]);
  };
  const walk = document.createTreeWalker(document.body, NodeFilter.SHOW_TEXT);
  while (walk.nextNode()) {
    const { data, parentElement } = walk.currentNode;
    if (data.trim() && isShown(parentElement)) take(parentElement, getComputedStyle(parentElement).color, data);
  }
  for (const input of document.querySelectorAll('input, textarea, select')) {
    if (!isShown(input) || ['checkbox', 'radio', 'file'].includes(input.type)) continue;
    if (input.value) take(input, getComputedStyle(input).color, input.value);
    else if (input.placeholder) take(input, getComputedStyle(input, '::placeholder').color, input.placeholder);
  }
  return found.slice(0, 8);
})(%s)
"""
SMALL = """
((least) => [...document.querySelectorAll('a[href], button, input, select, textarea, summary')]
  .filter((one) => one.checkVisibility({ visibilityProperty: true }) && one.getClientRects().length > 0)
  .map((one) => [one, [one, ...(one.labels ?? [])].map((part) => part.getBoundingClientRect())])
  .filter(([, parts]) => !parts.some(({ width, height }) => width >= least - 0.01 && height >= least - 0.01))
  .map(([one, [{ width, height }]]) => `${one.id || one.textContent.trim()}: ${width.toFixed(1)} x ${height.toFixed(1)}`))(%s)
"""
TINY = """
((least) => {
  const walk = document.createTreeWalker(document.body, NodeFilter.SHOW_TEXT);
  const found = new Set();
  while (walk.nextNode()) {
    const { data, parentElement } = walk.currentNode;
    const size = parseFloat(getComputedStyle(parentElement).fontSize);
    if (!data.trim() || size >= least - 0.01 || !parentElement.checkVisibility() || parentElement.closest('.unseen')) continue;
    found.add(`${parentElement.className || parentElement.id}: ${size.toFixed(1)} px`);
  }
  return [...found];
})(%s)
"""


def faults(tab: Tab) -> Dict[str, object]:
    """What is wrong on each screen, light and dark."""
    wrong: Dict[str, object] = {}
    for width, height in SCREENS:
        for dark in (False, True):
            tab.look(width, height, dark)
            tab.value(DRAWN)
            if pale := tab.value(PALE % CONTRAST):
                wrong[f"{width} px, {'dark' if dark else 'light'}: pale"] = pale
        if small := tab.value(SMALL % TARGET):
            wrong[f"{width} px: small to hit"] = small
        if tiny := tab.value(TINY % LETTERS):
            wrong[f"{width} px: small letters"] = tiny
    tab.look(1366, 768)
    return wrong
