// Measures the page that it is appended to: what is wider than it, which labels overlap, which text is hard to read.
// Tells the page around it.
(() => {
  const found = [];
  const say = (what, one) => found.push(what + ": " + one.textContent.trim().slice(0, 60));
  const root = document.documentElement;
  if (root.scrollWidth > root.clientWidth) found.push("the page is " + root.scrollWidth + " wide on a screen of " + root.clientWidth);
  for (const details of document.querySelectorAll("details")) details.open = details.classList.contains("more");
  const inScroller = (one) => one.closest(".scroller") !== null;
  for (const section of document.querySelectorAll("section")) {
    const right = section.getBoundingClientRect().right, left = section.getBoundingClientRect().left;
    for (const one of section.querySelectorAll("p, li, h2, h3, dt, dd, text, .time, .large, .chip, .talk, .card")) {
      const box = one.getBoundingClientRect();
      if (!inScroller(one) && box.width > 0 && (box.right > right + 0.5 || box.left < left - 0.5)) say("outside its section", one);
    }
  }
  for (const svg of document.querySelectorAll("svg")) {
    const texts = [...svg.querySelectorAll("text")].map((one) => [one, one.getBoundingClientRect()]);
    texts.forEach(([one, a], index) => {
      for (const [other, b] of texts.slice(index + 1)) {
        const wide = Math.min(a.right, b.right) - Math.max(a.left, b.left), high = Math.min(a.bottom, b.bottom) - Math.max(a.top, b.top);
        if (wide > 0.5 && high > 3) say("overlaps " + other.textContent, one);
      }
    });
  }
  for (const row of document.querySelectorAll(".talk summary")) {
    const time = row.querySelector(".time").getBoundingClientRect();
    for (const one of row.querySelectorAll("text")) if (one.getBoundingClientRect().left < time.left) say("overlaps the time", one);
  }
  const numbers = (color) => (color.match(/[\d.]+/g) || []).map(Number);
  const light = (color) => {
    const [r, g, b] = numbers(color).map((it) => it / 255).map((it) => it <= 0.04045 ? it / 12.92 : ((it + 0.055) / 1.055) ** 2.4);
    return 0.2126 * r + 0.7152 * g + 0.0722 * b;
  };
  const ground = (one) => {
    for (let it = one; it; it = it.parentElement) {
      const color = getComputedStyle(it).backgroundColor, parts = numbers(color);
      if (parts.length === 3 || parts[3] === 1) return color;
    }
    return "rgb(255, 255, 255)";
  };
  const seen = new Set();
  for (const one of document.querySelectorAll("body *")) {
    if (![...one.childNodes].some((it) => it.nodeType === 3 && it.textContent.trim()) || one.closest("title, script, pre")) continue;
    const style = getComputedStyle(one), color = one.closest("svg") ? style.fill : style.color, behind = ground(one);
    if (seen.has(color + behind)) continue;
    seen.add(color + behind);
    const [low, high] = [light(color), light(behind)].sort((a, b) => a - b);
    const ratio = (high + 0.05) / (low + 0.05);
    if (ratio < 4.5) say("contrast " + ratio.toFixed(2) + " of " + color + " on " + behind, one);
  }
  const dark = matchMedia("(prefers-color-scheme: dark)").matches;
  parent.postMessage(JSON.stringify({ found, dark, width: innerWidth, colours: seen.size }), "*");
})();
