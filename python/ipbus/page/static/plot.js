// Curves of watched registers over the last ten minutes. A read that failed is a gap.

import { clock, element } from "./registers.js";

// The most and the fewest seconds that the curves show.
const MOST_SPAN = 600;
const LEAST_SPAN = 60;
const COLOURS = ["#0072b2", "#d55e00", "#009e73", "#cc79a7", "#e69f00", "#56b4e9", "#8c6d31", "#7f7f7f"];
const DASHES = [[], [6, 3], [2, 3], [8, 3, 2, 3]];
const MARGIN = { left: 76, right: 8, top: 8, bottom: 22 };

function extent(curves, from) {
  let least = Infinity;
  let most = -Infinity;
  for (const { samples } of curves) {
    for (const [at, value] of samples) {
      if (at < from || value === null) continue;
      least = Math.min(least, value);
      most = Math.max(most, value);
    }
  }
  if (least > most) return [0, 1];
  return least === most ? [least - 1, most + 1] : [least, most];
}

function axes(brush, width, height, [least, most], now, span) {
  brush.strokeStyle = brush.fillStyle = getComputedStyle(brush.canvas).color;
  brush.globalAlpha = 0.6;
  brush.font = "11px monospace";
  brush.textAlign = "right";
  for (const part of [0, 0.5, 1]) {
    const y = MARGIN.top + (1 - part) * (height - MARGIN.top - MARGIN.bottom);
    brush.fillText(String(Math.round(least + part * (most - least))), MARGIN.left - 6, y + 4);
    brush.fillRect(MARGIN.left, y, width - MARGIN.left - MARGIN.right, 0.5);
  }
  for (const part of [0, 0.5, 1]) {
    brush.textAlign = part === 0 ? "left" : part === 1 ? "right" : "center";
    brush.fillText(clock(now - span * (1 - part)), MARGIN.left + part * (width - MARGIN.left - MARGIN.right), height - 6);
  }
  brush.globalAlpha = 1;
}

function curve(brush, samples, place, isOldest) {
  brush.beginPath();
  let isDrawing = false;
  for (const [at, value] of samples) {
    if (isOldest(at)) continue;
    if (value === null) {
      isDrawing = false;
      continue;
    }
    const [x, y] = place(at, value);
    if (isDrawing) brush.lineTo(x, y);
    else brush.moveTo(x, y), brush.arc(x, y, 1, 0, 7), brush.moveTo(x, y);
    isDrawing = true;
  }
  brush.stroke();
}

export function plot(canvas, legend, curves, now) {
  const width = (canvas.width = Math.max(300, canvas.clientWidth * devicePixelRatio));
  const height = (canvas.height = Math.max(160, canvas.clientHeight * devicePixelRatio));
  const brush = canvas.getContext("2d");
  const oldest = Math.min(now, ...curves.filter(({ samples }) => samples.length).map(({ samples }) => samples[0][0]));
  const span = Math.min(MOST_SPAN, Math.max(LEAST_SPAN, now - oldest));
  const from = now - span;
  const [least, most] = extent(curves, from);
  axes(brush, width, height, [least, most], now, span);
  const place = (at, value) => [
    MARGIN.left + ((at - from) / span) * (width - MARGIN.left - MARGIN.right),
    MARGIN.top + (1 - (value - least) / (most - least)) * (height - MARGIN.top - MARGIN.bottom),
  ];
  brush.lineWidth = 1.5 * devicePixelRatio;
  legend.replaceChildren();
  curves.forEach(({ path, samples }, number) => {
    brush.strokeStyle = COLOURS[number % COLOURS.length];
    brush.setLineDash(DASHES[Math.floor(number / COLOURS.length) % DASHES.length]);
    curve(brush, samples, place, (at) => at < from);
    const entry = element("li", `— ${path}`);
    entry.style.color = brush.strokeStyle;
    legend.append(entry);
  });
}

// The words of a block, by their index.
export function bars(canvas, words) {
  const brush = canvas.getContext("2d");
  const most = words.reduce((so_far, word) => Math.max(so_far, word), 1);
  const step = canvas.width / words.length;
  brush.clearRect(0, 0, canvas.width, canvas.height);
  brush.fillStyle = COLOURS[0];
  words.forEach((word, index) => {
    const height = Math.max(1, (word / most) * (canvas.height - 2));
    brush.fillRect(index * step, canvas.height - height, Math.max(1, step - 1), height);
  });
}
