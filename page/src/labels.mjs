// The words in the picture and the handles of the chosen clamp: they keep their size whatever the zoom.

import { clampOf, clampsOf } from "./job.mjs";
import { kept, set, svg } from "./elements.mjs";
import { toScreen } from "./view.mjs";
import { isClear } from "./words.mjs";

const APART = [26, 14];
const WIDE_ENOUGH = 70;
const LABEL_BELOW = 15;
const HANDLE = 12;

// Those labels that stand on none before them: what comes first is shown first.
function apart(labels) {
  const taken = new Set();
  const cells = ({ x, y }) => {
    const [column, row] = [Math.floor(x / APART[0]), Math.floor(y / APART[1])];
    return [-1, 0, 1].flatMap((right) => [-1, 0, 1].map((down) => `${column + right} ${row + down}`));
  };
  return labels.filter((label) => {
    const around = cells(label);
    if (label.class === "mark" && around.some((cell) => taken.has(cell))) return false;
    taken.add(around[4]);
    return true;
  });
}

// The numbers of the marks, both ends of the curve first.
function markLabels({ drawn, view }) {
  const labels = drawn.marks.map(({ t, x, y }) => {
    const [atX, atY] = toScreen(view, x, y);
    return { x: atX + 6, y: atY - 8, text: String(t), class: "mark" };
  });
  return [labels[0], labels[labels.length - 1], ...labels.slice(1, -1)];
}

// Under the widened outline, the number of a clamp, with its verdict in words where there is room and as a sign where there is not.
const clampLabels = ({ job, result, view }) => clampsOf(job).map(([lowX, highX, lowY], k) => {
  const [x, y] = toScreen(view, (lowX + highX) / 2, lowY - job.radius);
  const roomy = (highX - lowX + 2 * job.radius) * view.scale >= WIDE_ENOUGH;
  const clear = isClear(result.listed[k]);
  const verdict = roomy ? (clear ? "clear" : "may meet") : clear ? "✓" : "!";
  return { x, y: y + LABEL_BELOW, text: `${k + 1} ${verdict}`, class: "clamp-label", "text-anchor": "middle" };
});

// Handles stand outside the clamp, so that a small one can still be grasped by its middle.
function handlePlaces({ job, chosen, view }) {
  if (chosen === null) return [];
  const [lowX, highX, lowY, highY] = clampOf(job, chosen);
  const [[left, bottom], [right, top]] = [toScreen(view, lowX, lowY), toScreen(view, highX, highY)];
  const [middleX, middleY] = [(left + right) / 2, (bottom + top) / 2];
  return [["left", left - HANDLE, middleY], ["right", right + HANDLE, middleY], ["bottom", middleX, bottom + HANDLE], ["top", middleX, top - HANDLE]];
}

export function drawLabels(picture, state) {
  const labels = apart([...clampLabels(state), ...markLabels(state)]);
  kept(picture.labels, labels.length, () => svg("text", { "pointer-events": "none" })).forEach((label, k) => {
    const { text, ...attributes } = labels[k];
    set(label, { "text-anchor": null, ...attributes });
    if (label.textContent !== text) label.textContent = text;
  });
  const handles = handlePlaces(state);
  kept(picture.handles, handles.length, () => svg("rect", { width: HANDLE, height: HANDLE })).forEach((handle, k) => {
    const [side, x, y] = handles[k];
    set(handle, { "data-side": side, x: x - HANDLE / 2, y: y - HANDLE / 2 });
  });
}
