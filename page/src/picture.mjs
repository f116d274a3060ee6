// Draws a job: the curve and the band of the cut, the control points, the clamps, and the spans that may meet them with their boxes.

import { boxOf } from "./checking.mjs";
import { clampsOf } from "./job.mjs";
import { kept, set, svg } from "./elements.mjs";
import { drawLabels } from "./labels.mjs";
import { transformOf } from "./view.mjs";
import { isClear, verdictWords } from "./words.mjs";

const STRIPE = 8;
const FEW = 120;

// A rectangle as a path, since one without width or height is seen only so.
const outline = ([lowX, highX, lowY, highY]) => `M ${lowX} ${lowY} H ${highX} V ${highY} H ${lowX} Z`;

const widened = ([lowX, highX, lowY, highY], radius) => [lowX - radius, highX + radius, lowY - radius, highY + radius];

const whole = (pieces) => `M ${pieces[0].from} ${pieces.map((piece) => piece.draw).join(" ")}`;

const alone = (pieces) => pieces.map((piece) => `M ${piece.from} ${piece.draw}`).join(" ");

const dots = (places) => places.map(({ x, y }) => `M ${x} ${y} h 0`).join(" ");

function clampElement(k) {
  return svg("g", { "data-clamp": k + 1, tabindex: 0, role: "button" }, svg("path", { class: "widened" }), svg("path", { class: "body" }));
}

// An empty picture in an SVG element.
export function pictureIn(element) {
  const stripes = svg("pattern", { id: "stripes", width: STRIPE, height: STRIPE, patternUnits: "userSpaceOnUse" },
    svg("rect", { width: STRIPE, height: STRIPE, fill: "#f7dcdc" }), svg("rect", { width: STRIPE / 2, height: STRIPE, fill: "#d98080" }));
  const band = svg("path", { class: "band" });
  const clamps = svg("g", { id: "clamps" });
  const boxes = svg("path", { class: "boxes" });
  const polygon = svg("path", { class: "polygon" });
  const curve = svg("path", { id: "curve", class: "curve" });
  const listed = svg("path", { class: "listed" });
  const marks = svg("path", { class: "marks" });
  const points = svg("g", { id: "points" });
  const world = svg("g", {}, clamps, band, boxes, polygon, curve, listed, marks, points);
  const labels = svg("g", { id: "labels", "aria-hidden": "true" });
  const handles = svg("g", { id: "handles" });
  element.replaceChildren(svg("defs", {}, stripes), world, labels, handles);
  return { element, stripes, band, clamps, boxes, polygon, curve, listed, marks, points, world, labels, handles };
}

// What changes with the curve and the radius.
export function drawCurve(picture, { job, drawn }) {
  set(picture.curve, { d: whole(drawn.pieces) });
  set(picture.band, { d: whole(drawn.pieces), "stroke-width": 2 * job.radius, display: job.radius === 0 ? "none" : null });
  set(picture.marks, { d: dots(drawn.marks) });
  const places = Array.from(job.xs, (x, k) => ({ x, y: job.ys[k] }));
  set(picture.polygon, { d: `M ${places.map(({ x, y }) => `${x} ${y}`).join(" L ")}` });
  set(picture.world, { class: places.length > FEW ? "many" : null });
  kept(picture.points, places.length, (k) => svg("path", { "data-point": k + 1 })).forEach((dot, k) => set(dot, { d: dots([places[k]]) }));
}

function drawClamp(element, k, sides, { job, result, chosen }) {
  const clear = isClear(result.listed[k]);
  const [around, body] = element.children;
  set(element, { class: `${clear ? "clear" : "meets"}${k === chosen ? " chosen" : ""}`, "aria-label": verdictWords(k + 1, result.listed[k]) });
  set(around, { d: outline(widened(sides, job.radius)) });
  set(body, { d: outline(sides) });
}

// What changes with the clamps and the verdicts: every listed span, and the boxes of those listed for the chosen clamp, or for any.
export function drawClamps(picture, state) {
  const { job, drawn, result } = state;
  const sides = clampsOf(job);
  kept(picture.clamps, sides.length, clampElement).forEach((element, k) => drawClamp(element, k, sides[k], state));
  const placesOf = (listed) => {
    const lows = new Set(listed.map(([low]) => low));
    return drawn.spans.flatMap(([low], k) => (lows.has(low) ? [k] : []));
  };
  const all = result.listed.flat();
  const boxed = placesOf(state.chosen === null ? all : result.listed[state.chosen]);
  set(picture.listed, { d: alone(placesOf(all).map((k) => drawn.pieces[k])) });
  set(picture.boxes, { d: boxed.map((k) => outline(boxOf(drawn, k))).join(" ") });
}

export function markPoint(picture, chosen) {
  for (const dot of picture.points.children) set(dot, { class: Number(dot.dataset.point) === chosen + 1 ? "chosen" : null });
}

// What changes with the view: all places, and what keeps its size on the screen.
export function placePicture(picture, state) {
  set(picture.world, { transform: transformOf(state.view) });
  set(picture.stripes, { patternTransform: `scale(${1 / state.view.scale}) rotate(45)` });
  drawLabels(picture, state);
}

// The box round everything that is drawn, in steps of the grid.
export const boxOfAll = (picture) => picture.world.getBBox();
