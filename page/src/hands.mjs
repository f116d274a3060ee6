// What the mouse, a finger and the keys do in the picture.

import { SIDE_NAMES, clampOf, withClamp, withPoint, withoutClamp } from "./job.mjs";
import { CLOSER, panned, toScreen, zoomed } from "./view.mjs";

const KEY_STEP = 100;
const FINE_STEP = 10;
const PAN = 40;
const ARROWS = { ArrowLeft: [-1, 0], ArrowRight: [1, 0], ArrowDown: [0, -1], ArrowUp: [0, 1] };

const moved = ([lowX, highX, lowY, highY], dx, dy) => [lowX + dx, highX + dx, lowY + dy, highY + dy];

// How far a pixel is from the middle between two places of the grid.
function fromMiddle(view, [x, y], [lowX, highX, lowY, highY]) {
  const [middleX, middleY] = toScreen(view, (lowX + highX) / 2, (lowY + highY) / 2);
  return Math.hypot(x - middleX, y - middleY);
}

// Where a control point lies on a clamp, the hand takes the one whose middle is nearer, or the point where it is the chosen one.
function grasped({ target, clientX, clientY }, place, desk) {
  const { job, view, point } = desk.state;
  const k = Number(target.dataset.point) - 1;
  if (!target.dataset.point || k === point) return target;
  const clamp = document.elementsFromPoint(clientX, clientY).find((one) => one.closest("#clamps"))?.closest("[data-clamp]");
  if (!clamp) return target;
  const [x, y, sides] = [job.xs[k], job.ys[k], clampOf(job, Number(clamp.dataset.clamp) - 1)];
  return fromMiddle(view, place, [x, x, y, y]) < fromMiddle(view, place, sides) ? target : clamp;
}

// What a drag that begins on this element does; it is told how far the hand went since then, in pixels.
function dragging(target, desk) {
  const { job, view, chosen } = desk.state;
  const inSteps = (handle) => (dx, dy) => handle(Math.round(dx / view.scale), Math.round(-dy / view.scale));
  const clamp = target.closest("[data-clamp]");
  if (target.dataset.side && chosen !== null) {
    const k = SIDE_NAMES.indexOf(target.dataset.side);
    const sides = clampOf(job, chosen);
    return inSteps((dx, dy) => desk.change(withClamp(job, chosen, sides.with(k, sides[k] + (k < 2 ? dx : dy)))));
  }
  if (target.dataset.point) {
    const k = Number(target.dataset.point) - 1;
    desk.choosePoint(k);
    return inSteps((dx, dy) => desk.change(withPoint(job, k, job.xs[k] + dx, job.ys[k] + dy)));
  }
  if (clamp) {
    const k = Number(clamp.dataset.clamp) - 1;
    clamp.focus({ preventScroll: true });
    desk.choose(k);
    return inSteps((dx, dy) => desk.change(withClamp(job, k, moved(clampOf(job, k), dx, dy))));
  }
  return (dx, dy) => desk.look(panned(view, dx, dy));
}

// Two fingers zoom, about the middle between them.
function pinching(fingers, desk, place) {
  const { view } = desk.state;
  const apart = () => {
    const [[ax, ay], [bx, by]] = [...fingers.values()].map(place);
    return { distance: Math.max(1, Math.hypot(ax - bx, ay - by)), x: (ax + bx) / 2, y: (ay + by) / 2 };
  };
  const began = apart();
  return () => {
    const now = apart();
    desk.look(panned(zoomed(view, now.distance / began.distance, began.x, began.y), now.x - began.x, now.y - began.y));
  };
}

function listenToPointer(element, desk) {
  const fingers = new Map();
  let drag = null;
  const place = (event) => {
    const { left, top } = element.getBoundingClientRect();
    return [event.clientX - left, event.clientY - top];
  };
  const begin = (event) => {
    const [x, y] = place(event);
    const go = dragging(grasped(event, [x, y], desk), desk);
    return (now) => go(place(now)[0] - x, place(now)[1] - y);
  };
  element.addEventListener("pointerdown", (event) => {
    if (event.button !== 0) return;
    fingers.set(event.pointerId, event);
    element.setPointerCapture(event.pointerId);
    drag = fingers.size === 2 ? pinching(fingers, desk, place) : begin(event);
  });
  element.addEventListener("pointermove", (event) => {
    if (!fingers.has(event.pointerId)) return;
    fingers.set(event.pointerId, event);
    drag?.(event);
  });
  const end = (event) => {
    fingers.delete(event.pointerId);
    drag = null;
  };
  element.addEventListener("pointerup", end);
  element.addEventListener("pointercancel", end);
  element.addEventListener("wheel", (event) => {
    event.preventDefault();
    desk.look(zoomed(desk.state.view, CLOSER ** (-event.deltaY / 100), ...place(event)));
  }, { passive: false });
}

function keyOnClamp(event, k, desk) {
  const { job } = desk.state;
  if (event.key === "Delete" || event.key === "Backspace") {
    desk.change(withoutClamp(job, k));
    desk.focusChosen();
    return true;
  }
  const [right, up] = ARROWS[event.key] ?? [];
  if (right === undefined) return false;
  const step = event.shiftKey ? FINE_STEP : KEY_STEP;
  desk.change(withClamp(job, k, moved(clampOf(job, k), right * step, up * step)));
  return true;
}

function keyOnPicture(event, desk) {
  const zoom = { "+": CLOSER, "=": CLOSER, "-": 1 / CLOSER }[event.key];
  const [right, up] = ARROWS[event.key] ?? [];
  if (zoom) desk.zoom(zoom);
  else if (event.key === "0") desk.showAll();
  else if (right !== undefined) desk.look(panned(desk.state.view, -right * PAN, up * PAN));
  else return false;
  return true;
}

function listenToKeys(element, desk) {
  element.addEventListener("keydown", (event) => {
    if (event.ctrlKey || event.altKey || event.metaKey) return;
    const clamp = event.target.closest("[data-clamp]");
    const done = (clamp && keyOnClamp(event, Number(clamp.dataset.clamp) - 1, desk)) || keyOnPicture(event, desk);
    if (done) event.preventDefault();
  });
  element.addEventListener("focusin", (event) => {
    const clamp = event.target.closest("[data-clamp]");
    if (clamp) desk.choose(Number(clamp.dataset.clamp) - 1);
  });
}

export function giveHands(element, desk) {
  listenToPointer(element, desk);
  listenToKeys(element, desk);
}
