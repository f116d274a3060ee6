// The words and numbers beside the picture: verdicts, what can be changed, and the text of clampcheck.

import { SIDE_NAMES, clampCount, clampOf } from "./job.mjs";
import { found, html, kept, set } from "./elements.mjs";
import { CLAMPS_MOST } from "./limits.mjs";
import { isClear, millimetres, summaryWords, verdictWords } from "./words.mjs";
import { scaleOf } from "./view.mjs";

const LONG_TEXT = 200000;
const RESTING = 250;

function drawVerdicts({ result, chosen }) {
  const items = kept(found("verdicts"), result.listed.length, (k) => html("li", { "data-clamp": k + 1 }, html("button", { type: "button" })));
  items.forEach((item, k) => {
    set(item, { "data-verdict": isClear(result.listed[k]) ? "clear" : "meets", "aria-current": k === chosen });
    item.firstElementChild.textContent = verdictWords(k + 1, result.listed[k]);
  });
  found("summary").textContent = summaryWords(result.listed);
}

const show = (id, steps) => {
  found(id).value = millimetres(steps);
};

function drawChosen({ job, chosen }) {
  found("clamp").disabled = chosen === null;
  found("delete").disabled = chosen === null;
  found("add").disabled = clampCount(job) === CLAMPS_MOST;
  found("clamp-name").textContent = chosen === null ? "No clamp is chosen" : `Clamp ${chosen + 1}, sides in mm`;
  const sides = chosen === null ? null : clampOf(job, chosen);
  SIDE_NAMES.forEach((side, k) => {
    if (sides === null) found(side).value = "";
    else show(side, sides[k]);
  });
}

function drawNumbers({ job, point }) {
  show("radius", job.radius);
  set(found("point"), { max: job.xs.length });
  found("point").value = point + 1;
  show("point-x", job.xs[point]);
  show("point-y", job.ys[point]);
}

// A very long text takes the browser a second to lay out, so it is shown when the hand rests; until then there is none, and not an older one.
let waiting = null;

function drawText(text) {
  clearTimeout(waiting);
  found("text").textContent = text.length > LONG_TEXT ? "" : text;
  if (text.length > LONG_TEXT) waiting = setTimeout(() => found("text").append(text), RESTING);
}

export function drawPanel(state, meanings) {
  drawVerdicts(state);
  drawChosen(state);
  drawNumbers(state);
  drawText(state.result.text);
  found("save-path").disabled = state.drawn.path === null;
  found("drawn").textContent = state.drawn.path === null
    ? `The curve is drawn through computed points, and cannot be saved as a path: ${meanings[state.drawn.refusal]}.`
    : "";
}

export function drawScale({ view }) {
  const { length, pixels } = scaleOf(view);
  found("scale-bar").style.width = `${pixels}px`;
  found("scale-words").textContent = `${length} mm`;
}

// Hands on what is typed, in steps of the grid; what is no number is not handed on.
export function listenToNumbers({ side, radius, choosePoint, point, unread }) {
  const typed = (id, handle) => found(id).addEventListener("change", (event) => {
    const number = event.target.valueAsNumber;
    if (Number.isFinite(number)) handle(number);
    else unread();
  });
  SIDE_NAMES.forEach((id, k) => typed(id, (number) => side(k, number)));
  typed("radius", radius);
  typed("point", choosePoint);
  ["point-x", "point-y"].forEach((id, axis) => typed(id, (number) => point(axis, number)));
}
