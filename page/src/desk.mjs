// The job on the page, and the one way to change it: what the library refuses is not taken, and a sentence says why.

import { checkedJob, drawnCurve } from "./checking.mjs";
import { found } from "./elements.mjs";
import { clampCount } from "./job.mjs";
import { drawPanel, drawScale } from "./panel.mjs";
import { boxOfAll, drawClamps, drawCurve, markPoint, pictureIn, placePicture } from "./picture.mjs";
import { panned, viewOf, zoomed } from "./view.mjs";
import { isClear, refusalWords, summaryWords, verdictWords } from "./words.mjs";

const sameCurve = (one, other) => one && one.degree === other.degree && one.knots === other.knots && one.xs === other.xs && one.ys === other.ys;

// A change in words: the verdict that changed, or the chosen clamp's.
function changeWords(before, { result, chosen }) {
  const turned = result.listed.findIndex((spans, k) => before?.listed[k] && isClear(before.listed[k]) !== isClear(spans));
  const told = turned >= 0 ? turned : chosen;
  return told === null || told === undefined ? summaryWords(result.listed) : `${verdictWords(told + 1, result.listed[told])}.`;
}

export function deskOf({ library, program, meanings }) {
  const picture = pictureIn(found("picture"));
  const state = { job: null, drawn: null, result: null, view: null, chosen: null, point: 0, width: 0, height: 0 };
  const say = (words) => {
    found("status").textContent = words;
  };
  const middle = () => [picture.element.clientWidth / 2, picture.element.clientHeight / 2];

  function drawAll(curveToo) {
    if (curveToo) drawCurve(picture, state);
    drawClamps(picture, state);
    markPoint(picture, state.point);
    drawPanel(state, meanings);
    if (state.view) placePicture(picture, state);
  }

  // Whether the job was taken.
  function take(job) {
    const result = checkedJob(library, program, job);
    if (result.refusal !== 0) {
      say(`Not done: ${refusalWords(meanings, result.refusal, null)}.`);
      drawPanel(state, meanings);
      return false;
    }
    const curveToo = !sameCurve(state.job, job) || state.job.radius !== job.radius;
    if (!sameCurve(state.job, job)) state.drawn = drawnCurve(library, job, state.drawn);
    const before = state.result;
    Object.assign(state, { job, result });
    if (state.chosen !== null && state.chosen >= clampCount(job)) state.chosen = clampCount(job) === 0 ? null : clampCount(job) - 1;
    state.point = Math.min(state.point, job.xs.length - 1);
    drawAll(curveToo);
    say(changeWords(before, state));
    return true;
  }

  const desk = {
    state,
    say,
    change: take,
    sayAll: () => say(summaryWords(state.result.listed)),

    // Another job, under its name: nothing of the one before stays chosen, and all of it is seen.
    open(job, name) {
      Object.assign(state, { result: null, chosen: null, point: 0, view: null });
      if (!take(job)) throw new Error("a job that was read is refused");
      desk.showAll();
      say(`${name} is open.`);
    },

    look(view) {
      state.view = view;
      placePicture(picture, state);
      drawScale(state);
    },

    // A picture of another width shows all again; one of another height alone keeps what stands in its middle.
    resized(width, height) {
      if (state.view === null || width === 0) return;
      if (width !== state.width) desk.showAll();
      else desk.look(panned(state.view, 0, (height - state.height) / 2));
      state.height = height;
    },

    zoom: (factor) => desk.look(zoomed(state.view, factor, ...middle())),

    showAll() {
      const { clientWidth: width, clientHeight: height } = picture.element;
      Object.assign(state, { width, height });
      desk.look(viewOf(boxOfAll(picture), width, height));
    },

    choose(k) {
      if (k === state.chosen) return;
      state.chosen = k;
      drawAll(false);
    },

    // After one was deleted the keys go to the clamp that is chosen now.
    focusChosen() {
      if (state.chosen !== null) picture.clamps.children[state.chosen].focus({ preventScroll: true });
    },

    choosePoint(k) {
      state.point = Math.max(0, Math.min(state.job.xs.length - 1, k));
      markPoint(picture, state.point);
      drawPanel(state, meanings);
    },
  };
  return desk;
}
