// What the library says of a job. Every number and every verdict on the page comes from here.

import { clampsOf, jobBytes, readJob } from "./job.mjs";
import { COORDINATE_MOST, KNOT_MOST, POINTS_MOST, SVG_MOST } from "./limits.mjs";

// Every control point lies in this rectangle, so every span is listed for it.
const EVERYWHERE = [-COORDINATE_MOST, COORDINATE_MOST, -COORDINATE_MOST, COORDINATE_MOST];
const STROKES_OF_A_CURVE = 4096;
const STROKES_OF_A_SPAN = 48;

// Places for listed spans, which every call writes anew.
const [lows, highs] = [new Uint16Array(POINTS_MOST), new Uint16Array(POINTS_MOST)];

// The spans whose box meets a clamp that is widened by the radius, as pairs of knots.
export function spansMet(library, curve, sides, radius) {
  const { refusal, count } = library.spans(curve, sides, radius, lows, highs);
  if (refusal !== 0) throw new Error(`spans are refused by ${refusal}, and the job was not`);
  return Array.from({ length: count }, (_, k) => [lows[k], highs[k]]);
}

// The whole check of a job: its bytes, the spans listed for each clamp, and the text of clampcheck; or the number by which it is refused.
export function checkedJob(library, program, job) {
  const start = performance.now();
  const { refusal, bytes } = jobBytes(library, job);
  if (refusal !== 0) return { refusal };
  const again = readJob(library, bytes);
  if (again.refusal !== 0) return { refusal: again.refusal };
  const listed = clampsOf(job).map((sides) => spansMet(library, job, sides, job.radius));
  const text = new TextDecoder().decode(program(bytes));
  performance.measure("recheck", { start, end: performance.now() });
  return { refusal: 0, bytes, listed, text };
}

// Path data, cut where its letters stand: for each piece where it begins, and how it is drawn from there.
function cutPieces(text) {
  const [start, ...rest] = text.match(/[A-Z][^A-Z]*/g);
  let from = start.slice(1).trim();
  return rest.map((part) => {
    const piece = { from, draw: part.trim() };
    from = part.trim().split(" ").slice(-2).join(" ");
    return piece;
  });
}

// The same curve on knots that stand further apart: run through more slowly, so that whole parameters lie close together on it.
function slowed(curve) {
  const first = curve.knots[0];
  const factor = Math.floor(KNOT_MOST / (curve.knots[curve.knots.length - 1] - first));
  const at = (t) => (t - first) * factor;
  return { at, curve: { ...curve, knots: curve.knots.map(at) } };
}

// For a curve that has no path on the grid: straight strokes between computed points, in each span that `kept` has no piece for.
function strokes(library, original, spans, kept) {
  const { at, curve } = slowed(original);
  const most = Math.max(2, Math.min(STROKES_OF_A_SPAN, Math.floor(STROKES_OF_A_CURVE / spans.length)));
  const place = (t) => {
    const { x, y } = library.point(curve, t);
    return `${x} ${y}`;
  };
  return spans.map(([low, high], k) => {
    if (kept(k)) return kept(k);
    const [from, width] = [at(low), at(high) - at(low)];
    const count = Math.min(most, width);
    const ends = Array.from({ length: count }, (_, stroke) => place(from + Math.floor(((stroke + 1) * width) / count)));
    return { from: place(from), draw: `L ${ends.join(" ")}` };
  });
}

// Whether span k of a curve is as it was in one on the same knots: none of the points that carry it has moved.
function unmoved(curve, before, firsts) {
  const same = curve.xs.map((x, k) => Number(x === before.xs[k] && curve.ys[k] === before.ys[k]));
  return (k) => same.subarray(firsts[k], firsts[k] + curve.degree + 1).every((one) => one === 1);
}

// What stays the same for all curves on the same knots: the spans, and the first of the points that carry each.
function spansOf(library, curve) {
  const spans = spansMet(library, curve, EVERYWHERE, 0);
  return { spans, firsts: spans.map(([low]) => library.carrying(curve, low).first) };
}

// What is drawn of a curve: its spans, a piece and a mark for each, a mark at the end, and its path data, or the number by which that is refused.
// What was drawn of a curve on the same knots is taken over where no point has moved: working out a long curve takes longer than a hand waits.
export function drawnCurve(library, curve, drawn) {
  const sameKnots = drawn !== null && drawn.curve.knots === curve.knots && drawn.curve.degree === curve.degree;
  const { spans, firsts } = sameKnots ? drawn : spansOf(library, curve);
  const stays = sameKnots ? unmoved(curve, drawn.curve, firsts) : () => false;
  const last = spans.length - 1;
  const marks = [...spans.map(([low]) => low), spans[last][1]].map((t, k) =>
    stays(Math.min(k, last)) ? drawn.marks[k] : { t, ...library.point(curve, t) });
  const out = new Uint8Array(SVG_MOST);
  const { refusal, length } = library.svg(curve, out);
  const path = refusal === 0 ? new TextDecoder().decode(out.subarray(0, length)) : null;
  const keptPiece = (k) => (drawn?.path === null && stays(k) ? drawn.pieces[k] : null);
  const pieces = path === null ? strokes(library, curve, spans, keptPiece) : cutPieces(path);
  return { curve, spans, firsts, marks, pieces, path, refusal };
}

// The box that the check looks at for a span: round the control points that carry it.
export function boxOf({ curve, firsts }, k) {
  const carried = (list) => list.subarray(firsts[k], firsts[k] + curve.degree + 1);
  return [Math.min(...carried(curve.xs)), Math.max(...carried(curve.xs)), Math.min(...carried(curve.ys)), Math.max(...carried(curve.ys))];
}
