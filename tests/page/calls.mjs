// The calls by their number in a case: each takes its arguments from the case, asks for them, and gives the parts of the answer.

import { behind, behindJob, listsOf, number } from "./answering.mjs";
import { feeding } from "./feeding.mjs";

const SIDES = 4;
const REFUSED = /^refused (\d{1,9})(?: at \d{1,9})?\n$/;

// The calls of a library that is asked by the name of its function, and of the program clampcheck.
export function callsOf({ ask, program, tell }) {
  const check = (taken) => [number(ask("check", taken.curve()).refusal)];

  const point = (taken) => {
    const { refusal, x, y } = ask("point", taken.curve(), taken.number());
    return [number(refusal), Float64Array.from(refusal === 0 ? [x, y] : [])];
  };

  // The library tells the first carrying entry; the answer holds the entries of one axis, 0 for x.
  const carrying = (taken) => {
    const [curve, t, axis] = [taken.curve(), taken.number(), taken.number()];
    const { refusal, first } = ask("carrying", curve, t);
    const count = refusal === 0 ? curve.degree + 1 : 0;
    const part = (axis === 0 ? curve.xs : curve.ys).subarray(first, first + count);
    return [number(refusal), number(part.length), part];
  };

  // A call that gives a curve and the number of its points, by the kinds of what it is asked with.
  const reshaping = (name, ...kinds) => (taken) => {
    const given = kinds.map((kind) => taken[kind]());
    const result = taken.result();
    const told = ask(name, ...given, result);
    return [number(told.refusal), ...behind(told, told.points), ...listsOf(result)];
  };

  // The answer has no place for the number of points: with the knots removed it must be that of before.
  const compact = (taken) => {
    const [curve, result] = [taken.curve(), taken.result()];
    const told = ask("compact", curve, result);
    if (told.refusal === 0 && told.points + told.removed !== curve.xs.length) {
      tell("points and removed are not together the old number of points");
    }
    return [number(told.refusal), ...behind(told, told.removed), ...listsOf(result)];
  };

  const spans = (taken) => {
    const curve = taken.curve();
    const sides = Array.from({ length: SIDES }, () => taken.signed());
    const [radius, lows, highs] = [taken.number(), taken.places(Uint16Array), taken.places(Uint16Array)];
    const told = ask("spans", curve, sides, radius, lows, highs);
    return [number(told.refusal), ...behind(told, told.count), lows, highs];
  };

  const writing = (name) => (taken) => {
    const [curve, out] = [taken.curve(), taken.places(Uint8Array)];
    const told = ask(name, curve, out);
    return [number(told.refusal), ...behind(told, told.length), out];
  };

  const readRecord = (taken) => {
    const [bytes, result] = [taken.list(Uint8Array), taken.result()];
    const told = ask("readRecord", bytes, result);
    return [number(told.refusal), ...behind(told, told.degree, told.points), ...listsOf(result)];
  };

  const readJob = (taken) => {
    const [bytes, result, clamps] = [taken.list(Uint8Array), taken.result(), taken.places(Int32Array)];
    const told = ask("readJob", bytes, result, clamps);
    return [number(told.refusal), ...behindJob(told), ...listsOf(result), clamps];
  };

  // The program gives its text alone: the number is the one that the text names, 0 for none.
  const clampcheckText = (taken) => {
    const text = program(taken.list(Uint8Array));
    const refused = REFUSED.exec(Buffer.from(text).toString("latin1"));
    return [number(refused === null ? 0 : Number(refused[1])), text, Uint8Array.of(0)];
  };

  return {
    1: check,
    2: point,
    3: carrying,
    4: reshaping("insert", "curve", "number"),
    5: reshaping("remove", "curve", "number"),
    6: compact,
    7: reshaping("joinThroughPoints", "splinePoints"),
    8: spans,
    9: writing("writeRecord"),
    10: readRecord,
    11: readJob,
    12: clampcheckText,
    13: feeding(ask),
    14: reshaping("join", "splinePoints"),
    15: writing("svg"),
    16: reshaping("clampEnds", "curve"),
    17: reshaping("unclampRight", "curve"),
  };
}
