// A job as the page holds it: read from bytes, written to them, and changed. Every change gives a new job.

import { CLAMPS_MOST, KNOTS_MOST, POINTS_MOST, RECORD_MOST } from "./limits.mjs";

const RADIUS_TAG = 6;
const CLAMP_TAG = 5;
const SIDES = 4;

// The names of a clamp's sides in their order, and what the fields of a job can store, whether it is sound or not.
export const SIDE_NAMES = ["left", "right", "bottom", "top"];
export const COORDINATE_STORED = { least: -(2 ** 31), most: 2 ** 31 - 1 };
export const WORD_STORED = { least: 0, most: 65535 };
export const BYTE_STORED = { least: 0, most: 255 };

// The job in some bytes, or the number and the place of what is wrong with them.
export function readJob(library, bytes) {
  const lists = { knots: new Uint16Array(KNOTS_MOST), xs: new Int32Array(POINTS_MOST), ys: new Int32Array(POINTS_MOST) };
  const sides = new Int32Array(SIDES * CLAMPS_MOST);
  const { refusal, place, degree, points, radius, clampCount } = library.readJob(bytes, lists, sides);
  if (refusal !== 0) return { refusal, place, job: null };
  const job = {
    degree,
    knots: lists.knots.slice(0, points + degree + 1),
    xs: lists.xs.slice(0, points),
    ys: lists.ys.slice(0, points),
    radius,
    clamps: sides.slice(0, SIDES * clampCount),
  };
  return { refusal, place: null, job };
}

// A field behind the record: tag, length in two bytes, and the contents.
function field(tag, contents) {
  return [tag, contents.length & 255, contents.length >> 8, ...contents];
}

// The bytes of a job, or the number by which its curve is refused.
export function jobBytes(library, job) {
  const record = new Uint8Array(RECORD_MOST);
  const { refusal, length } = library.writeRecord(job, record);
  if (refusal !== 0) return { refusal, bytes: null };
  const behind = field(RADIUS_TAG, [job.radius & 255, job.radius >> 8]);
  for (const sides of clampsOf(job)) behind.push(...field(CLAMP_TAG, new Uint8Array(Int32Array.from(sides).buffer)));
  const bytes = new Uint8Array(length + behind.length);
  bytes.set(record.subarray(0, length));
  bytes.set(behind, length);
  return { refusal, bytes };
}

export const clampCount = (job) => job.clamps.length / SIDES;

// The four sides of a clamp: low x, high x, low y, high y.
export const clampOf = (job, k) => [...job.clamps.subarray(SIDES * k, SIDES * (k + 1))];

export const clampsOf = (job) => Array.from({ length: clampCount(job) }, (_, k) => clampOf(job, k));

// What a job can store of a number, so that one far too large is judged as too large, and not as what is left of it in 32 bits.
const within = ({ least, most }, number) => Math.max(least, Math.min(most, Math.round(number)));

const stored = (number) => within(COORDINATE_STORED, number);

const changed = (list, at, entries) => {
  const copy = list.slice();
  copy.set(entries, at);
  return copy;
};

export const withClamp = (job, k, sides) => ({ ...job, clamps: changed(job.clamps, SIDES * k, sides.map(stored)) });

export const withNewClamp = (job, sides) => ({ ...job, clamps: Int32Array.of(...job.clamps, ...sides.map(stored)) });

export const withoutClamp = (job, k) => ({ ...job, clamps: job.clamps.filter((_, at) => Math.floor(at / SIDES) !== k) });

export const withPoint = (job, k, x, y) => ({ ...job, xs: changed(job.xs, k, [stored(x)]), ys: changed(job.ys, k, [stored(y)]) });

export const withRadius = (job, radius) => ({ ...job, radius: within(WORD_STORED, radius) });
