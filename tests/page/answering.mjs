// The parts of an answer: typed arrays, whose bytes in memory, low byte first, are those of the answer.

const MOST = 2 ** 32 - 1;

export const bytesOf = ({ buffer, byteOffset, byteLength }) => new Uint8Array(buffer, byteOffset, byteLength);
export const joined = (parts) => Buffer.concat(parts.map(bytesOf));

export const number = (value) => Uint32Array.of(value);
export const large = (value) => BigUint64Array.of(value);
export const listsOf = ({ knots, xs, ys }) => [knots, xs, ys];

// A count or a place has 8 bytes in memory and 4 in the answer.
function count(value) {
  if (value > MOST) throw new Error(`the count or place ${value} does not fit into 32 bits`);
  return number(value);
}

// What a call tells behind its number of refusal: these counts after a success, and the place where one is told.
export const behind = ({ refusal, place = null }, ...counts) =>
  [...(refusal === 0 ? counts : []), ...(place === null ? [] : [place])].map(count);

// The same of a call that reads a job.
export const behindJob = (told) => behind(told, told.degree, told.points, told.radius, told.clampCount);
