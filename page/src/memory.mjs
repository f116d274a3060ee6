// The one place where the library's memory is read and written: a function for each export of include/tsaghnobir.h.
//
// A curve is { degree, knots, xs, ys } with a Uint16Array and two Int32Arrays. A list that a call may write is handed over as a typed
// array too: its entries are copied in before the call and back after it, so it holds what the C caller's list would hold. Every
// function answers an object with the number `refusal`, 0 for none; other numbers in it count only where the header says so.

const ALIGNED = 8;
const PAGE = 65536;
const PLACED = new Set([16, 19, 20, 21]);

const read = (entries) => ({ entries, written: false, listed: true });
const lent = (entries) => ({ entries, written: true, listed: true });
const cell = (entries) => ({ entries, written: true, listed: false });
const size = (number = 0n) => cell(BigUint64Array.of(number));
const number = () => cell(new Uint32Array(1));
const real = () => cell(new Float64Array(1));
const told = (one) => Number(one.entries[0]);

const given = ({ degree, knots, xs, ys }) => [degree, read(knots), read(xs), read(ys)];
const places = ({ knots, xs, ys }) => [lent(knots), lent(xs), lent(ys)];

// The bytes of some entries, as they are in the library's memory and outside it.
const bytesAt = (memory, at, { buffer, byteOffset, byteLength }) => [
  new Uint8Array(memory.buffer, at, byteLength),
  new Uint8Array(buffer, byteOffset, byteLength),
];

// Where each part stands from the heap's first byte on, and the first byte behind them all.
function laidOut(parts, from) {
  let next = from;
  const at = parts.map((part) => {
    if (typeof part === "number") return part;
    const here = Math.ceil(next / ALIGNED) * ALIGNED;
    next = here + part.entries.byteLength;
    return here;
  });
  return [at, next];
}

// A caller of the exports of an instance: numbers go as they are, a list as its place and its length, a cell as its place. Places and
// lengths have 64 bits, as on x86-64, so they go as BigInt; the memory itself is one of 32 bits (page/narrow.py).
function asking({ memory, __heap_base: heap, ...exports }) {
  return (name, ...parts) => {
    const [at, end] = laidOut(parts, Number(heap.value));
    if (end > memory.buffer.byteLength) memory.grow(Math.ceil((end - memory.buffer.byteLength) / PAGE));
    const words = [];
    parts.forEach((part, k) => {
      if (typeof part === "number") {
        words.push(part);
        return;
      }
      words.push(BigInt(at[k]));
      const [inside, outside] = bytesAt(memory, at[k], part.entries);
      inside.set(outside);
      if (part.listed) words.push(BigInt(part.entries.length));
    });
    const refusal = exports[name](...words) >>> 0;
    parts.forEach((part, k) => {
      if (!part.written) return;
      const [inside, outside] = bytesAt(memory, at[k], part.entries);
      outside.set(inside);
    });
    return refusal;
  };
}

// The library of an instance of its module.
export function libraryOf(instance) {
  const ask = asking(instance.exports);

  // A call that gives a curve and the number of its points.
  const reshaped = (name, ...parts) => {
    const points = size();
    const refusal = ask(name, ...parts, points);
    return { refusal, points: told(points) };
  };

  // A call that gives bytes and their number.
  const written = (name, curve, out) => {
    const length = size();
    const refusal = ask(name, ...given(curve), lent(out), length);
    return { refusal, length: told(length) };
  };

  const joined = (name, { params, px, py, tx, ty }, result) =>
    reshaped(name, read(params), read(px), read(py), read(tx), read(ty), ...places(result));

  // What both readers of a job are lent and tell.
  const jobRead = (name, source, result, clamps, ...rest) => {
    const [degree, points, radius, count, place] = [number(), size(), number(), size(), size()];
    const refusal = ask(name, read(source), ...places(result), lent(clamps), degree, points, radius, count, place, ...rest);
    const at = PLACED.has(refusal) ? told(place) : null;
    return { refusal, degree: told(degree), points: told(points), radius: told(radius), clampCount: told(count), place: at };
  };

  return {
    check: (curve) => ({ refusal: ask("tsb_check", ...given(curve)) }),

    point(curve, t) {
      const [x, y] = [real(), real()];
      const refusal = ask("tsb_point", ...given(curve), t, x, y);
      return { refusal, x: told(x), y: told(y) };
    },

    carrying(curve, t) {
      const first = size();
      const refusal = ask("tsb_carrying", ...given(curve), t, first);
      return { refusal, first: told(first) };
    },

    insert: (curve, v, result) => reshaped("tsb_insert", ...given(curve), v, ...places(result)),

    remove: (curve, v, result) => reshaped("tsb_remove", ...given(curve), v, ...places(result)),

    compact(curve, result) {
      const [points, removed] = [size(), size()];
      const refusal = ask("tsb_compact", ...given(curve), ...places(result), points, removed);
      return { refusal, points: told(points), removed: told(removed) };
    },

    clampEnds: (curve, result) => reshaped("tsb_clamp_ends", ...given(curve), ...places(result)),

    unclampRight: (curve, result) => reshaped("tsb_unclamp_right", ...given(curve), ...places(result)),

    join: (splinePoints, result) => joined("tsb_join", splinePoints, result),

    joinThroughPoints: (splinePoints, result) => joined("tsb_join_through_points", splinePoints, result),

    spans(curve, [lowX, highX, lowY, highY], radius, lows, highs) {
      const count = size();
      const refusal = ask("tsb_spans", ...given(curve), lowX, highX, lowY, highY, radius, lent(lows), lent(highs), count);
      return { refusal, count: told(count) };
    },

    writeRecord: (curve, out) => written("tsb_write_record", curve, out),

    svg: (curve, out) => written("tsb_svg", curve, out),

    readRecord(bytes, result) {
      const [degree, points, place] = [number(), size(), size()];
      const refusal = ask("tsb_read_record", read(bytes), ...places(result), degree, points, place);
      return { refusal, degree: told(degree), points: told(points), place: PLACED.has(refusal) ? told(place) : null };
    },

    readJob: (bytes, result, clamps) => jobRead("tsb_read_job", bytes, result, clamps),

    // What was received so far is a BigInt, here and in the answer: it may be any number of 64 bits.
    feed(burst, work, received) {
      const count = size(received);
      const refusal = ask("tsb_feed", read(burst), lent(work), count);
      return { refusal, received: count.entries[0] };
    },

    feedEnd(work, result, clamps, received) {
      const count = size(received);
      const answer = jobRead("tsb_feed_end", work, result, clamps, count);
      return { ...answer, received: count.entries[0] };
    },
  };
}
