// Takes a case apart from its first byte on: how its arguments stand is told in tests/second_program/vectors.py and fed_vectors.py.

const FILLS = new Map([
  [Uint8Array, { first: 3, step: 5 }],
  [Uint16Array, { first: 13, step: 7 }],
  [Int32Array, { first: -5, step: 9 }],
]);

// A list for a result as it stands before the call; an entry keeps the low bits of its number.
function filled(Entries, count) {
  const { first, step } = FILLS.get(Entries);
  return new Entries(count).map((_, k) => first + step * k);
}

// What takes one argument after the other from these bytes, a plain Uint8Array. Every list that it gives is a copy.
export function taking(bytes) {
  const view = new DataView(bytes.buffer, bytes.byteOffset, bytes.byteLength);
  let at = 0;
  const take = (size) => {
    if (size > bytes.length - at) throw new Error("the case has too few bytes");
    at += size;
    return at - size;
  };
  const number = () => view.getUint32(take(4), true);
  const list = (Entries) => {
    const from = take(number() * Entries.BYTES_PER_ELEMENT);
    return new Entries(bytes.slice(from, at).buffer);
  };
  const places = (Entries) => filled(Entries, number());
  const axis = () => list(Int32Array);

  return {
    byte: () => view.getUint8(take(1)),
    number,
    signed: () => view.getInt32(take(4), true),
    large: () => view.getBigUint64(take(8), true),
    list,
    places,
    curve: () => ({ degree: number(), knots: list(Uint16Array), xs: axis(), ys: axis() }),
    splinePoints: () => ({ params: list(Uint16Array), px: axis(), py: axis(), tx: axis(), ty: axis() }),
    result: () => ({ knots: places(Uint16Array), xs: places(Int32Array), ys: places(Int32Array) }),
    more: () => at < bytes.length,
  };
}
