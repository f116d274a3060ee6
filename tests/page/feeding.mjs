// A case of `feed`: its steps, bursts and ends, asked one after the other on one work list.

import { behindJob, joined, large, listsOf, number } from "./answering.mjs";

const BURST = 1;
const MODULUS = 2n ** 56n - 5n;

// What is left of the work list, read as one number low byte first, on division by the modulus.
const fingerprint = (work) => BigInt(`0x0${Buffer.from(work).reverse().toString("hex")}`) % MODULUS;

function workListIn(taken) {
  const work = taken.places(Uint8Array);
  work.set(taken.list(Uint8Array));
  return work;
}

export const feeding = (ask) => (taken) => {
  const work = workListIn(taken);
  let received = taken.large();
  const [result, clamps] = [taken.result(), taken.places(Int32Array)];

  const burst = () => {
    const told = ask("feed", taken.list(Uint8Array), work, received);
    received = told.received;
    return [number(told.refusal), large(received)];
  };
  const end = () => {
    const told = ask("feedEnd", work, result, clamps, received);
    received = told.received;
    return [number(told.refusal), large(received), ...behindJob(told), ...listsOf(result), clamps];
  };

  const steps = [];
  // the bytes of each step are kept at once, for the next one may change the lists
  while (taken.more()) steps.push(joined(taken.byte() === BURST ? burst() : end()));
  return [...steps, large(fingerprint(work))];
};
