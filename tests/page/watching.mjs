// Asks the library by page/src/memory.mjs and tells what a call has changed that it had to leave alone: a list that it only reads, in the
// caller's hands or in the library's memory, and a single number of a call that was refused.
//
// What a call reads is the first argument of each function of memory.mjs, and the lists in it are the first that the export is handed.

import { libraryOf } from "../../page/src/memory.mjs";
import { bytesOf } from "./answering.mjs";

const listsIn = (read) => (ArrayBuffer.isView(read) ? [read] : Object.values(read).filter(ArrayBuffer.isView));
const differ = (some, others) => some.some((bytes, k) => Buffer.compare(bytes, others[k]) !== 0);

// Where the lists stand that an export is handed, those that it reads before all others: each is a place and a length, two BigInts.
const placesIn = (words) => words.filter((word) => typeof word === "bigint").filter((_, k) => k % 2 === 0);

// An asker of the library of an instance. In a spoiled run what it remembers is wrong by one bit, so every call has to be told.
export function watched({ exports }, { tell, spoiled }) {
  const wrong = spoiled ? 1 : 0;
  let read = [];

  const kept = (list) => {
    const copy = bytesOf(list).slice();
    copy[0] ^= wrong;
    return copy;
  };
  const inMemory = (words) => {
    const places = placesIn(words);
    return read.map(({ byteLength }, k) => new Uint8Array(exports.memory.buffer, Number(places[k]), byteLength));
  };
  const watching = (call) => (...words) => {
    const before = inMemory(words).map(kept);
    const refusal = call(...words);
    if (differ(before, inMemory(words))) tell("a list that is only read was changed in memory");
    return refusal;
  };

  // A place and what was received are told by refusals too, and stand in the answer.
  const judgeNumbers = ({ refusal, place, received, ...numbers }) => {
    if (refusal === 0) return;
    for (const [name, value] of Object.entries(numbers)) {
      if (!Object.is(value, wrong)) tell(`${name} was changed by a call that was refused`);
    }
  };

  const watchedExports = Object.entries(exports).map(([name, one]) => [name, typeof one === "function" ? watching(one) : one]);
  const library = libraryOf({ exports: Object.fromEntries(watchedExports) });
  return (name, ...given) => {
    read = listsIn(given[0]);
    const before = read.map(kept);
    const told = library[name](...given);
    if (differ(before, read.map(bytesOf))) tell("a list that is only read was changed");
    judgeNumbers(told);
    return told;
  };
}
