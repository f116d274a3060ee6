// Reads a description, as in examples/: a word and its numbers on each line. Whether they make a curve is left to the library.

import { BYTE_STORED, COORDINATE_STORED, WORD_STORED } from "./job.mjs";
import { CLAMPS_MOST, COORDINATE_MOST, KNOTS_MOST, KNOT_MOST, POINTS_MOST, RADIUS_MOST } from "./limits.mjs";

const SHOWN = 24;

const told = (number) => number.toLocaleString("en");

const COORDINATE = `each -${told(COORDINATE_MOST)} to ${told(COORDINATE_MOST)} hundredths of a millimetre`;

// For each word: how many numbers it takes (0: one or more), what a job can store, how many of it there may be, and what it takes, in words.
const TAKES = {
  degree: { count: 1, ...BYTE_STORED, room: 1, words: "one number, 1, 2 or 3" },
  knots: { count: 0, ...WORD_STORED, room: KNOTS_MOST, words: `whole numbers, each 0 to ${told(KNOT_MOST)}` },
  point: { count: 2, ...COORDINATE_STORED, room: 2 * POINTS_MOST, words: `two numbers, x and y, ${COORDINATE}` },
  radius: { count: 1, ...WORD_STORED, room: 1, words: `one number, 0 to ${told(RADIUS_MOST)} hundredths of a millimetre` },
  clamp: { count: 4, ...COORDINATE_STORED, room: 4 * CLAMPS_MOST, words: `four numbers, low x, high x, low y, high y, ${COORDINATE}` },
};
const FULL = {
  degree: "the degree is given a second time",
  knots: `there are more knots than the ${told(KNOTS_MOST)} that a job can hold`,
  point: `there are more points than the ${told(POINTS_MOST)} that a job can hold`,
  radius: "the radius is given a second time",
  clamp: `there are more clamps than the ${told(CLAMPS_MOST)} that a job can hold`,
};
const NEEDED = {
  degree: "there is no line with the degree",
  radius: "there is no line with the radius: write “radius 150”, half the cutter's width in hundredths of a mm, or “radius 0” for a pen",
};

const HUNDREDTHS = "; 0.5 mm is written 50";
const MULTIPLIED = "; to have knots between, multiply all of them by one number";
// What somebody who writes 0.5 wants to know.
const HINTS = { degree: "", knots: MULTIPLIED, point: HUNDREDTHS, radius: HUNDREDTHS, clamp: HUNDREDTHS };

class Wrong extends Error {}

const quoted = (part) => `“${part.length > SHOWN ? `${part.slice(0, SHOWN)}…` : part}”`;

function numberOf(line, word, part) {
  const { least, most, words } = TAKES[word];
  if (!/^[+-]?[0-9]+$/.test(part)) {
    const hint = /^[+-]?[0-9]*[.,][0-9]+$/.test(part) ? HINTS[word] : "";
    throw new Wrong(`line ${line}: ${quoted(part)} is no whole number; ${word} takes ${words}${hint}`);
  }
  const number = Number(part);
  if (number < least || number > most) throw new Wrong(`line ${line}: ${quoted(part)} does not fit; ${word} takes ${words}`);
  return number;
}

function takeLine(found, line, text) {
  const [word, ...rest] = text.split("#", 1)[0].split(/\s+/).filter((part) => part !== "");
  if (word === undefined) return;
  if (!Object.hasOwn(TAKES, word)) throw new Wrong(`line ${line}: ${quoted(word)} is none of ${Object.keys(TAKES).join(", ")}`);
  const { count, room, words } = TAKES[word];
  const numbers = rest.map((part) => numberOf(line, word, part));
  if (numbers.length === 0 || (count !== 0 && numbers.length !== count)) {
    throw new Wrong(`line ${line}: ${word} takes ${words}, and here are ${numbers.length}`);
  }
  if (found[word].length + numbers.length > room) throw new Wrong(`line ${line}: ${FULL[word]}`);
  found[word].push(...numbers);
}

function jobOf({ degree, knots, point, radius, clamp }) {
  return {
    degree: degree[0],
    knots: Uint16Array.from(knots),
    xs: Int32Array.from(point.filter((_, k) => k % 2 === 0)),
    ys: Int32Array.from(point.filter((_, k) => k % 2 === 1)),
    radius: radius[0],
    clamps: Int32Array.from(clamp),
  };
}

// The job that a description tells of, or what is wrong with it, in words.
export function readDescription(text) {
  const found = { degree: [], knots: [], point: [], radius: [], clamp: [] };
  try {
    text.split(/\r\n|\r|\n/).forEach((line, k) => takeLine(found, k + 1, line));
    for (const word of Object.keys(NEEDED)) if (found[word].length === 0) throw new Wrong(NEEDED[word]);
  } catch (fault) {
    if (fault instanceof Wrong) return { job: null, wrong: fault.message };
    throw fault;
  }
  return { job: jobOf(found), wrong: null };
}
