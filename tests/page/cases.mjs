// Runs cases through the library and the program clampcheck in WebAssembly, by the page's own modules:
//
//   node tests/page/cases.mjs [--spoiled] LIBRARY.wasm CLAMPCHECK.wasm < cases > answers
//
// Cases and answers stand as tests/second_program/vectors.py says; faults are told on standard error by the number of the case, from 1 on.
// With --spoiled one byte of every answer is wrong, and what watches the calls tells each: whoever compares has to notice. Exit status:
// 0 all well, 1 faults, 2 there are not two modules.

import { readFile } from "node:fs/promises";
import { programOf, surroundings } from "../../page/src/program.mjs";
import { joined } from "./answering.mjs";
import { callsOf } from "./calls.mjs";
import { taking } from "./taking.mjs";
import { watched } from "./watching.mjs";

const SPOILED = "--spoiled";
let caseNumber = 0;

function tell(fault) {
  process.stderr.write(`case ${caseNumber}: ${fault}\n`);
  process.exitCode = 1;
}

async function standardInput() {
  const parts = [];
  for await (const part of process.stdin) parts.push(part);
  return new Uint8Array(Buffer.concat(parts));
}

async function instanceIn(file, imports) {
  const { instance } = await WebAssembly.instantiate(await readFile(file), imports);
  return instance;
}

async function callsIn([libraryFile, programFile], spoiled) {
  const around = surroundings();
  const program = programOf(await instanceIn(programFile, around.imports), around);
  const ask = watched(await instanceIn(libraryFile), { tell, spoiled });
  return callsOf({ ask, program, tell });
}

function answerTo(taken, calls) {
  const call = calls[taken.byte()];
  if (call === undefined) throw new Error("there is no call of this number");
  const answer = joined(call(taken));
  if (taken.more()) throw new Error("the case has too many bytes");
  return answer;
}

// Every answer leaves at once, so that a call that never comes back can be told by the number of answers.
function runCases(cases, calls, spoiled) {
  while (cases.more()) {
    caseNumber += 1;
    const answer = answerTo(taking(cases.list(Uint8Array)), calls);
    if (spoiled) answer[caseNumber % answer.length] ^= 1;
    process.stdout.write(answer);
  }
}

const words = process.argv.slice(2);
const spoiled = words[0] === SPOILED;
const files = spoiled ? words.slice(1) : words;
if (files.length === 2) {
  const calls = await callsIn(files, spoiled);
  const cases = taking(await standardInput());
  try {
    runCases(cases, calls, spoiled);
  } catch (fault) {
    tell(fault);
  }
} else {
  process.stderr.write("node tests/page/cases.mjs [--spoiled] LIBRARY.wasm CLAMPCHECK.wasm < cases > answers\n");
  process.exitCode = 2;
}
