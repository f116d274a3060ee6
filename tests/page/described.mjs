// Reads descriptions with the page's own module: node tests/page/described.mjs LIBRARY.wasm, with a JSON list of texts on standard input.
//
// For each text the answer has the bytes of its job in base64, or the number by which the library refuses it, or what is wrong with it in words.

import { readFileSync } from "node:fs";
import { readDescription } from "../../page/src/description.mjs";
import { jobBytes, readJob } from "../../page/src/job.mjs";
import { libraryOf } from "../../page/src/memory.mjs";

const { instance } = await WebAssembly.instantiate(readFileSync(process.argv[2]));
const library = libraryOf(instance);

function answer(text) {
  const { job, wrong } = readDescription(text);
  if (job === null) return { wrong };
  const { refusal, bytes } = jobBytes(library, job);
  if (refusal !== 0) return { refusal };
  const again = readJob(library, bytes);
  return again.refusal === 0 ? { bytes: Buffer.from(bytes).toString("base64") } : { refusal: again.refusal };
}

const texts = JSON.parse(readFileSync(0, "utf-8"));
process.stdout.write(JSON.stringify(texts.map(answer)));
