// Files in and out: what a member opens is a job or a description; what is saved goes where the browser puts downloads.

import { readDescription } from "./description.mjs";
import { html } from "./elements.mjs";
import { jobBytes, readJob } from "./job.mjs";
import { JOB_MOST } from "./limits.mjs";
import { textKind } from "./text_kind.mjs";
import { refusalWords } from "./words.mjs";

const DESCRIPTION_MOST = 1 << 20;
const OTHER_TEXT = "This is a text, but not in UTF-8. Open it in an editor and save it as UTF-8.";
const UNREADABLE = "The browser cannot read this: it is a folder, or a file that is gone or must not be read.";
const LONG_TEXT = "This text is far too long for a description of a job.";

const unusable = (sentence, bytes = null, place = null) => ({ job: null, sentence, bytes, place });

// A byte more than the longest job has shows that a file is too long; the rest of it is not looked at.
function fromJob({ library, meanings }, bytes) {
  const { refusal, place, job } = readJob(library, bytes);
  if (job) return { job };
  const words = refusalWords(meanings, refusal, place);
  return unusable(place === null ? `${words}.` : `The file is damaged, or it is no job at all (${words}).`, bytes, place);
}

function fromDescription({ library, meanings }, text) {
  const { job, wrong } = readDescription(text);
  if (job === null) return unusable(`${wrong}.`);
  const { refusal, bytes } = jobBytes(library, job);
  return refusal === 0 ? fromJob({ library, meanings }, bytes) : unusable(`${refusalWords(meanings, refusal, null)}.`);
}

async function bytesOf(file) {
  return new Uint8Array(await file.arrayBuffer());
}

async function fromText(means, kind, file) {
  if (kind === "other text") return unusable(OTHER_TEXT);
  if (file.size > DESCRIPTION_MOST) return unusable(LONG_TEXT);
  try {
    return fromDescription(means, new TextDecoder("utf-8", { fatal: true }).decode(await bytesOf(file)));
  } catch (fault) {
    if (fault instanceof TypeError) return unusable(OTHER_TEXT);
    throw fault;
  }
}

// The job in a file, or why there is none.
export async function openedFile(means, file) {
  try {
    const front = await bytesOf(file.slice(0, JOB_MOST + 1));
    const kind = textKind(front);
    return kind === "job" ? fromJob(means, front) : await fromText(means, kind, file);
  } catch (fault) {
    if (fault instanceof DOMException) return unusable(UNREADABLE);
    throw fault;
  }
}

export function save(name, contents) {
  const address = URL.createObjectURL(new Blob([contents], { type: "application/octet-stream" }));
  html("a", { href: address, download: name }).click();
  setTimeout(() => URL.revokeObjectURL(address), 10000);
}
