// Shows why a file cannot be used, and for a broken one its bytes with the place of the fault marked.

import { found, html } from "./elements.mjs";

const ROW = 16;
const ROWS_AROUND = 4;

const hex = (byte) => byte.toString(16).padStart(2, "0");

// One row: the number of its first byte, and the bytes; the one at the place, or the end of the file, is marked.
function row(bytes, first, place) {
  const parts = [`${String(first).padStart(6, "0")}   `];
  for (let at = first; at < first + ROW && at <= bytes.length; at++) {
    const shown = at < bytes.length ? hex(bytes[at]) : "end";
    if (at === place) parts.push(html("mark", {}, shown), " ");
    else if (at < bytes.length) parts.push(`${shown} `);
  }
  return [...parts, "\n"];
}

// The rows round the place.
export function bytesShown(bytes, place) {
  const middle = Math.floor(place / ROW);
  const from = Math.max(0, middle - ROWS_AROUND);
  const until = Math.min(Math.floor(bytes.length / ROW), middle + ROWS_AROUND);
  const rows = [];
  for (let k = from; k <= until; k++) rows.push(...row(bytes, ROW * k, place));
  return html("pre", {}, ...rows);
}

function placeWords(bytes, place) {
  const good = `The file is good up to the marked byte, number ${place} counted from 0.`;
  const here = place === bytes.length ? `The file ends after ${place} bytes, at the mark.` : good;
  const todo = "Take another copy of it, or make it anew.";
  return `${here} ${todo} In front of each row stands the number of its first byte.`;
}

// Hides the work, so that no verdict of another job stands beside the refusal.
export function showUnusable(name, { sentence, bytes, place }, wayBack = true) {
  found("unusable").textContent = `${name} cannot be used`;
  found("status").textContent = `${name} cannot be used.`;
  found("sentence").textContent = sentence;
  const broken = place !== null;
  found("advice").textContent = broken ? placeWords(bytes, place) : "";
  found("bytes").replaceChildren(...(broken ? [bytesShown(bytes, place)] : []));
  found("back").hidden = !wayBack;
  found("work").hidden = true;
  found("refusal").hidden = false;
}

export function hideUnusable() {
  found("refusal").hidden = true;
  found("work").hidden = false;
}
