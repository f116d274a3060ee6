// Verdicts, lengths and refusals in words.

const STEPS_OF_A_MILLIMETRE = 100;
const RUNS_TOLD = 5;

export const millimetres = (steps) => steps / STEPS_OF_A_MILLIMETRE;

export const steps = (millimetre) => Math.round(millimetre * STEPS_OF_A_MILLIMETRE);

// Spans that follow one another, as the marks at which each run of them begins and ends.
function runs(spans) {
  const found = [];
  for (const [low, high] of spans) {
    const last = found[found.length - 1];
    if (last && last[1] === low) last[1] = high;
    else found.push([low, high]);
  }
  return found;
}

function listedWords(spans) {
  const words = runs(spans).map(([low, high]) => `${low} and ${high}`);
  const more = words.length - RUNS_TOLD;
  return more > 0 ? `${words.slice(0, RUNS_TOLD).join(", ")} and ${more} more` : words.join(", ");
}

export const isClear = (spans) => spans.length === 0;

// What is said of a clamp, numbered from 1, for the spans listed.
export function verdictWords(number, spans) {
  if (isClear(spans)) return `Clamp ${number} is clear: the cutter stays off it`;
  return `Clamp ${number} may meet the cutter between the marks ${listedWords(spans)}`;
}

export function summaryWords(listed) {
  const met = listed.filter((spans) => !isClear(spans)).length;
  if (listed.length === 0) return "There are no clamps.";
  if (met === 0) return listed.length === 1 ? "The clamp is clear." : `All ${listed.length} clamps are clear.`;
  return `${met} of ${listed.length} may be in the way.`;
}

// A refusal as clampcheck tells it, and what its number means. The meanings are those of tools/refusals.py, which page/pack.py puts in.
export function refusalWords(meanings, refusal, place) {
  const line = place === null ? `refused ${refusal}` : `refused ${refusal} at ${place}`;
  return `${line}: ${meanings[refusal] ?? "this number belongs to another call of the library"}`;
}
