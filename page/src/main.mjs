// Starts the page: loads the two modules, shows the sample, and ties buttons, files and numbers to the desk.

import { deskOf } from "./desk.mjs";
import { found } from "./elements.mjs";
import { openedFile, save } from "./files.mjs";
import { giveHands } from "./hands.mjs";
import { clampCount, clampOf, readJob, withClamp, withNewClamp, withPoint, withRadius, withoutClamp } from "./job.mjs";
import { libraryOf } from "./memory.mjs";
import { listenToNumbers } from "./panel.mjs";
import { programOf, surroundings } from "./program.mjs";
import { hideUnusable, showUnusable } from "./unusable.mjs";
import { CLOSER, fromScreen } from "./view.mjs";
import { steps } from "./words.mjs";

const NEW_CLAMP = 40;
const SAMPLE = "The sample";

const packed = (id) => Uint8Array.from(atob(found(id).textContent.trim()), (letter) => letter.charCodeAt(0));

async function loaded() {
  const around = surroundings();
  const [library, program] = await Promise.all([
    WebAssembly.instantiate(packed("library-module")),
    WebAssembly.instantiate(packed("program-module"), around.imports),
  ]);
  return {
    library: libraryOf(library.instance),
    program: programOf(program.instance, around),
    meanings: JSON.parse(found("meanings").textContent),
  };
}

function listenToFiles(means, desk) {
  const open = async (file) => {
    const opened = await openedFile(means, file);
    if (opened.job === null) return showUnusable(file.name, opened);
    hideUnusable();
    desk.open(opened.job, file.name);
  };
  found("file").addEventListener("change", async ({ target }) => {
    const [file] = target.files;
    if (file) await open(file);
    target.value = "";
  });
  const over = (event, yes) => {
    event.preventDefault();
    document.body.classList.toggle("dropping", yes);
  };
  document.addEventListener("dragover", (event) => over(event, true));
  document.addEventListener("dragleave", (event) => over(event, false));
  document.addEventListener("drop", async (event) => {
    over(event, false);
    const [file] = event.dataTransfer.files;
    if (file) await open(file);
  });
}

function listenToButtons({ library }, desk) {
  const pressed = (id, handle) => found(id).addEventListener("click", handle);
  const { state } = desk;
  pressed("sample", () => {
    hideUnusable();
    desk.open(readJob(library, packed("sample-job")).job, SAMPLE);
  });
  pressed("back", () => {
    hideUnusable();
    desk.sayAll();
  });
  pressed("save-job", () => save("clampcheck.job", state.result.bytes));
  pressed("save-path", () => save("clampcheck-path.txt", `${state.drawn.path}\n`));
  pressed("zoom-in", () => desk.zoom(CLOSER));
  pressed("zoom-out", () => desk.zoom(1 / CLOSER));
  pressed("zoom-all", () => desk.showAll());
  pressed("add", () => {
    const { clientWidth, clientHeight } = found("picture");
    const [x, y] = fromScreen(state.view, clientWidth / 2, clientHeight / 2);
    const half = NEW_CLAMP / state.view.scale;
    if (desk.change(withNewClamp(state.job, [x - half, x + half, y - half, y + half]))) desk.choose(clampCount(state.job) - 1);
  });
  pressed("delete", () => desk.change(withoutClamp(state.job, state.chosen)));
  found("verdicts").addEventListener("click", ({ target }) => {
    const item = target.closest("[data-clamp]");
    if (item) desk.choose(Number(item.dataset.clamp) - 1);
  });
}

function listenToFields(desk) {
  const { state } = desk;
  const unread = () => {
    desk.say("Not done: here a number is needed, and for the radius none below 0.");
    desk.choosePoint(state.point);
  };
  listenToNumbers({
    side: (k, number) => desk.change(withClamp(state.job, state.chosen, clampOf(state.job, state.chosen).with(k, steps(number)))),
    radius: (number) => (number < 0 ? unread() : desk.change(withRadius(state.job, steps(number)))),
    choosePoint: (number) => desk.choosePoint(Math.round(number) - 1),
    point: (axis, number) => {
      const place = [state.job.xs[state.point], state.job.ys[state.point]].with(axis, steps(number));
      desk.change(withPoint(state.job, state.point, ...place));
    },
    unread,
  });
}

// After a fault of the page itself no verdict is left on the screen.
function fail() {
  const sentence = "The page itself failed, and nothing on it can be relied on. Open it again.";
  showUnusable("This page", { sentence, bytes: null, place: null }, false);
}

async function start() {
  addEventListener("error", fail);
  addEventListener("unhandledrejection", fail);
  const means = await loaded();
  const desk = deskOf(means);
  giveHands(found("picture"), desk);
  listenToFiles(means, desk);
  listenToButtons(means, desk);
  listenToFields(desk);
  new ResizeObserver(([{ target }]) => desk.resized(target.clientWidth, target.clientHeight)).observe(found("picture"));
  desk.open(readJob(means.library, packed("sample-job")).job, SAMPLE);
}

start();
