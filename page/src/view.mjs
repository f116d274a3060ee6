// Where things stand on the screen: zoom and pan, from steps of the grid to pixels and back.

// How many times closer one press or one notch of the wheel goes.
export const CLOSER = 1.25;

const MARGIN = 40;
const CLOSEST = 20;
const FARTHEST = 1 / 2000;
const SCALE_LEAST = 60;
const SCALE_STEPS = [1, 2, 5];

const within = (scale) => Math.max(FARTHEST, Math.min(CLOSEST, scale));

// The view in which a box of the grid fills a picture of so many pixels.
export function viewOf({ x, y, width, height }, wide, high) {
  const room = (pixels) => Math.max(pixels - 2 * MARGIN, 1);
  const scale = within(Math.min(room(wide) / Math.max(width, 1), room(high) / Math.max(height, 1)));
  return { scale, left: wide / 2 - scale * (x + width / 2), top: high / 2 + scale * (y + height / 2) };
}

export const toScreen = ({ scale, left, top }, x, y) => [left + scale * x, top - scale * y];

export const fromScreen = ({ scale, left, top }, x, y) => [(x - left) / scale, (top - y) / scale];

export const panned = (view, dx, dy) => ({ ...view, left: view.left + dx, top: view.top + dy });

// The view so many times closer, with the place under the given pixel staying there.
export function zoomed(view, factor, x, y) {
  const scale = within(view.scale * factor);
  const [atX, atY] = fromScreen(view, x, y);
  return { scale, left: x - scale * atX, top: y + scale * atY };
}

// What turns steps of the grid, y upward, into pixels, y downward.
export const transformOf = ({ scale, left, top }) => `matrix(${scale} 0 0 ${-scale} ${left} ${top})`;

// A round length for the scale beside the picture: in millimetres and in pixels.
export function scaleOf({ scale }) {
  for (let power = 0.01; ; power *= 10) {
    for (const step of SCALE_STEPS) {
      const length = Number((step * power).toPrecision(1));
      const pixels = length * 100 * scale;
      if (pixels >= SCALE_LEAST) return { length, pixels };
    }
  }
}
