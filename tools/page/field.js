// How a field is drawn. `cells.js` stands before it.
const FAR = [[0, 32, 76], [0, 67, 106], [87, 93, 109], [124, 123, 120], [165, 156, 116], [211, 193, 100], [255, 234, 70]];
const packed = ([r, g, b]) => (255 << 24 | b << 16 | g << 8 | r) >>> 0;

/** The colour of a field's cells, from the farthest at 0 to the goal at 1. */
function rampAt(part) {
  const at = part * (FAR.length - 1), low = Math.min(Math.floor(at), FAR.length - 2);
  return FAR[low].map((it, c) => it + (FAR[low + 1][c] - it) * (at - low));
}
const RAMP = Array.from({ length: 256 }, (_, n) => packed(rampAt(n / 255)));
const rampOf = (field, at) => RAMP[Math.floor(255 - 255 * field.far[at] / (field.most || 1))];

/** Draws the step of each cell from (i0, j0) on and below (i1, j1), or of some of them where a cell's side is few points long.
 * `place` gives where a point of the map lies on the canvas, and `dots` how many points a line of a page is wide. */
function stepsDrawn(pen, field, { i0, j0, i1, j1 }, side, dots, place) {
  const step = Math.max(1, Math.ceil(18 * dots / side)), r = Math.min(side * step * 0.34, 12 * dots);
  pen.lineWidth = 1.6 * dots;
  for (let j = Math.ceil(j0 / step) * step; j < j1; j += step) {
    for (let i = Math.ceil(i0 / step) * step; i < i1; i += step) {
      const next = field.next(i, j), far = field.far[j * field.w + i];
      if (far < 0) continue;
      pen.strokeStyle = pen.fillStyle = far < field.most * 0.5 ? "#111" : "#fff";
      const [x, y] = place(i + 0.5, j + 0.5);
      if (!next) { pen.beginPath(); pen.arc(x, y, r * 0.6, 0, 7); pen.fill(); continue; }
      const n = Math.hypot(next[1], next[2]), a = next[1] / n * r, b = -next[2] / n * r;
      pen.beginPath();
      pen.moveTo(x - a, y - b); pen.lineTo(x + a, y + b);
      pen.lineTo(x + a * 0.2 - b * 0.5, y + b * 0.2 + a * 0.5); pen.moveTo(x + a, y + b); pen.lineTo(x + a * 0.2 + b * 0.5, y + b * 0.2 - a * 0.5);
      pen.stroke();
    }
  }
}
