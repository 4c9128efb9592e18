// The page that answers at once: what a drag does, and what is drawn. The library, `field.js` and `live_match.js` stand before it.
const ACTS = [
  ["ask", "ask for a path", "Drag from a start, or move the pointer: the path to it is found at once. A click is a new start."],
  ["box", "draw a rectangle", "Drag from corner to corner."],
  ["wall", "draw a wall", "Drag from end to end: it is one navcell wide."],
  ["erase", "take away", "Click at what stands."],
];
const LAYERS = [["smooth", "smoothed path", true], ["field", "flow field to its end", false]];
const INKS = {
  light: { free: [251, 250, 247], blocked: [75, 83, 93], back: "#dcd9d2", line: "#8a5a00", path: "#0072b2", smooth: "#111111", draw: "#c8102e", halo: "#ffffff" },
  dark: { free: [22, 27, 33], blocked: [105, 116, 127], back: "#0b0e11", line: "#e2c078", path: "#56b4e9", smooth: "#ffffff", draw: "#ff5d73", halo: "#000000" },
};
const by = (id) => document.getElementById(id);
const made = (name, text) => Object.assign(document.createElement(name), { textContent: text ?? "" });
const map = by("map"), pen = map.getContext("2d"), image = document.createElement("canvas");
const state = { k: 0, act: "ask", from: null, to: null, drag: null, theme: "light", scale: 1, x: 0, z: 0, found: null, asked: false, on: {} };
let live, cells, field = null;

async function inflated(id) {
  const bytes = Uint8Array.from(atob(by(id).textContent), (it) => it.charCodeAt(0));
  return new Response(new Blob([bytes]).stream().pipeThrough(new DecompressionStream("deflate"))).arrayBuffer();
}

const dots = () => window.devicePixelRatio || 1;
const across = (x) => (x - state.x) * state.scale;
const down = (z) => map.height - (z - state.z) * state.scale;

// ---- drawing

/** Takes the cells of the class anew. */
function painted() {
  cells = live.cells(state.k);
  field = null;
  tinted();
  asked();
}

/** Paints the cells, one point each, and the field on them. */
function tinted() {
  const { w, h } = cells, inks = INKS[state.theme], [free, blocked] = [inks.free, inks.blocked].map(packed);
  [image.width, image.height] = [w, h];
  const ink = image.getContext("2d"), sheet = ink.createImageData(w, h), out = new Uint32Array(sheet.data.buffer);
  for (let j = 0; j < h; j++) {
    for (let i = 0, at = j * w, to = (h - 1 - j) * w; i < w; i++, at++, to++) {
      out[to] = cells.state[at] !== FREE ? blocked : field && field.far[at] >= 0 ? rampOf(field, at) : free;
    }
  }
  ink.putImageData(sheet, 0, 0);
}

/** Makes the field to the end of the path anew, where it is shown and that is another. */
function refield() {
  const end = state.on.field ? state.found?.path?.end : undefined, to = end && end.j * cells.w + end.i;
  if (field?.to === to) return;
  field = end ? Object.assign(new Field(cells, [to]), { to }) : null;
  tinted();
}

function redraw() {
  const [w, h] = live.head.size, inks = INKS[state.theme];
  pen.fillStyle = inks.back;
  pen.fillRect(0, 0, map.width, map.height);
  pen.imageSmoothingEnabled = false;
  pen.drawImage(image, across(0), down(h), w * state.scale, h * state.scale);
  if (field) stepsDrawn(pen, field, seen(), state.scale, dots(), (x, z) => [across(x), down(z)]);
  pen.lineWidth = 1.5 * dots();
  pen.strokeStyle = inks.line;
  for (const { shape } of live.standing.values()) outlined(shape);
  pen.strokeStyle = inks.draw;
  if (state.drag && state.act !== "ask") outlined(drawn());
  walked(inks);
}

/** The columns and the rows that the canvas shows. */
function seen() {
  const [w, h] = live.head.size, right = state.x + map.width / state.scale, top = state.z + map.height / state.scale;
  return { i0: Math.max(0, Math.floor(state.x)), j0: Math.max(0, Math.floor(state.z)), i1: Math.min(w, right), j1: Math.min(h, top) };
}

/** A line through the middles of cells. */
function lined(its, width, ink, dash = []) {
  pen.beginPath();
  for (const it of its) pen.lineTo(across(it.i + 0.5), down(it.j + 0.5));
  pen.setLineDash(dash.map((it) => it * dots()));
  pen.lineWidth = width * dots();
  pen.strokeStyle = ink;
  pen.stroke();
  pen.setLineDash([]);
}

function outlined(shape) {
  const [x, z, ux, uz, hw, hh] = shape.map((it) => it / NAVCELL);
  pen.beginPath();
  for (const [a, b] of [[1, 1], [-1, 1], [-1, -1], [1, -1]]) {
    pen.lineTo(across(x + a * hw * ux - b * hh * uz), down(z + a * hw * uz + b * hh * ux));
  }
  pen.closePath();
  pen.stroke();
}

function walked(inks) {
  const way = state.found?.path, spot = (x, z, ink) => {
    pen.beginPath();
    pen.arc(across(x), down(z), 5 * dots(), 0, 7);
    pen.fillStyle = ink;
    pen.fill();
    pen.lineWidth = 2 * dots();
    pen.strokeStyle = inks.halo;
    pen.stroke();
  };
  if (way) {
    for (const [width, ink] of [[6, inks.halo], [3, inks.path]]) lined([way.start, ...way.waypoints], width, ink);
    if (state.on.smooth) lined([way.start, ...way.smoothed], 1.8, inks.smooth, [5, 4]);
    spot(way.end.i + 0.5, way.end.j + 0.5, inks.draw);
  }
  if (state.from) spot(...state.from, inks.path);
}

let waiting = false;
/** Draws once before the next frame. */
function soon() {
  if (waiting) return;
  waiting = true;
  requestAnimationFrame(() => {
    waiting = false;
    if (state.asked) searched();
    redraw();
  });
}

function asked() {
  state.asked = true;
  soon();
}

/** Finds the path anew. */
function searched() {
  state.asked = false;
  state.found = null;
  if (state.from && state.to) {
    const begun = performance.now(), reply = (state.found = live.find(state.k, state.from, state.to)), took = performance.now() - begun;
    refield();
    by("path").textContent = said(reply, took);
  } else refield();
}

function said({ kind, why, path: way }, took) {
  const where = (it) => `${it.i} ${it.j}`;
  if (!way) return kind === "refused" ? `refused: ${why}` : "no cell is passable for the class";
  const length = (way.cost / NAVCELL).toFixed(2);
  return `from ${where(way.start)} to ${where(way.end)}, ${kind === "at-goal" ? "the goal" : "as near as can be"}\n` +
    `cost ${way.cost} (${length} navcells)\n${way.waypoints.length} waypoints, ${way.smoothed.length} smoothed\n` +
    (field ? `field: ${field.count} cells, farthest ${field.most}\n` : "") + `found in ${took.toFixed(2)} ms`;
}

// ---- editing

const drawn = () => (state.act === "wall" ? wallBetween(...state.drag, 1) : boxBetween(...state.drag));
const everyClass = () => 2 ** live.classes.length - 1;

function edited(reply) {
  const refused = reply?.startsWith("refused");
  by("alarm").hidden = !refused;
  by("alarm").textContent = refused ? reply : "";
  by("edits").replaceChildren(...live.edits.slice(-100).reverse().map((it) => made("li", it)));
  by("undo").disabled = !live.edits.length;
  painted();
}

function dropped() {
  const [from, to] = state.drag;
  if (state.act === "box" || state.act === "wall") edited(live.add(drawn(), everyClass()));
  else if (state.act === "erase") {
    const id = live.at(to);
    if (id !== undefined) edited(live.remove(id));
  } else if (from[0] === to[0] && from[1] === to[1]) state.from = from;
  state.drag = null;
  asked();
}

function pointed(event) {
  const side = map.getBoundingClientRect(), [w, h] = live.head.size;
  const x = (event.clientX - side.left) * dots() / state.scale + state.x;
  const z = (map.height - (event.clientY - side.top) * dots()) / state.scale + state.z;
  return [Math.max(0, Math.min(w - 1 / NAVCELL, x)), Math.max(0, Math.min(h - 1 / NAVCELL, z))];
}

function pointing() {
  map.addEventListener("pointerdown", (event) => {
    if (event.button) return;
    if (event.isTrusted) map.setPointerCapture(event.pointerId);
    const point = pointed(event);
    state.drag = [point, point];
    if (state.act === "ask") state.from = point;
    asked();
  });
  map.addEventListener("pointermove", (event) => {
    const point = pointed(event);
    if (state.drag) state.drag[1] = point;
    if (state.act === "ask") state.to = point;
    if (state.drag || state.act === "ask") asked();
  });
  map.addEventListener("pointerup", () => state.drag && dropped());
  map.addEventListener("wheel", (event) => {
    event.preventDefault();
    const [x, z] = pointed(event), factor = Math.exp(-event.deltaY * 0.0016);
    zoomed(x, z, factor);
  }, { passive: false });
}

function zoomed(x, z, factor) {
  const scale = Math.max(0.2, Math.min(160, state.scale * factor));
  state.x = x - (x - state.x) * state.scale / scale;
  state.z = z - (z - state.z) * state.scale / scale;
  state.scale = scale;
  soon();
}

// ---- the panel

function fitted() {
  const [w, h] = live.head.size;
  state.scale = Math.min(map.width / w, map.height / h);
  state.x = (w - map.width / state.scale) / 2;
  state.z = (h - map.height / state.scale) / 2;
  soon();
}

function sized() {
  const side = map.getBoundingClientRect();
  map.width = Math.max(1, Math.round(side.width * dots()));
  map.height = Math.max(1, Math.round(side.height * dots()));
  fitted();
}

function acting(name) {
  state.act = name;
  for (const [it, , hint] of ACTS) {
    by("act-" + it).checked = it === name;
    if (it === name) by("hint").textContent = hint;
  }
}

function themed(name) {
  state.theme = name;
  document.documentElement.dataset.theme = name;
  painted();
}

const undone = () => live.undo() && edited();

function saved() {
  const link = Object.assign(made("a"), { href: URL.createObjectURL(new Blob([live.script])), download: "edited.script" });
  link.click();
  URL.revokeObjectURL(link.href);
}

function panelled() {
  const [w, h] = live.head.size;
  by("title").textContent = document.title;
  by("about").textContent = `${w} × ${h} navcells; what stands is that after turn ${live.turns}`;
  live.classes.forEach((it, k) => by("class").append(new Option(`${it.name} (${it.clearance})`, k)));
  for (const [name, text] of ACTS) {
    const button = Object.assign(made("input"), { type: "radio", name: "act", id: "act-" + name }), row = made("label");
    button.onchange = () => acting(name);
    row.append(button, " " + text);
    by("acts").append(row);
  }
  for (const [name, text, on] of LAYERS) {
    const box = Object.assign(made("input"), { type: "checkbox", id: "layer-" + name, checked: on }), row = made("label");
    box.onchange = () => { state.on[name] = box.checked; asked(); };
    state.on[name] = on;
    row.append(box, " " + text);
    by("layers").append(row);
  }
  by("class").onchange = () => { state.k = +by("class").value; painted(); };
  Object.assign(by("undo"), { onclick: undone, disabled: true });
  by("fit").onclick = fitted;
  by("save").onclick = saved;
  by("theme").onclick = () => themed(state.theme === "dark" ? "light" : "dark");
  document.addEventListener("keydown", (event) => {
    const acts = { u: undone, 0: fitted, t: by("theme").onclick };
    if (!event.ctrlKey && !event.metaKey && event.target.tagName !== "SELECT") acts[event.key]?.();
  });
}

async function started() {
  const library = await load(await inflated("module"));
  live = new Live(library, new TextDecoder().decode(await inflated("script")));
  panelled();
  acting("ask");
  sized();
  themed(matchMedia("(prefers-color-scheme: dark)").matches ? "dark" : "light");
  pointing();
  window.addEventListener("resize", sized);
  by("busy").hidden = true;
}
globalThis.ready = started().then(() => ({ live, state, searched }));
globalThis.ready.catch((fault) => (by("busy").textContent = `this page could not be read: ${fault.message}`));
