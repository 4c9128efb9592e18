// The page: what is drawn, and how it is moved through. `cells.js` and `field.js` stand before it.
const LAYERS = [
  ["paths", "paths", true], ["smooth", "smoothed waypoints", true], ["goals", "all goals", false], ["outlines", "obstructions", true],
  ["chunks", "chunks", false], ["regions", "regions", false], ["areas", "areas", false], ["field", "field of the post", false],
  ["changes", "changed cells", true],
];
// told apart by the colour-blind (after Okabe and Ito); a caller has a colour and a dash, and its paths have shades of it
const CALLERS = { light: ["#0072b2", "#d55e00", "#007a5a", "#a3357a", "#8a6500", "#111111"], dark: ["#56b4e9", "#ff8c4a", "#2fd3a3", "#f0a3d0", "#f0e442", "#ffffff"] };
const SHADES = { light: [["#000000", 0], ["#000000", 0.45], ["#ffffff", 0.4]], dark: [["#000000", 0], ["#ffffff", 0.5], ["#000000", 0.4]] };
const DASHES = [[], [9, 4], [3, 3], [12, 3, 3, 3], [18, 6], [2, 6]];
const INKS = {
  light: { cells: ["#fbfaf7", "#4b535d", "#e3d3a8", "#a9823f"], back: "#dcd9d2", line: "#5f4514", other: "#9a927f", chunk: "#5a626c", grid: "#e4e1da", halo: "#ffffff", alarm: "#c8102e", ink: "#111111", change: "#8b1fd1" },
  dark: { cells: ["#161b21", "#69747f", "#3b3422", "#9a7a3c"], back: "#0b0e11", line: "#e2c078", other: "#7d7461", chunk: "#8d99a6", grid: "#222931", halo: "#000000", alarm: "#ff5d73", ink: "#ffffff", change: "#d58bff" },
};
const TINTS = { light: ["#cfe3f2", "#f6dcc4", "#cdeadd", "#efd3e3", "#efe9b5", "#d6d2ee"], dark: ["#1c3c52", "#52331c", "#154536", "#4a2440", "#4a4519", "#2f2b55"] };
const by = (id) => document.getElementById(id);
const made = (name, text) => Object.assign(document.createElement(name), { textContent: text ?? "" });

let data, base, cells, changes, field = null, view = { scale: 1, x: 0, z: 0 };
// `near` is the post under the pointer, `walk` the way along the field from there, and `why` tells why there is no field
const state = { turn: 0, k: 0, caller: -1, post: null, near: null, walk: null, why: "", theme: "light", on: {} };
const image = document.createElement("canvas"), map = by("map"), pen = map.getContext("2d");
for (const [name, , on] of LAYERS) state.on[name] = on;

// ---- data

async function inflated(id) {
  const bytes = Uint8Array.from(atob(by(id).textContent), (it) => it.charCodeAt(0));
  const stream = new Blob([bytes]).stream().pipeThrough(new DecompressionStream("deflate"));
  return new Response(stream).arrayBuffer();
}

/** What stands after a turn by what the answers say, number by number. */
function standingAfter(turn) {
  const found = new Map();
  for (const { edits, posts } of data.turns.slice(0, turn + 1)) {
    for (const p of edits.map((n) => posts[n])) {
      const said = p.r[0] || "", old = found.get(p.id);
      if (said.startsWith("added")) found.set(p.id, { id: p.id, square: p.s, mask: p.m, post: p });
      else if (said.startsWith("removed")) found.delete(p.id);
      else if (said.startsWith("moved") && old) found.set(p.id, { ...old, square: [...p.to, ...old.square.slice(2)] });
    }
  }
  return found;
}

/** The path of a post, or null; it is read once. */
function pathOf(post) {
  if (post.walk === undefined) post.walk = pathRead((post.r[0] || "").split(" "));
  return post.walk;
}

function pathRead(words) {
  if (words[0] !== "path") return null;
  const cell = (it) => it.split(",").map(Number), points = [[+words[1] + 0.5, +words[2] + 0.5], ...words.slice(8).map(cell)];
  return { start: [+words[1], +words[2]], end: [+words[3], +words[4]], word: words[5], cost: +words[6], points, box: boxOf(points) };
}

/** What some points span, as [x0, z0, x1, z1]. */
function boxOf(points) {
  const wider = ([x0, z0, x1, z1], [x, z]) => [Math.min(x0, x), Math.min(z0, z), Math.max(x1, x), Math.max(z1, z)];
  return points.reduce(wider, [Infinity, Infinity, -Infinity, -Infinity]);
}

function noteOf(post, word) {
  return (post.r.find((it) => it.startsWith(word + " ")) || "").split(" ").slice(1);
}

/** The goal as [kind, numbers ..]; a goal by obstruction as the square that it is. */
function goalOf(post) {
  const [kind, ...n] = post.goal;
  if (kind !== "obstruction") return post.goal;
  const it = state.standing.get(n[0]);
  return it && ["square", ...it.square.slice(0, 4), it.square[4] + n[1], it.square[5] + n[1]];
}

/** Gives each post its turn, and each path its number among those of its caller and class in the turn. */
function numbered() {
  for (const [turn, { posts }] of data.turns.entries()) {
    const counts = {};
    for (const it of posts) {
      it.turn = turn;
      const key = `${it.c} ${it.cls}`;
      if (it.k === "path") it.nth = counts[key] = (counts[key] ?? -1) + 1;
    }
  }
}

const now = () => data.turns[state.turn] || { posts: [], wrong: [], line: "", t: 0 };
/** The posts of the turn that the choice of caller and class leaves. */
const shown = () => now().posts.filter((it) => (state.caller < 0 || it.c === state.caller) && (!it.cls || it.cls === data.classes[state.k].name));

/** The contradictions at cells, of posts that are shown or of none. */
function wrongHere() {
  const lines = new Set(shown().map((it) => it.l));
  return now().wrong.filter((it) => it.at && (!it.l || lines.has(it.l)));
}

// ---- the picture of the cells

const hex = (it) => [1, 3, 5].map((n) => parseInt(it.slice(n, n + 2), 16));

const kept = new Map(); // the cells that were made last, of two turns
function cellsAfter(turn) {
  const key = `${turn} ${state.k}`, found = kept.get(key) || new Cells(data.w, data.h, base, state.k, data.classes[state.k].clearance, standingAfter(turn).values());
  kept.delete(key);
  kept.set(key, found);
  if (kept.size > 2) kept.delete(kept.keys().next().value);
  return found;
}

function remade() {
  state.standing = standingAfter(state.turn);
  cells = cellsAfter(state.turn);
  changes = null;
  state.near = state.walk = null;
  refield();
}

/** Where the turn blocked cells and freed others, as the sides of those cells, [x0, z0, x1, z1] each. */
function changesMade() {
  const { w, h } = data, before = cellsAfter(state.turn - 1).state, after = cells.state, found = [[], []];
  const kind = (at) => (before[at] === FREE) === (after[at] === FREE) ? -1 : after[at] === FREE ? 1 : 0;
  for (let j = 0; j <= h; j++) {
    for (let i = 0; i <= w; i++) {
      const here = i < w && j < h ? kind(j * w + i) : -1, west = i && j < h ? kind(j * w + i - 1) : -1, south = j && i < w ? kind((j - 1) * w + i) : -1;
      if (here !== west) for (const it of [here, west]) if (it >= 0) found[it].push([i, j, i, j + 1]);
      if (here !== south) for (const it of [here, south]) if (it >= 0) found[it].push([i, j, i + 1, j]);
    }
  }
  return found;
}

/** The targets of the chosen post's field in the turn and for the class that are shown, or in words why there are none. */
function fieldTargets(post) {
  if (!post) return "choose a path to see its field";
  if (post.k !== "path") return "no field: the chosen post asks for no path";
  if (post.cls !== data.classes[state.k].name) return `no field: the chosen path is for ${post.cls}`;
  const path = pathOf(post);
  if (!path) return "no field: the chosen post has no path";
  if (!cells.free(...path.start)) return "no field: the start of the chosen path is blocked in this turn";
  const { w, h } = data, goal = goalOf(post), found = [];
  if (path.word === "near") return [path.end[1] * w + path.end[0]];
  if (!goal) return "no field: the obstruction that is the goal does not stand in this turn";
  cells.label();
  const area = cells.area[path.start[1] * w + path.start[0]], [i0, j0, i1, j1] = goalBox(goal, w, h);
  for (let j = j0; j <= j1; j++) for (let i = i0; i <= i1; i++) if (cells.area[j * w + i] === area && isGoal(goal, i, j)) found.push(j * w + i);
  return found.length ? found : "no field: the goal cannot be walked to in this turn";
}

function refield() {
  const targets = state.on.field ? fieldTargets(state.post) : "";
  state.why = typeof targets === "string" ? targets : "";
  state.walk = null;
  field = state.on.field && !state.why ? new Field(cells, targets) : null;
  noted(state.why);
  painted();
}

function painted() {
  const { w, h } = data, inks = INKS[state.theme], tints = TINTS[state.theme].map(hex);
  image.width = w;
  image.height = h;
  const paper = image.getContext("2d"), sheet = paper.createImageData(w, h), out = new Uint32Array(sheet.data.buffer);
  const plain = inks.cells.map((it) => packed(hex(it))), tinted = tints.map(packed);
  if (state.on.regions || state.on.areas) cells.label();
  for (let j = 0; j < h; j++) {
    for (let i = 0, at = j * w, to = (h - 1 - j) * w; i < w; i++, at++, to++) {
      const what = cells.state[at];
      if (what !== FREE) out[to] = plain[what];
      else if (field && field.far[at] >= 0) out[to] = rampOf(field, at);
      else if (state.on.regions) {
        const chunk = 2 * Math.floor(i / CHUNK) + 3 * Math.floor(j / CHUNK);
        out[to] = tinted[(cells.region[at] * 5 + chunk) % tints.length];
      } else if (state.on.areas) out[to] = tinted[(cells.area[at] - 1) % tints.length];
      else out[to] = plain[FREE];
    }
  }
  paper.putImageData(sheet, 0, 0);
  redraw();
}

// ---- drawing

let waiting = false;
function redraw() {
  if (waiting) return;
  waiting = true;
  requestAnimationFrame(() => { waiting = false; drawn(); });
}

const toX = (x) => (x - view.x) * view.scale, toY = (z) => map.height - (z - view.z) * view.scale;
const dpr = () => window.devicePixelRatio || 1;

function fitted() {
  const { w, h } = data, room = 0.96;
  view.scale = Math.min(map.width * room / w, map.height * room / h);
  view.x = w / 2 - map.width / view.scale / 2;
  view.z = h / 2 - map.height / view.scale / 2;
}

function drawn() {
  if (!cells) return;
  const { w, h } = data, inks = INKS[state.theme], s = view.scale;
  pen.setTransform(1, 0, 0, 1, 0, 0);
  pen.fillStyle = inks.back;
  pen.fillRect(0, 0, map.width, map.height);
  // only the part that is seen, by whole cells, so that each cell keeps sharp sides
  const i0 = Math.max(0, Math.floor(view.x)), j0 = Math.max(0, Math.floor(view.z));
  const i1 = Math.min(w, Math.ceil(view.x + map.width / s)), j1 = Math.min(h, Math.ceil(view.z + map.height / s));
  pen.imageSmoothingEnabled = s < 1;
  if (i1 > i0 && j1 > j0) pen.drawImage(image, i0, h - j1, i1 - i0, j1 - j0, toX(i0), toY(j1), (i1 - i0) * s, (j1 - j0) * s);
  const seen = { i0, j0, i1, j1 };
  if (s >= 10 * dpr()) rules(seen, 1, inks.grid, 1);
  if (state.on.chunks || state.on.regions) chunkRules(seen, inks);
  if (field) stepsDrawn(pen, field, seen, view.scale, dpr(), (x, z) => [toX(x), toY(z)]);
  if (state.on.changes) changesDrawn(seen, inks);
  if (state.on.outlines) outlines(seen, inks);
  const posts = shown();
  if (state.on.goals) for (const it of posts) if (it.k === "path") goalDrawn(it, inkOf(it), 1.5);
  pen.globalAlpha = state.post ? 0.35 : 1; // what is not chosen steps back
  const others = state.on.paths ? posts.filter((it) => it !== state.post) : [];
  for (const it of others) pathDrawn(it, 2);
  for (const it of others) endsDrawn(it); // over all lines
  pen.globalAlpha = 1;
  if (state.near && state.near !== state.post && posts.includes(state.near)) {
    pathDrawn(state.near, 4);
    endsDrawn(state.near);
  }
  if (state.post) {
    pen.globalAlpha = posts.includes(state.post) ? 1 : 0.6; // of another turn or class than is shown
    if (state.post.k === "path") goalDrawn(state.post, inkOf(state.post), 2.5);
    pathDrawn(state.post, 4);
    endsDrawn(state.post);
    pointDrawn(state.post);
    pen.globalAlpha = 1;
  }
  if (state.walk) line(state.walk, inks.ink, 2 * dpr(), [2 * dpr(), 4 * dpr()]);
  for (const it of wrongHere()) cross(it.at, inks);
  remembered();
}

function changesDrawn(seen, inks) {
  changes = changes || changesMade();
  const step = Math.max(1, Math.ceil(dpr() / view.scale)); // of sides smaller than a point only some
  pen.strokeStyle = inks.change;
  pen.lineWidth = 2 * dpr();
  for (const [n, sides] of changes.entries()) {
    pen.setLineDash(n ? [3 * dpr(), 3 * dpr()] : []);
    pen.beginPath();
    for (const [a, b, c, d] of sides) {
      if (a < seen.i0 || b < seen.j0 || a > seen.i1 || b > seen.j1 || (a + b) % step) continue;
      pen.moveTo(toX(a), toY(b));
      pen.lineTo(toX(c), toY(d));
    }
    pen.stroke();
  }
  pen.setLineDash([]);
}

function rules(seen, step, ink, width) {
  pen.beginPath();
  for (let i = Math.ceil(seen.i0 / step) * step; i <= seen.i1; i += step) { pen.moveTo(toX(i), toY(seen.j0)); pen.lineTo(toX(i), toY(seen.j1)); }
  for (let j = Math.ceil(seen.j0 / step) * step; j <= seen.j1; j += step) { pen.moveTo(toX(seen.i0), toY(j)); pen.lineTo(toX(seen.i1), toY(j)); }
  pen.strokeStyle = ink;
  pen.lineWidth = width;
  pen.setLineDash([]);
  pen.stroke();
}

function chunkRules(seen, inks) {
  rules(seen, CHUNK, inks.chunk, 1.5 * dpr());
  if (CHUNK * view.scale < 60 * dpr()) return;
  pen.font = `${12 * dpr()}px system-ui, sans-serif`;
  for (let c = Math.floor(seen.i0 / CHUNK); c * CHUNK < seen.i1; c++) {
    for (let d = Math.floor(seen.j0 / CHUNK); d * CHUNK < seen.j1; d++) label(`${c} ${d}`, toX(c * CHUNK) + 16 * dpr(), toY(d * CHUNK) - 10 * dpr(), inks.ink, inks.halo);
  }
}

const number = (it) => it / SIDE;
function cornersOf(s, more = 0) {
  const [x, z, ux, uz, hw, hh] = s.map(number), n = ux * ux + uz * uz, a = hw / n + more, b = hh / n + more;
  return [[a, b], [a, -b], [-a, -b], [-a, b]].map(([u, v]) => [x + u * ux - v * uz, z + u * uz + v * ux]);
}

function ring(points) {
  pen.beginPath();
  points.forEach(([x, z], n) => (n ? pen.lineTo(toX(x), toY(z)) : pen.moveTo(toX(x), toY(z))));
  pen.closePath();
}

function outlines(seen, inks) {
  const named = [], far = (it) => it.square[0] / SIDE + 400 < seen.i0 || it.square[0] / SIDE - 400 > seen.i1 || it.square[1] / SIDE + 400 < seen.j0 || it.square[1] / SIDE - 400 > seen.j1;
  for (const it of state.standing.values()) {
    const size = Math.max(it.square[4], it.square[5]) / SIDE * view.scale;
    if (size < 2 || far(it)) continue;
    const mine = it.mask >> state.k & 1;
    ring(cornersOf(it.square));
    pen.strokeStyle = mine ? inks.line : inks.other;
    pen.lineWidth = 1.2 * dpr();
    pen.setLineDash(mine ? [] : [4 * dpr(), 4 * dpr()]);
    pen.stroke();
    if (size > 14 * dpr()) named.push(it);
  }
  pen.setLineDash([]);
  pen.font = `${11 * dpr()}px system-ui, sans-serif`;
  for (const it of named) label(`${it.id}`, toX(it.square[0] / SIDE), toY(it.square[1] / SIDE), inks.ink, inks.halo); // over all outlines
}

function label(text, x, y, ink, halo) {
  pen.textAlign = "center";
  pen.textBaseline = "middle";
  pen.lineWidth = 3 * dpr();
  pen.strokeStyle = halo;
  pen.strokeText(text, x, y);
  pen.fillStyle = ink;
  pen.fillText(text, x, y);
  pen.textAlign = "start";
  pen.textBaseline = "alphabetic";
}

const colour = (c) => CALLERS[state.theme][c % 6];

/** The colour of a path: a shade of its caller's, or one of all colours where there is one caller. */
function inkOf(post) {
  const nth = post.nth ?? 0, [hue, shade] = data.callers > 1 ? [post.c, nth] : [nth, Math.floor(nth / 6)];
  const [into, part] = SHADES[state.theme][shade % 3], mixed = hex(colour(hue)).map((it, n) => Math.round(it + (hex(into)[n] - it) * part));
  return `rgb(${mixed.join(",")})`;
}

/** The places of a line that runs so far beside another one, so that both are seen. */
function beside(points, far) {
  return points.slice(1).flatMap(([c, d], n) => {
    const [a, b] = points[n], size = Math.hypot(c - a, d - b) || 1, x = (d - b) / size * far, z = (a - c) / size * far;
    return [[a + x, b + z], [c + x, d + z]];
  });
}

function line(points, ink, width, dash, halo = 2.5 * dpr()) {
  pen.beginPath();
  points.forEach(([x, z], n) => (n ? pen.lineTo(toX(x), toY(z)) : pen.moveTo(toX(x), toY(z))));
  pen.lineJoin = pen.lineCap = "round";
  pen.setLineDash([]);
  pen.strokeStyle = INKS[state.theme].halo;
  pen.lineWidth = width + halo;
  if (halo) pen.stroke();
  pen.strokeStyle = ink;
  pen.lineWidth = width;
  pen.setLineDash(dash);
  pen.stroke();
  pen.setLineDash([]);
}

function dot(x, z, size, ink, shape) {
  const a = toX(x), b = toY(z);
  pen.beginPath();
  if (shape === "round") pen.arc(a, b, size, 0, 7);
  else if (shape === "square") pen.rect(a - size, b - size, 2 * size, 2 * size);
  else { pen.moveTo(a, b - 1.4 * size); pen.lineTo(a + 1.4 * size, b); pen.lineTo(a, b + 1.4 * size); pen.lineTo(a - 1.4 * size, b); pen.closePath(); }
  pen.fillStyle = shape === "round" ? INKS[state.theme].halo : ink;
  pen.fill();
  pen.lineWidth = 2 * dpr();
  pen.strokeStyle = ink;
  pen.stroke();
}

/** The path of a post where some of it is on the screen, or null. */
function pathSeen(post) {
  const path = post.k === "path" && pathOf(post);
  if (!path) return null;
  const [x0, z0, x1, z1] = path.box;
  return toX(x1) < 0 || toY(z0) < 0 || toX(x0) > map.width || toY(z1) > map.height ? null : path;
}

const keptOf = (post) => (state.on.smooth ? noteOf(post, "smooth").slice(1).map((it) => it.split(",").map(Number)) : []);

function pathDrawn(post, width) {
  const path = pathSeen(post), wide = width * dpr();
  if (!path) return;
  line(path.points, inkOf(post), wide, DASHES[Math.floor(post.c / 6) % 6].map((it) => it * dpr()));
  const kept = keptOf(post);
  if (kept.length) line(beside([path.points[0], ...kept], (wide / 2 + 2 * dpr()) / view.scale), INKS[state.theme].ink, Math.max(1, wide / 2), [5 * dpr(), 4 * dpr()], 0);
}

/** Where a path starts, turns and ends. */
function endsDrawn(post) {
  const path = pathSeen(post), ink = inkOf(post), size = Math.max(3.2, Math.min(7, view.scale / dpr() * 0.3)) * dpr();
  if (!path) return;
  for (const [x, z] of keptOf(post)) dot(x, z, size * 0.6, INKS[state.theme].ink, "round");
  if (view.scale > 4 * dpr()) for (const [x, z] of path.points.slice(1, -1)) dot(x, z, size * 0.45, ink, "round");
  dot(...path.points[0], size, ink, "round");
  dot(path.end[0] + 0.5, path.end[1] + 0.5, size, ink, path.word === "goal" ? "square" : "diamond");
}

function pointDrawn(post) {
  const at = post.from || post.at;
  if (!at) return;
  const x = toX(at[0] / SIDE), y = toY(at[1] / SIDE), r = 9 * dpr();
  pen.beginPath();
  for (const [a, b] of [[-1, 0], [1, 0], [0, -1], [0, 1]]) { pen.moveTo(x + a * r * 0.4, y + b * r * 0.4); pen.lineTo(x + a * r, y + b * r); }
  pen.strokeStyle = INKS[state.theme].ink;
  pen.lineWidth = 2 * dpr();
  pen.stroke();
}

function goalDrawn(post, ink, width) {
  const goal = goalOf(post);
  if (!goal) return;
  const [kind, x, z] = goal, inverted = kind.startsWith("not-");
  if (kind.endsWith("circle")) {
    pen.beginPath();
    pen.arc(toX(x / SIDE), toY(z / SIDE), goal[3] / SIDE * view.scale, 0, 7);
  } else if (kind.endsWith("square")) ring(cornersOf(goal.slice(1)));
  else {
    const r = 7 * dpr(), a = toX(x / SIDE), b = toY(z / SIDE);
    pen.beginPath();
    pen.moveTo(a - r, b - r); pen.lineTo(a + r, b + r); pen.moveTo(a - r, b + r); pen.lineTo(a + r, b - r);
  }
  pen.setLineDash(inverted ? [2 * dpr(), 5 * dpr()] : [8 * dpr(), 3 * dpr()]);
  pen.strokeStyle = ink;
  pen.lineWidth = width * dpr();
  pen.stroke();
  pen.setLineDash([]);
}

function cross([i, j], inks) {
  const x = toX(i + 0.5), y = toY(j + 0.5), r = Math.max(9 * dpr(), Math.min(view.scale, 26 * dpr()) * 0.5);
  for (const [ink, width] of [[inks.halo, 6], [inks.alarm, 3]]) {
    pen.beginPath();
    pen.arc(x, y, r, 0, 7);
    for (const a of [-1, 1]) { pen.moveTo(x - r * 0.6, y - a * r * 0.6); pen.lineTo(x + r * 0.6, y + a * r * 0.6); }
    pen.strokeStyle = ink;
    pen.lineWidth = width * dpr();
    pen.stroke();
  }
}
