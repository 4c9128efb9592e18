// What the page says of a place and a post, its lists, and how it is moved through.
const KEYS = [
  ["← →", "turn before, turn after"], ["Home End", "first turn, last turn"], ["c", "next class"], ["p", "next caller"],
  ["+ − 0", "zoom in, zoom out, whole map"], ["1 .. 9", "layers, in their order"], ["f", "field of the chosen post"], ["n", "next contradiction"],
  ["j k", "post after, post before"], ["g", "go to a line of the script"], ["t", "dark or light"], ["Esc", "choose nothing"],
];
const WHAT = ["passable", "blocked by the base map", "blocked by a clearance", "blocked by an obstruction"];
const ROWS = 300; // of a longer list only the part about the chosen post stands on the page

// ---- words

function aboutCell(i, j) {
  const at = j * data.w + i, lines = [`cell ${i} ${j}: ${WHAT[cells.state[at]]} for ${data.classes[state.k].name}`];
  if (cells.region && cells.state[at] === FREE) lines.push(`chunk ${Math.floor(i / CHUNK)} ${Math.floor(j / CHUNK)}, region ${cells.region[at]}, area ${cells.area[at]}`);
  if (field && field.far[at] >= 0) lines.push(`far ${field.far[at]}, next ${(field.next(i, j) || ["none"])[0]}, ${count(field.walk(i, j).length - 1, "step")} along the field`);
  return lines;
}

/** The obstruction that a point lies in, or nearest to it with its clearance. */
function standingAt(x, z) {
  return [...state.standing.values()].filter((it) => {
    const [du, dv] = turned(it.square, x * SIDE - it.square[0], z * SIDE - it.square[1]);
    return Math.abs(du) <= SIDE * it.square[4] && Math.abs(dv) <= SIDE * it.square[5];
  });
}

function away([x, z], [a, b], [c, d]) {
  const n = (c - a) ** 2 + (d - b) ** 2, t = n ? Math.max(0, Math.min(1, ((x - a) * (c - a) + (z - b) * (d - b)) / n)) : 0;
  return Math.hypot(x - a - t * (c - a), z - b - t * (d - b));
}

/** The path post whose line runs nearest to a point, within eight points of the screen. */
function postAt(x, z) {
  let best = null, least = 8 * dpr() / view.scale;
  for (const it of state.on.paths ? shown() : []) {
    const path = it.k === "path" && pathOf(it);
    for (let n = 0; path && n < path.points.length; n++) {
      const d = away([x, z], path.points[Math.max(0, n - 1)], path.points[n]);
      if (d < least) [best, least] = [it, d];
    }
  }
  return best;
}

const count = (n, name) => `${n} ${n === 1 ? name : name.endsWith("s") ? name + "es" : name + "s"}`;
const brief = (it, most = 200) => (it.length > most ? it.slice(0, most) + " .." : it);

/** Marks the path under the pointer and the walk from there along the field. */
function pointed(post, walk) {
  if (post === state.near && !walk && !state.walk) return;
  state.near = post;
  state.walk = walk;
  redraw();
}

function tipped(event) {
  const { x, z } = pointOf(event), i = Math.floor(x), j = Math.floor(z), tip = by("tip");
  tip.hidden = i < 0 || j < 0 || i >= data.w || j >= data.h || !cells;
  if (tip.hidden) return pointed(null, null);
  tip.replaceChildren(...aboutCell(i, j).map((it) => made("div", it)));
  for (const it of standingAt(x, z).slice(0, 3)) tip.append(made("div", `obstruction ${it.id}, mask ${it.mask}, of caller ${it.post.c}, line ${it.post.l}`));
  const post = postAt(x, z), walk = field && field.far[j * data.w + i] > 0 ? field.walk(i, j) : null;
  pointed(post, walk && walk.map(([a, b]) => [a + 0.5, b + 0.5]));
  if (post) tip.append(made("div", `line ${post.l}, post ${post.c} ${post.n}: ${brief(post.x, 120)}`), made("div", `→ ${brief(post.r.join("; "), 120)}`));
  for (const it of wrongHere()) if (it.at[0] === i && it.at[1] === j) tip.append(made("b", `✕ ${it.text}`));
  tip.querySelectorAll("b").forEach((it) => (it.className = "bad"));
  const side = map.getBoundingClientRect();
  tip.style.left = `${Math.min(event.clientX - side.left + 16, side.width - tip.offsetWidth - 8)}px`;
  tip.style.top = `${Math.min(event.clientY - side.top + 16, side.height - tip.offsetHeight - 8)}px`;
}

/** Puts a line under the layers, for what could not be shown. */
function noted(text) {
  by("note").textContent = text;
  by("note").hidden = !text;
}

/** What of a chosen post is not what is shown. */
function elsewhere(post) {
  const lines = [];
  if (post.turn !== state.turn) lines.push(`of turn ${data.turns[post.turn].t}; turn ${now().t} is shown`);
  if (post.cls && post.cls !== data.classes[state.k].name) lines.push(`for ${post.cls}; ${data.classes[state.k].name} is shown`);
  if (state.caller >= 0 && state.caller !== post.c) lines.push(`of caller ${post.c}; caller ${state.caller} is shown`);
  return lines;
}

function fieldSaid(post) {
  if (!field) return state.why ? [state.why] : [];
  const mine = [field.count, field.most, field.sum].join(" "), said = noteOf(post, "flow").slice(1).join(" ");
  const lines = [`field: ${field.count} cells, farthest ${field.most}, sum ${field.sum}`];
  if (said && post.turn === state.turn) lines.push(said === mine ? "the answer says the same" : `✕ the answer says ${said}`);
  return lines;
}

function chosenShown() {
  const box = by("chosen"), it = state.post;
  box.hidden = !it;
  if (!it) return;
  const name = it.cls ? `${it.k}, ${it.cls}` : it.k;
  box.replaceChildren(made("strong", `line ${it.l}: post ${it.c} ${it.n}, ${name}`), made("pre", it.x), made("pre", it.r.join("\n") || "no reply"));
  for (const line of [...elsewhere(it), ...fieldSaid(it)]) box.append(made("div", line));
  for (const bad of data.turns[it.turn].wrong.filter((b) => b.l === it.l)) box.append(made("b", `✕ ${bad.text}`));
}

function listed() {
  const posts = shown(), at = Math.max(0, posts.indexOf(state.post)), from = Math.max(0, Math.min(at - ROWS / 2, posts.length - ROWS));
  const bad = new Set(now().wrong.map((it) => it.l));
  by("posts-title").textContent = `${count(posts.length, "post")} of turn ${now().t}` + (posts.length > ROWS ? `, ${from + 1} to ${from + ROWS} here` : "");
  by("posts").replaceChildren(...posts.slice(from, from + ROWS).map((it) => {
    const row = made("li", `${it.c} ${it.n} ${brief(it.r[0] || "no reply", 60)} `);
    row.append(made("small", `line ${it.l}`));
    row.className = (it === state.post ? "on " : "") + (bad.has(it.l) ? "bad" : "");
    row.onclick = () => chosen(it, true);
    return row;
  }));
  by("posts").querySelector(".on")?.scrollIntoView({ block: "nearest" });
}

function chosen(post, go) {
  state.post = post;
  const places = post && (pathOf(post)?.points || (post.s && [[post.s[0] / SIDE, post.s[1] / SIDE]]) || (post.at && [[post.at[0] / SIDE, post.at[1] / SIDE]]));
  if (go && places) seen(places);
  if (state.on.field) refield();
  listed();
  chosenShown();
  redraw();
}

/** Moves the view where not all of some points are on it. */
function seen(points) {
  const [x0, z0, x1, z1] = boxOf(points);
  if (x0 > view.x && z0 > view.z && x1 < view.x + map.width / view.scale && z1 < view.z + map.height / view.scale) return;
  view.scale = Math.min(view.scale, 0.8 * map.width / (x1 - x0 + 1), 0.8 * map.height / (z1 - z0 + 1));
  view.x = (x0 + x1) / 2 - map.width / view.scale / 2;
  view.z = (z0 + z1) / 2 - map.height / view.scale / 2;
}

// ---- moving through

function turnedTo(n) {
  state.turn = Math.max(0, Math.min(data.turns.length - 1, n));
  by("turn").value = state.turn;
  by("turn-text").textContent = data.turns.length ? `${now().t} of ${data.turns.length}` : "none";
  by("turn-text").title = now().line;
  renewed();
}

function renewed() {
  remade();
  listed();
  chosenShown();
}

function classed(k) {
  state.k = k;
  by("class").value = k;
  renewed();
}

function called(c) {
  state.caller = c;
  by("caller").value = c;
  listed();
  chosenShown();
  redraw();
}

function layered(name, on) {
  state.on[name] = on;
  if (on && name === "regions") state.on.areas = false;
  if (on && name === "areas") state.on.regions = false;
  for (const [it] of LAYERS) by("layer-" + it).checked = state.on[it];
  if (name === "field") { refield(); chosenShown(); } else if (name === "regions" || name === "areas") painted();
  else redraw();
}

function themed(name) {
  state.theme = name;
  document.documentElement.dataset.theme = name;
  legended();
  painted();
}

function wentTo(number) {
  const at = data.turns.findIndex((it) => it.posts.some((p) => p.l === number));
  if (at < 0) return noted(`line ${number} has no post of a turn with answers`);
  const post = data.turns[at].posts.find((p) => p.l === number);
  if (post.cls) state.k = Math.max(0, data.classes.findIndex((it) => it.name === post.cls));
  by("class").value = state.k;
  if (state.caller >= 0 && state.caller !== post.c) called(-1);
  turnedTo(at);
  chosen(post, true);
}

let wrongAt = -1;
function wrongNext() {
  const all = data.turns.flatMap((turn, at) => turn.wrong.map((it) => [at, it]));
  if (!all.length) return;
  wrongAt = (wrongAt + 1) % all.length;
  wrongShown(...all[wrongAt]);
}

function wrongShown(at, it) {
  if (it.l) wentTo(it.l);
  else if (at !== state.turn) turnedTo(at);
  if (it.at) {
    view.scale = Math.max(view.scale, 12 * dpr());
    view.x = it.at[0] - map.width / view.scale / 2;
    view.z = it.at[1] - map.height / view.scale / 2;
    redraw();
  }
}

const pointOf = (event) => {
  const side = map.getBoundingClientRect(), a = (event.clientX - side.left) * dpr(), b = (event.clientY - side.top) * dpr();
  return { a, b, x: a / view.scale + view.x, z: (map.height - b) / view.scale + view.z };
};

function zoomed(factor, a = map.width / 2, b = map.height / 2) {
  const x = a / view.scale + view.x, z = (map.height - b) / view.scale + view.z;
  const least = 0.3 * Math.min(map.width / data.w, map.height / data.h);
  view.scale = Math.max(Math.min(least, 1), Math.min(160 * dpr(), view.scale * factor));
  view.x = x - a / view.scale;
  view.z = z - (map.height - b) / view.scale;
  redraw();
}

function pointing() {
  let held = null;
  map.addEventListener("wheel", (event) => {
    event.preventDefault();
    const { a, b } = pointOf(event);
    zoomed(Math.exp(-event.deltaY * 0.0016), a, b);
  }, { passive: false });
  map.addEventListener("pointerdown", (event) => { held = { ...pointOf(event), far: false }; map.setPointerCapture(event.pointerId); });
  map.addEventListener("pointermove", (event) => {
    if (!held) return tipped(event);
    const { a, b } = pointOf(event);
    held.far = held.far || Math.hypot(a - held.a, b - held.b) > 4 * dpr();
    if (!held.far) return;
    view.x = held.x - a / view.scale;
    view.z = held.z - (map.height - b) / view.scale;
    by("tip").hidden = true;
    redraw();
  });
  map.addEventListener("pointerup", (event) => {
    if (held && !held.far) { const { x, z } = pointOf(event); chosen(postAt(x, z) || standingAt(x, z)[0]?.post || null, false); }
    held = null;
  });
  map.addEventListener("pointerleave", () => { by("tip").hidden = true; pointed(null, null); });
}

function stepped(step) {
  const posts = shown(), at = posts.indexOf(state.post), from = at < 0 && step < 0 ? 0 : at;
  if (posts.length) chosen(posts[(from + step + posts.length) % posts.length], true);
}

function keyed(event) {
  if (event.ctrlKey || event.metaKey || event.altKey || ["INPUT", "SELECT"].includes(event.target.tagName) && event.target.type !== "range") return;
  const acts = {
    ArrowLeft: () => turnedTo(state.turn - 1), ArrowRight: () => turnedTo(state.turn + 1), Home: () => turnedTo(0), End: () => turnedTo(data.turns.length - 1),
    c: () => classed((state.k + 1) % data.classes.length), p: () => called(state.caller + 1 < data.callers ? state.caller + 1 : -1),
    "+": () => zoomed(1.5), "=": () => zoomed(1.5), "-": () => zoomed(1 / 1.5), 0: () => { fitted(); redraw(); }, f: () => layered("field", !state.on.field), n: wrongNext,
    j: () => stepped(1), k: () => stepped(-1), g: () => by("line").focus(), t: () => themed(state.theme === "dark" ? "light" : "dark"), Escape: () => chosen(null, false),
  };
  const layer = /^[1-9]$/.test(event.key) && LAYERS[event.key - 1];
  if (!layer && !acts[event.key]) return;
  event.preventDefault();
  if (layer) layered(layer[0], !state.on[layer[0]]);
  else acts[event.key]();
}

// ---- the address names what is looked at, so that it can be sent on

let remembering = 0;
/** Writes the address, once for many moves. */
function remembered() {
  clearTimeout(remembering);
  remembering = setTimeout(() => history.replaceState(null, "", "#" + address()), 200);
}

function address() {
  const on = LAYERS.filter(([name]) => state.on[name]).map(([name]) => name).join(",");
  const words = { turn: now().t, class: data.classes[state.k].name };
  if (state.caller >= 0) words.caller = state.caller;
  if (state.post) words.line = state.post.l;
  if (!isWhole()) words.at = [view.x + map.width / view.scale / 2, view.z + map.height / view.scale / 2, view.scale / dpr()].map((it) => +it.toFixed(2)).join(",");
  Object.assign(words, { layers: on, theme: state.theme });
  return Object.entries(words).map(([a, b]) => `${a}=${b}`).join("&");
}

/** Shows what the address names: the turn and the class behind the line, whose post may be of others. */
function recalled() {
  const words = Object.fromEntries(location.hash.slice(1).split("&").map((it) => it.split("=")));
  if (words.layers !== undefined) for (const [name] of LAYERS) state.on[name] = words.layers.split(",").includes(name);
  for (const [it] of LAYERS) by("layer-" + it).checked = state.on[it];
  if (CALLERS[words.theme]) state.theme = words.theme;
  document.documentElement.dataset.theme = state.theme;
  state.caller = words.caller >= 0 && words.caller < data.callers ? +words.caller : -1;
  by("caller").value = state.caller;
  const post = words.line && data.turns.flatMap((it) => it.posts).find((it) => it.l === +words.line), k = data.classes.findIndex((it) => it.name === words.class);
  const turn = data.turns.findIndex((it) => it.t === +words.turn);
  state.post = post || null;
  state.k = Math.max(0, k >= 0 || !post?.cls ? k : data.classes.findIndex((it) => it.name === post.cls));
  by("class").value = state.k;
  turnedTo(Math.max(0, turn >= 0 || !post ? turn : post.turn));
  if (words.line && !post) noted(`line ${words.line} has no post of a turn with answers`);
  const [x, z, scale] = (words.at || "").split(",").map(Number);
  if (scale > 0) view = { scale: scale * dpr(), x: x - map.width / scale / dpr() / 2, z: z - map.height / scale / dpr() / 2 };
  legended();
  redraw();
}

// ---- the panel

function legended() {
  const inks = INKS[state.theme], rows = [...inks.cells.map((ink, n) => [WHAT[n], (p) => { p.fillStyle = ink; p.fillRect(0, 0, 56, 32); }])];
  const stroke = (ink, dash, width = 4) => (p) => { p.strokeStyle = ink; p.lineWidth = width; p.setLineDash(dash); p.beginPath(); p.moveTo(3, 16); p.lineTo(53, 16); p.stroke(); };
  const shape = (name) => (p) => {
    p.strokeStyle = colour(0); p.lineWidth = 4; p.beginPath();
    if (name === "round") p.arc(28, 16, 9, 0, 7);
    else if (name === "square") p.rect(19, 7, 18, 18);
    else { p.moveTo(28, 3); p.lineTo(41, 16); p.lineTo(28, 29); p.lineTo(15, 16); p.closePath(); }
    p.fillStyle = name === "round" ? inks.halo : colour(0); p.fill(); p.stroke();
  };
  const ramped = (p) => { for (let x = 0; x < 56; x++) { p.fillStyle = `rgb(${rampAt(1 - x / 55).join(",")})`; p.fillRect(x, 0, 1, 32); } };
  rows.push(["outline of an obstruction of the class", stroke(inks.line, [], 3)], ["outline of one for other classes", stroke(inks.other, [8, 8], 3)]);
  for (let c = 0; c < Math.min(data.callers, 6); c++) rows.push([`path of caller ${c}` + (data.callers > 6 ? `, ${c + 6}, ..: its dash tells which` : ""), stroke(colour(c), [], 5)]);
  if (data.callers === 1) rows.push(["more paths: each has a colour", (p) => CALLERS[state.theme].forEach((ink, n) => { p.fillStyle = ink; p.fillRect(3 + 8.5 * n, 13, 8, 6); })]);
  else rows.push(["a caller's paths have shades of its colour", (p) => [0, 1, 2].forEach((n) => { p.fillStyle = inkOf({ c: 0, nth: n }); p.fillRect(3 + 17 * n, 13, 16, 6); })]);
  rows.push(["chosen path, or the one under the pointer", stroke(colour(0), [], 9)], ["where it turns", (p) => { p.lineWidth = 3; p.strokeStyle = colour(0); p.fillStyle = inks.halo; p.beginPath(); p.arc(28, 16, 5, 0, 7); p.fill(); p.stroke(); }]);
  rows.push(["where a path starts", shape("round")], ["where it ends, at the goal", shape("square")], ["where it ends, near the goal", shape("diamond")]);
  rows.push(["smoothed path, beside it", stroke(inks.ink, [10, 8], 3)], ["goal", stroke(colour(0), [16, 6], 4)], ["goal turned inside out", stroke(colour(0), [4, 10], 4)]);
  rows.push(["cells that the turn blocked", stroke(inks.change, [], 4)], ["cells that the turn freed", stroke(inks.change, [6, 6], 4)]);
  rows.push(["regions, areas: beside each other in other tints", (p) => TINTS[state.theme].forEach((ink, n) => { p.fillStyle = ink; p.fillRect(9.4 * n, 0, 9.4, 32); })]);
  rows.push(["field: near to the goal to far from it", ramped], ["the walk along it from the pointer", stroke(inks.ink, [4, 8], 4)], ["step of the field", (p) => { ramped(p); p.strokeStyle = "#111"; p.lineWidth = 3; p.beginPath(); p.moveTo(8, 16); p.lineTo(36, 16); p.moveTo(28, 9); p.lineTo(36, 16); p.lineTo(28, 23); p.stroke(); }]);
  rows.push(["contradiction", (p) => { p.strokeStyle = inks.alarm; p.lineWidth = 4; p.beginPath(); p.arc(28, 16, 13, 0, 7); p.moveTo(20, 8); p.lineTo(36, 24); p.moveTo(20, 24); p.lineTo(36, 8); p.stroke(); }]);
  by("legend").replaceChildren(...rows.map(([text, paint]) => {
    const row = made("li"), sample = Object.assign(document.createElement("canvas"), { width: 56, height: 32 });
    paint(sample.getContext("2d"));
    sample.className = WHAT.includes(text) ? "cell" : "";
    row.append(sample, made("span", text));
    return row;
  }));
}

function panelled() {
  by("title").textContent = data.title;
  by("about").textContent = `${data.w} × ${data.h} navcells, ${count(data.classes.length, "class")}, ${count(data.callers, "caller")}, ${count(data.turns.length, "turn")} with answers`;
  data.classes.forEach((it, k) => by("class").append(new Option(`${it.name} (${+(it.clearance / SIDE).toFixed(3)})`, k)));
  by("caller").append(new Option("all", -1));
  for (let c = 0; c < data.callers; c++) by("caller").append(new Option(c, c));
  by("turn").max = Math.max(0, data.turns.length - 1);
  LAYERS.forEach(([name, text], n) => {
    const box = Object.assign(made("input"), { type: "checkbox", id: "layer-" + name }), row = made("label");
    box.onchange = () => layered(name, box.checked);
    row.append(box, ` ${n + 1} ${text}`);
    by("layers").append(row);
  });
  for (const [key, text] of KEYS) by("keys").append(made("dt", key), made("dd", text));
  const wrong = [...data.turns.flatMap((turn, at) => turn.wrong.map((it) => [at, it])), ...data.wrong.map((it) => [0, it])];
  by("wrong").hidden = !wrong.length;
  by("alarm").hidden = !wrong.length && !data.bad && !data.early;
  by("alarm").textContent = [wrong.length ? `✕ ${count(wrong.length, "contradiction")}` : "", data.early, data.bad ? `the script ends at its bad line ${data.bad}` : ""].filter(Boolean).join("; ");
  by("alarm").onclick = wrongNext;
  by("wrong-list").replaceChildren(...wrong.slice(0, ROWS).map(([at, it]) => {
    const row = made("li", `✕ turn ${it.t}${it.l ? `, script line ${it.l}` : ""}: ${it.text}`);
    row.onclick = () => wrongShown(at, it);
    return row;
  }));
  by("turn").oninput = () => turnedTo(+by("turn").value);
  by("class").onchange = () => classed(+by("class").value);
  by("caller").onchange = () => called(+by("caller").value);
  by("line").onchange = () => wentTo(+by("line").value);
  by("fit").onclick = () => { fitted(); redraw(); };
  by("in").onclick = () => zoomed(1.5);
  by("out").onclick = () => zoomed(1 / 1.5);
  by("theme").onclick = () => themed(state.theme === "dark" ? "light" : "dark");
}

/** Whether the whole map is seen, as at the start. */
function isWhole() {
  const was = { ...view };
  fitted();
  const isSame = view.scale === was.scale && view.x === was.x && view.z === was.z;
  view = was;
  return isSame;
}

/** Takes the room that the window leaves. A map that was seen whole is so again; else its middle stays in the middle. */
function sized() {
  const side = map.getBoundingClientRect(), was = { ...view }, wasWhole = isWhole();
  const x = was.x + map.width / was.scale / 2, z = was.z + map.height / was.scale / 2;
  map.width = Math.max(1, Math.round(side.width * dpr()));
  map.height = Math.max(1, Math.round(side.height * dpr()));
  if (wasWhole) fitted();
  else view = { scale: was.scale, x: x - map.width / was.scale / 2, z: z - map.height / was.scale / 2 };
  redraw();
}

async function started() {
  data = JSON.parse(new TextDecoder().decode(await inflated("data")));
  numbered();
  base = new Uint8Array(await inflated("base"));
  state.theme = matchMedia("(prefers-color-scheme: dark)").matches ? "dark" : "light";
  sized();
  fitted();
  panelled();
  recalled();
  by("busy").hidden = true;
  pointing();
  window.addEventListener("resize", sized);
  window.addEventListener("hashchange", recalled);
  document.addEventListener("keydown", keyed);
}
const ready = started();
ready.catch((fault) => (by("busy").textContent = `this page could not be read: ${fault.message}`));
