// Plays scripts by posts with the package for JavaScript, and writes what the program writes of them: node posts.mjs PACKAGE MODULE
// < SCRIPTS, before each of which stands its length in a line. Before each text stands 1 and its length. A script of which a
// post names no class of its map is left out, and 0 0 stands for its text. After each turn a view is asked what the turn was, and
// a finder what the view was; flow fields, lines of sight and smoothed waypoints have to fit the paths.
import assert from "node:assert/strict";
import { readFileSync, writeSync } from "node:fs";
import { pathToFileURL } from "node:url";

const [place, file] = process.argv.slice(2);
const its = await import(pathToFileURL(place));
const library = await its.load(readFileSync(file)), finder = library.finder();

/** A decimal, cut to a whole number of which 65,536 are a navcell's side. */
function raw(text) {
  const [, sign, whole, part = ""] = /^(-?)(\d+)(?:\.(\d+))?$/.exec(text);
  const number = BigInt(whole + part) * 65536n / 10n ** BigInt(part.length);
  return Number(sign ? -number : number);
}

function goalOf(goal) {
  const [[kind, values]] = Object.entries(goal), outside = kind.startsWith("not-");
  const numbers = values.map((it) => (typeof it === "string" ? raw(it) : it));
  return outside ? its.Goal[kind.slice(4)](...numbers, true) : its.Goal[kind](...numbers);
}

function postOf(line, version, names) {
  const { caller } = line, mask = version > 1 ? line.mask : 65535, k = names.indexOf(line.path ?? line.region);
  if (line.unit) return its.addUnit(caller, line.add, mask, ...line.unit.map(raw));
  if (line.square) return its.addSquare(caller, line.add, mask, ...line.square.map(raw));
  if (line.remove !== undefined) return its.remove(caller, line.remove);
  if (line.move !== undefined) return its.move(caller, line.move, ...line.to.map(raw));
  if (k < 0) return null;
  return line.path ? its.path(caller, k, ...line.from.map(raw), goalOf(line.goal)) : its.region(caller, k, ...line.at.map(raw));
}

function lineOf({ caller, post, kind, id, why, path, region }) {
  const middle = (it) => `${it.i}.5,${it.j}.5`;
  let said = kind + (id === undefined ? "" : ` ${id}`);
  if (why) said = `refused ${why}`;
  if (region) said = `region ${region.chunk.i} ${region.chunk.j} ${region.region} ${region.area}`;
  if (path) {
    const { start, end, cost, waypoints } = path, word = kind === "at-goal" ? "goal" : "near";
    said = ["path", start.i, start.j, end.i, end.j, word, cost, waypoints.length, ...waypoints.map(middle)].join(" ");
  }
  return `${caller} ${post} ${said}\n`;
}

/** What stands after posts, in the order of their replies, by number: each as caller 0 would add it. */
function stand(standing, asked, replies) {
  asked.forEach((post, n) => {
    const { kind } = replies[n];
    if (kind === "added") standing.set(post.id, { ...post, caller: 0 });
    if (kind === "moved") standing.set(post.id, { ...standing.get(post.id), x: post.x, z: post.z });
    if (kind === "removed") standing.delete(post.id);
  });
}

/** A path is led by its field, and its waypoints are smoothed. */
function led(view, post, reply, [width, height]) {
  const field = view.field(post, width, height);
  if (!reply.path) return assert.equal(field, null);
  const { start, end, cost, waypoints } = reply.path;
  assert.deepEqual(field.reply, { ...reply, path: { ...reply.path, waypoints: [] } });
  assert.deepEqual([field.steps.length, field.distances.length, field.distance(start)], [width * height, width * height, cost]);
  let at = start, left = cost;
  for (let next = field.next(at); next.i !== at.i || next.j !== at.j; next = field.next(at)) {
    left -= next.i !== at.i && next.j !== at.j ? 92682 : 65536;
    at = next;
    assert.equal(field.distance(at), left);
  }
  assert.equal(left, 0);
  if (reply.kind === "near-goal") assert.deepEqual(at, end);
  field.steps.forEach((step, n) => assert.equal(step === its.NO_STEP, field.distances[n] === Infinity));
  const kept = view.smooth(post.classNumber, start, waypoints), walk = [start, ...kept];
  assert.deepEqual(kept.at(-1), waypoints.at(-1));
  assert.ok(kept.every((it) => waypoints.some(({ i, j }) => i === it.i && j === it.j)));
  kept.forEach((it, n) => assert.ok(view.clear(post.classNumber, walk[n], it)));
  if (kept.length > 1) assert.ok(waypoints.length > 63 || !view.clear(post.classNumber, start, end));
}

function looked(match, asked, replies, standing, size) {
  const view = match.view(), requests = [];
  stand(standing, asked, replies);
  assert.deepEqual(view.size(), { width: size[0], height: size[1] });
  for (const id of new Set([...standing.keys(), ...asked.map((it) => it.id ?? 0)])) assert.deepEqual(view.standingAt(id), standing.get(id) ?? null);
  asked.forEach((post, n) => {
    if (post.kind < 5) return;
    const reply = { ...replies[n], post: 0 };
    requests.push([post, reply]);
    assert.deepEqual(view.find(post), reply);
    assert.deepEqual(finder.find(view, post), reply);
    if (post.kind === 6) return;
    if (reply.path) assert.deepEqual(view.nearest(post.classNumber, post.x, post.z), reply.path.start);
    if (reply.kind === "nowhere" || reply.why === "start-outside") assert.equal(view.nearest(post.classNumber, post.x, post.z), null);
    const near = reply.kind === "near-goal" ? { end: reply.path.end } : {};
    assert.deepEqual(view.reachable(post), { kind: reply.kind, ...near });
    led(view, post, reply, size);
  });
  const all = finder.findAll(view, requests.map(([post]) => post));
  assert.deepEqual(all, requests.map(([, reply], place) => ({ ...reply, post: place })));
  view.close();
}

/** A match that is opened from its journal or from what stands, or that forgets, is where it was. */
function saved(match) {
  const view = match.view(), snapshot = view.snapshot(), last = match.digest();
  const whole = library.scriptMatch(match.journal()), late = library.scriptMatch(snapshot);
  assert.equal(whole.digest(), last);
  for (const it of [whole, late]) {
    const stands = it.view();
    assert.deepEqual([stands.snapshot(), stands.digest()], [snapshot, view.digest()]);
    stands.close();
    it.forget();
  }
  match.forget();
  if (last !== 0n) for (const it of [match, whole, late]) assert.deepEqual(it.journal(), snapshot);
  assert.equal(match.digest(), last);
  assert.throws(() => library.scriptMatch(new Uint8Array([10])), { name: "BadScript", line: 1, cause: "the line must be one JSON value, and is blank" });
  assert.deepEqual(library.causeOf(snapshot), { line: 0, cause: "" });
  [view, whole, late].forEach((it) => it.close());
}

function played(script) {
  const lines = script.trimEnd().split("\n").map((it) => JSON.parse(it)), { version, size, callers, classes } = lines[0];
  const names = classes.map((it) => it.name), posts = lines.slice(1).map((it) => (it.caller === undefined ? it : postOf(it, version, names)));
  if (posts.includes(null)) return null;
  const base = posts.flatMap((it) => it.base ?? []).map(([i0, j0, i1, j1, mask]) => ({ i0, j0, i1, j1, mask }));
  const its = classes.map(({ name, clearance }) => ({ name, clearance: raw(clearance) }));
  const match = library.postedMatch({ width: size[0], height: size[1], callers, classes: its, base });
  const standing = new Map();
  let text = "", waiting = [];
  for (const it of posts) {
    if (it.kind) waiting.push(it);
    if (it.end === undefined) continue;
    match.post(...waiting.slice(0, 1));
    match.post(...waiting.slice(1));
    const turn = match.endTurn(), asked = waiting.sort((one, other) => one.caller - other.caller);
    waiting = [];
    looked(match, asked, turn.replies, standing, size);
    text += `turn ${turn.turn} regions ${turn.regions} edges ${turn.edges} areas ${turn.areas} relabelled ${turn.relabelled}\n`;
    text += turn.replies.map(lineOf).join("");
  }
  const again = library.textMatch();
  again.feed(match.journal());
  if (again.takeText() !== text) throw new Error("the journal is answered otherwise");
  again.close();
  saved(match);
  match.close();
  return text;
}

const failed = (status) => (it) => it instanceof its.Failed && it.status === status;
const WALKER = { width: 3, height: 2, callers: 1, classes: [{ name: "walker", clearance: 0 }] };

function texts() {
  const { CLOSED, BAD_LINE } = its.Status;
  const said = [["status_text", CLOSED], ["refusal_text", 4], ["fault_text", 3]].map((it) => library.textOf(...it));
  assert.deepEqual(said, ["the handle is closed", "unknown-id", "the map has no such class"]);
  assert.match(library.textOf("version_text"), /^\d+\.\d+\.\d+$/);
  const bad = library.textMatch();
  assert.equal(bad.cause(), "");
  assert.throws(() => bad.feed("\n"), failed(BAD_LINE));
  assert.equal(bad.cause(), "the line must be one JSON value, and is blank");
  bad.close();
}

function grids() {
  const match = library.postedMatch({ ...WALKER, masks: [1, 0, 1, 2, 3, 0] }), view = match.view();
  const cells = [0, 1].flatMap((j) => [0, 1, 2].map((i) => view.passable(0, i, j)));
  assert.deepEqual(cells, [false, true, false, true, false, true]);
  assert.throws(() => library.postedMatch({ ...WALKER, masks: [1, 0, 1, 2, 3] }), failed(its.Status.BAD_VALUE));
  assert.throws(() => library.postedMatch({ ...WALKER, masks: [1, 0, 1, 2, 3, 65536] }), RangeError);
  view.close();
  match.close();
}

function limits() {
  const match = library.postedMatch(WALKER), ask = its.region(0, 0, 0, 0);
  match.limitPosts(2);
  match.post(ask);
  assert.throws(() => match.post(ask, ask), failed(its.Status.PAST_LIMIT));
  match.post(ask);
  assert.equal(match.endTurn().replies.length, 2);
  match.close();
  const lines = library.textMatch();
  lines.limitLine(1);
  assert.throws(() => lines.feed("{}\n"), failed(its.Status.PAST_LIMIT));
  lines.close();
}

texts();
grids();
limits();
const given = readFileSync(0), told = [];
for (let at = 0; at < given.length; ) {
  const end = given.indexOf(10, at), length = Number(given.toString("latin1", at, end));
  at = end + 1 + length;
  const text = played(given.toString("utf8", end + 1, at));
  told.push(text === null ? "0 0\n" : `1 ${text.length}\n${text}`);
}
finder.close();
const whole = Buffer.from(told.join(""));
for (let at = 0; at < whole.length; ) at += writeSync(1, whole, at);
