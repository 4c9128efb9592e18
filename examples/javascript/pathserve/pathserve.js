// The library libpathserve for JavaScript: matches by text and by posts, views, and finders. No browser and no Node needs anything
// else.
//
//     const library = await load();
//     const match = library.textMatch();
//     match.feed(script);
//     console.log(match.takeText());
//     match.close();
//
// `pathserve.wasm` lies beside this file, unless `load` is given another place, its bytes or its module. What each call owes and
// gives stands in pathserve.h; a status that is not DONE is thrown as a `Failed`. What was opened is closed by `close`: its
// memory is not collected.

const VERSION = [0, 1], ANSWERS = 2;
/** The words of the program that answer a script, each at its number. */
export const REPORTS = Object.freeze(["replay", "profile", "flow", "smooth"]);

/** The side of a navcell: coordinates and lengths are whole numbers. */
export const NAVCELL = 65536;

/** A length in navcells as a whole number, rounded down. */
export const fixed = (navcells) => Math.floor(navcells * NAVCELL);

export const Status = Object.freeze({
  DONE: 0, BAD_LINE: 3, NO_MEMORY: 6, TOO_LONG: 7, CLOSED: 16, OPEN: 17, OTHER: 18, ENDED: 19, NO_MAP: 20, BAD_VALUE: 21, SMALL: 22,
  PAST_LIMIT: 23, NO_JOURNAL: 24
});

/** What is wrong with a post, as `check` says it. */
export const PostFault = Object.freeze({ WRONG_KIND: 1, WRONG_CALLER: 2, WRONG_CLASS: 3, WRONG_GOAL: 4, NOT_ZERO: 5 });

/** The kinds of posts, and of the goals of paths. */
export const PostKind = Object.freeze({ ADD_UNIT: 1, ADD_SQUARE: 2, REMOVE: 3, MOVE: 4, PATH: 5, REGION: 6 });
export const GoalKind = Object.freeze({ POINT: 1, CIRCLE: 2, NOT_CIRCLE: 3, SQUARE: 4, NOT_SQUARE: 5, OBSTRUCTION: 6 });

const nameOf = (status) => Object.keys(Status).find((it) => Status[it] === status) ?? `status ${status}`;

/** A call that ended with another status than DONE. Of a `feed` without memory, `taken` is how many bytes were taken. */
export class Failed extends Error {
  constructor(status, taken = 0) {
    super(nameOf(status));
    Object.assign(this, { name: "Failed", status, taken });
  }
}

/** A script that opens no match: its line of this number is not in the grammar in its place, and why; or past its limit, without a
 * cause. */
export class BadScript extends Failed {
  constructor(status, line, cause) {
    super(status);
    Object.assign(this, { name: "BadScript", line, cause });
  }
}

function must(status) {
  if (status !== Status.DONE) throw new Failed(status);
}

// ---- structs, as pathserve.h declares them

const cell = (name) => [[`${name}.i`, "Uint16"], [`${name}.j`, "Uint16"]];
const all = (kind, ...names) => names.map((it) => [it, kind]);

/** Where each field of a struct lies, and how large the struct is. */
function struct(...fields) {
  let at = 0;
  const places = new Map();
  for (const [name, kind] of fields) {
    const bytes = Number(/\d+/.exec(kind)[0]) / 8;
    at = Math.ceil(at / bytes) * bytes;
    places.set(name, [kind, at]);
    at += bytes;
  }
  return { places, size: at };
}

const MAP = struct(...all("Uint32", "width", "height", "callers"));
const RECT = struct(...all("Uint16", "i0", "j0", "i1", "j1", "mask", "zero"));
const POST = struct(
  ...all("Uint8", "kind", "caller", "classNumber", "goal"), ...all("Uint16", "mask", "zero"), ["id", "Uint32"],
  ...all("Int32", "x", "z", "goalX", "goalZ", "ux", "uz", "hw", "hh", "radius"),
);
const TURN = struct(
  ...all("BigUint64", "turn", "regions", "edges", "areas", "replies", "waypoints"), ...all("Uint32", "relabelled", "zero"),
);
const REPLY = struct(
  ...all("Uint8", "kind", "caller", "why", "zero"), ...all("Uint32", "post", "id"), ...cell("start"), ...cell("end"), ...cell("chunk"),
  ...all("Uint16", "region", "zeroToo"), ["area", "Uint32"], ...all("BigUint64", "waypoints", "firstWaypoint", "cost"),
);
const HANDLE = 16, CLASS = 72, CELL = 4, NAME = 64, MASK = 2, TEXT = 96;
// in the order of PATHSERVE_SIZE_..
const SIZES = [HANDLE, HANDLE, MAP.size, CLASS, RECT.size, POST.size, TURN.size, REPLY.size, CELL, HANDLE];
const LEAST = { Uint8: 0, Uint16: 0, Uint32: 0, Uint53: 0, Int32: -0x80000000 };
const MOST = { Uint8: 255, Uint16: 65535, Uint32: 0xffffffff, Uint53: Number.MAX_SAFE_INTEGER, Int32: 0x7fffffff };

function fitting(name, kind, value) {
  if (!Number.isInteger(value) || value < LEAST[kind] || value > MOST[kind]) throw new RangeError(`${name} cannot be ${value}`);
  return value;
}

// ---- posts

/** Adds a square along the axes under a number, for the classes of the mask. */
export const addUnit = (caller, id, mask, x, z, half) => ({ kind: PostKind.ADD_UNIT, caller, id, mask, x, z, radius: half });
/** Adds a rectangle along the unit vector (ux, uz) under a number, for the classes of the mask. */
export const addSquare = (caller, id, mask, x, z, ux, uz, hw, hh) => ({ kind: PostKind.ADD_SQUARE, caller, id, mask, x, z, ux, uz, hw, hh });
export const remove = (caller, id) => ({ kind: PostKind.REMOVE, caller, id });
export const move = (caller, id, x, z) => ({ kind: PostKind.MOVE, caller, id, x, z });
/** Asks for a path of a class from the point (x, z) to a goal. */
export const path = (caller, classNumber, x, z, goal) => ({ kind: PostKind.PATH, caller, classNumber, x, z, ...goal });
/** Asks in which region and area of a class the point (x, z) lies. */
export const region = (caller, classNumber, x, z) => ({ kind: PostKind.REGION, caller, classNumber, x, z });

/** The post by which caller 0 adds the obstruction of these fields. */
const addOf = ({ kind, id, mask, x, z, ux, uz, hw, hh, radius }) =>
  kind === PostKind.ADD_UNIT ? addUnit(0, id, mask, x, z, radius) : addSquare(0, id, mask, x, z, ux, uz, hw, hh);

/** Where a path shall lead. */
export const Goal = Object.freeze({
  point: (goalX, goalZ) => ({ goal: GoalKind.POINT, goalX, goalZ }),
  circle: (goalX, goalZ, radius, outside = false) => ({ goal: outside ? GoalKind.NOT_CIRCLE : GoalKind.CIRCLE, goalX, goalZ, radius }),
  square: (goalX, goalZ, ux, uz, hw, hh, outside = false) => ({ goal: outside ? GoalKind.NOT_SQUARE : GoalKind.SQUARE, goalX, goalZ, ux, uz, hw, hh }),
  obstruction: (id, distance) => ({ goal: GoalKind.OBSTRUCTION, id, radius: distance }),
});

const KINDS = ["", "added", "removed", "moved", "refused", "nowhere", "at-goal", "near-goal", "in-region", "too-far"];
const WHYS = ["", "bad-shape", "duplicate-id", "store-full", "unknown-id", "unknown-class", "start-outside", "goal-outside"];

function replyOf(it, waypoints) {
  const kind = KINDS[it.kind], reply = { caller: it.caller, post: it.post, kind };
  if (it.kind <= 3) reply.id = it.id;
  else if (kind === "refused") reply.why = WHYS[it.why];
  else if (kind === "at-goal" || kind === "near-goal") {
    const its = waypoints.slice(it.firstWaypoint, it.firstWaypoint + it.waypoints);
    const [start, end] = ["start", "end"].map((of) => ({ i: it[`${of}.i`], j: it[`${of}.j`] }));
    reply.path = { start, end, cost: it.cost, waypoints: its };
  } else if (kind === "in-region") {
    reply.region = { chunk: { i: it["chunk.i"], j: it["chunk.j"] }, region: it.region, area: it.area };
  }
  return reply;
}

// ---- flow fields

/** How far each step of a field leads, by its number: none, N, E, S, W, NE, SE, SW, NW, and where a unit stays. */
export const WAYS = Object.freeze([[0, 0], [0, 1], [1, 0], [0, -1], [-1, 0], [1, 1], [1, -1], [-1, -1], [-1, 1], [0, 0]]);
export const NO_STEP = 0;
export const STAYS = 9;
const NO_DISTANCE = 0xffffffff; // the upper half of PATHSERVE_NO_DISTANCE

/** From each cell of a map the step to take to a goal that a group has in common, row by row: see `View.field`. */
export class FlowField {
  constructor(reply, width, steps, distances) {
    Object.assign(this, { reply, width, steps, distances });
  }

  /** Where a unit on this cell goes next: the cell itself where it has arrived, null where it can't. */
  next({ i, j }) {
    const step = this.steps[j * this.width + i];
    return step === NO_STEP ? null : { i: i + WAYS[step][0], j: j + WAYS[step][1] };
  }

  /** What the cheapest walk from this cell costs: Infinity where it has none. */
  distance({ i, j }) {
    return this.distances[j * this.width + i];
  }
}

// ---- the module

/** The module of a place, of bytes, or as it is. */
async function moduleOf(source) {
  if (source instanceof WebAssembly.Module) return source;
  if (source instanceof ArrayBuffer || ArrayBuffer.isView(source)) return WebAssembly.compile(source);
  const place = new URL(source, import.meta.url);
  if (place.protocol === "file:" && typeof process !== "undefined") {
    const { readFile } = await import("node:fs/promises");
    return WebAssembly.compile(await readFile(place));
  }
  const answer = await fetch(place);
  if (!answer.ok) throw new Error(`${place} is not there: ${answer.status}`);
  return WebAssembly.compile(await answer.arrayBuffer());
}

/** The library of the file `pathserve.wasm` beside this one, or of another place, of bytes, or of a module. */
export async function load(source = "pathserve.wasm") {
  return new Library(await WebAssembly.instantiate(await moduleOf(source), {}));
}

/** An instance of the library, with a memory of its own. */
export class Library {
  #calls;
  #room = 0;
  #held = 0;

  constructor(instance) {
    this.#calls = instance.exports;
    const version = this.call("version"), answers = this.call("answers");
    if (version >> 16 !== VERSION[0] || (version >> 8 & 255) !== VERSION[1] || answers !== ANSWERS) {
      throw new Error(`libpathserve has the version ${version >> 16}.${version >> 8 & 255} with answers ${answers}`);
    }
    SIZES.forEach((size, n) => {
      if (Number(this.call("size_of", n + 1)) !== size) throw new Error(`struct ${n + 1} has another size in libpathserve`);
    });
  }

  /** Calls a function of pathserve.h. Addresses, lengths and numbers of 64 bits are BigInts, as WebAssembly has them. */
  call(name, ...words) {
    const told = this.#calls[`pathserve_${name}`](...words);
    return typeof told === "number" ? told >>> 0 : told;
  }

  /** The memory as it is now: it may grow in a call. */
  get bytes() {
    return new Uint8Array(this.#calls.memory.buffer);
  }

  get data() {
    return new DataView(this.#calls.memory.buffer);
  }

  /** New memory, all zero. */
  allocate(size) {
    const at = Number(this.#calls.malloc(BigInt(size)));
    if (!at) throw new Failed(Status.NO_MEMORY);
    this.bytes.fill(0, at, at + size);
    return at;
  }

  free(at) {
    this.#calls.free(BigInt(at));
  }

  /** Room for one call, of parts of these sizes: their addresses. The next call has the same room. */
  room(...sizes) {
    const starts = [];
    let size = 0;
    for (const it of sizes) {
      starts.push(size);
      size += Math.ceil(it / 8) * 8;
    }
    if (size > this.#held) {
      const at = this.allocate(size);
      if (this.#held) this.free(this.#room);
      [this.#room, this.#held] = [at, size];
    }
    return starts.map((it) => this.#room + it);
  }

  /** Writes the fields of a struct; those that are left out are 0. */
  write(at, { places, size }, fields) {
    const data = this.data;
    this.bytes.fill(0, at, at + size);
    for (const [name, value] of Object.entries(fields)) {
      const [kind, place] = places.get(name) ?? [];
      if (!kind) throw new TypeError(`there is no field ${name}`);
      data[`set${kind}`](at + place, fitting(name, kind, value), true);
    }
  }

  read(at, { places }) {
    const data = this.data, fields = {};
    for (const [name, [kind, place]] of places) fields[name] = Number(data[`get${kind}`](at + place, true));
    return fields;
  }

  cells(at, count) {
    const data = this.data;
    return Array.from({ length: count }, (_, n) => ({ i: data.getUint16(at + CELL * n, true), j: data.getUint16(at + CELL * n + 2, true) }));
  }

  writeCells(at, cells) {
    const data = this.data;
    cells.forEach(({ i, j }, n) => {
      data.setUint16(at + CELL * n, fitting("i", "Uint16", i), true);
      data.setUint16(at + CELL * n + 2, fitting("j", "Uint16", j), true);
    });
  }

  /** Numbers of 64 bits, of which the greatest is Infinity. */
  distances(at, count) {
    const data = this.data, half = (place) => data.getUint32(place, true), far = new Float64Array(count);
    for (let n = 0; n < count; n++) {
      const high = half(at + 8 * n + 4);
      far[n] = high === NO_DISTANCE ? Infinity : high * 2 ** 32 + half(at + 8 * n);
    }
    return far;
  }

  /** What the library says of a number, by `status_text` and its like, or of its version, by `version_text`. */
  textOf(name, ...numbers) {
    const [at] = this.room(TEXT);
    const count = Number(this.call(name, ...numbers, BigInt(at), BigInt(TEXT)));
    return new TextDecoder().decode(this.bytes.slice(at, at + count));
  }

  /** A match by the text of its script, as the program plays it with one of the words `REPORTS`. */
  textMatch(report = "replay") {
    return new TextMatch(this, report);
  }

  /** A match on a map, whose turns are posts. */
  postedMatch(map) {
    return new PostedMatch(this, map);
  }

  /** A match in which the bytes of a whole script of version 3 were played, such as a journal or a snapshot. */
  scriptMatch(script) {
    return new PostedMatch(this, script);
  }

  #causeIn(script, count) {
    const [line, whole, at, text] = this.room(8, 8, script.length, count);
    this.bytes.set(script, at);
    const status = this.call("script_cause", ...[at, script.length, line, text, count, whole].map(BigInt));
    const number = (place) => Number(this.data.getBigUint64(place, true));
    const cause = new TextDecoder().decode(this.bytes.slice(text, text + count));
    return { status, size: number(whole), line: number(line), cause };
  }

  /** The line at which a script is bad, and why, as the program says it. Line 0 and no cause where none is. */
  causeOf(script) {
    const asked = this.#causeIn(script, 0);
    const { status, line, cause } = asked.status === Status.SMALL ? this.#causeIn(script, asked.size) : asked;
    must(status);
    return { line, cause };
  }

  /** The memory of searches, for views of any match of this library. */
  finder() {
    return new Finder(this);
  }
}

// ---- what has a handle

class Owner {
  #close;

  constructor(library, close) {
    this.library = library;
    this.handle = library.allocate(HANDLE);
    this.#close = close;
  }

  /** The address of the handle, which is open. */
  get address() {
    if (!this.handle) throw new Failed(Status.CLOSED);
    return BigInt(this.handle);
  }

  /** Calls a function with the handle. */
  call(name, ...words) {
    return this.library.call(name, this.address, ...words);
  }

  /** Frees what it has. Closing twice is no harm. */
  close() {
    if (!this.handle) return;
    this.call(this.#close);
    this.library.free(this.handle);
    this.handle = 0;
  }

  /** The bytes that a function writes, whose count it tells where its buffer is too small. */
  written(name) {
    let [whole] = this.library.room(8);
    const status = this.call(name, 0n, 0n, BigInt(whole));
    if (status !== Status.SMALL) must(status);
    const count = Number(this.library.data.getBigUint64(whole, true));
    const [again, at] = this.library.room(8, count);
    must(this.call(name, BigInt(at), BigInt(count), BigInt(again)));
    return this.library.bytes.slice(at, at + count);
  }

  /** The number of 64 bits that a function tells, a BigInt. */
  number(name) {
    const [at] = this.library.room(8);
    must(this.call(name, BigInt(at)));
    return this.library.data.getBigUint64(at, true);
  }

  /** Keeps what was opened with DONE, and else frees the handle. */
  opened(status) {
    if (status !== Status.DONE) this.close();
    must(status);
  }
}

class Match extends Owner {
  constructor(library) {
    super(library, "close");
  }

  /** What stands after the turns that have ended. */
  view() {
    const view = new View(this.library);
    view.opened(this.call("view_of", BigInt(view.handle)));
    return view;
  }
}

/** A match by text: see `Library.textMatch`. */
export class TextMatch extends Match {
  constructor(library, report) {
    super(library);
    this.opened(this.call("open", REPORTS.includes(report) ? REPORTS.indexOf(report) : REPORTS.length));
  }

  /** Feeds the next bytes or text, cut anywhere. What is told waits, also where this throws BAD_LINE. */
  feed(script) {
    const bytes = typeof script === "string" ? new TextEncoder().encode(script) : script;
    const [taken, at] = this.library.room(8, bytes.length);
    this.library.bytes.set(bytes, at);
    const status = this.call("feed", BigInt(at), BigInt(bytes.length), BigInt(taken));
    if (status === Status.NO_MEMORY) throw new Failed(status, Number(this.library.data.getBigUint64(taken, true)));
    must(status);
  }

  /** Lets a line have at most so many bytes. */
  limitLine(most) {
    must(this.call("limit_line", BigInt(most)));
  }

  /** Tells that no more bytes come. */
  finish() {
    must(this.call("finish"));
  }

  /** Why the line is bad at which the match has stopped, as the program says it. Empty as long as no line was bad. */
  cause() {
    return new TextDecoder().decode(this.written("cause"));
  }

  /** The bytes that wait. None waits then. */
  take() {
    const count = Number(this.call("waiting"));
    const [at] = this.library.room(count);
    const taken = Number(this.call("take", BigInt(at), BigInt(count)));
    return this.library.bytes.slice(at, at + taken);
  }

  /** The text that waits. */
  takeText() {
    return new TextDecoder().decode(this.take());
  }
}

/** A match by posts: see `Library.postedMatch`. */
export class PostedMatch extends Match {
  constructor(library, start) {
    super(library);
    if (ArrayBuffer.isView(start)) this.#openScript(start);
    else this.#openMap(start);
  }

  #openScript(script) {
    const [line, at] = this.library.room(8, script.length);
    this.library.bytes.set(script, at);
    const status = this.call("open_script", BigInt(at), BigInt(script.length), BigInt(line));
    const isBad = status === Status.BAD_LINE || status === Status.TOO_LONG;
    const bad = isBad ? Number(this.library.data.getBigUint64(line, true)) : 0;
    if (status !== Status.DONE) this.close();
    if (isBad) throw new BadScript(status, bad, this.library.causeOf(script).cause);
    must(status);
  }

  #openMap({ width, height, callers, classes, base = [], masks = null }) {
    const { library } = this;
    const terrain = masks ? MASK * masks.length : RECT.size * base.length;
    const [map, itsClasses, itsTerrain] = library.room(MAP.size, CLASS * classes.length, terrain);
    library.write(map, MAP, { width, height, callers });
    classes.forEach((it, n) => this.#writeClass(itsClasses + CLASS * n, it));
    if (masks) this.#writeMasks(itsTerrain, masks);
    else base.forEach((it, n) => library.write(itsTerrain + RECT.size * n, RECT, it));
    const words = [map, itsClasses, classes.length, itsTerrain, (masks ?? base).length];
    this.opened(this.call(masks ? "open_grid" : "open_map", ...words.map(BigInt)));
  }

  #writeMasks(at, masks) {
    const { data } = this.library;
    masks.forEach((it, n) => data.setUint16(at + MASK * n, fitting("mask", "Uint16", it), true));
  }

  #writeClass(at, { name, clearance }) {
    const letters = new TextEncoder().encode(name), { bytes, data } = this.library;
    bytes.fill(0, at, at + CLASS);
    bytes.set(letters.slice(0, NAME), at);
    data.setUint32(at + NAME, letters.length, true);
    data.setInt32(at + NAME + 4, fitting("clearance", "Int32", clearance), true);
  }

  /** Posts, behind those that the turn has: all or none. */
  post(...posts) {
    const [at] = this.library.room(POST.size * posts.length);
    posts.forEach((it, n) => this.library.write(at + POST.size * n, POST, it));
    must(this.call("post_all", BigInt(at), BigInt(posts.length)));
  }

  /** The place of the first of these posts that `post` would refuse, and the PostFault; null where it would refuse none. */
  check(...posts) {
    const [at, which, why] = this.library.room(POST.size * posts.length, 8, 4);
    posts.forEach((it, n) => this.library.write(at + POST.size * n, POST, it));
    const status = this.call("check", BigInt(at), BigInt(posts.length), BigInt(which), BigInt(why));
    if (status !== Status.BAD_VALUE) return null;
    const { data } = this.library;
    return { which: Number(data.getBigUint64(which, true)), why: data.getUint32(why, true) };
  }

  /** Makes the edits of the turn, and answers its requests on what they leave. */
  endTurn() {
    const [at] = this.library.room(TURN.size);
    must(this.call("end_turn", BigInt(at)));
    const turn = this.library.read(at, TURN);
    const [replies, cells] = this.library.room(REPLY.size * turn.replies, CELL * turn.waypoints);
    this.call("replies", 0n, BigInt(replies), BigInt(turn.replies));
    this.call("waypoints", 0n, BigInt(cells), BigInt(turn.waypoints));
    const waypoints = this.library.cells(cells, turn.waypoints);
    const told = Array.from({ length: turn.replies }, (_, n) => replyOf(this.library.read(replies + REPLY.size * n, REPLY), waypoints));
    const { turn: number, regions, edges, areas, relabelled } = turn;
    return { turn: number, regions, edges, areas, relabelled, replies: told };
  }

  /** The turns that have ended as the bytes of a script, which a TextMatch or the program answers alike. */
  journal() {
    return this.written("journal");
  }

  /** Lets go of the journal, and keeps none from then on. `forget` begins one again. */
  keepNoJournal() {
    must(this.call("keep_no_journal"));
  }

  /** Begins the journal anew, with one turn that adds what stands: the next turn is the second. */
  forget() {
    must(this.call("forget"));
  }

  /** The digest of the turn that ended last, a BigInt; 0n where none has ended. */
  digest() {
    return this.number("turn_digest");
  }

  /** Lets at most so many posts wait for the end of a turn. */
  limitPosts(most) {
    must(this.call("limit_posts", BigInt(most)));
  }
}

/** What stood when it was made, to be looked at beside its match. */
export class View extends Owner {
  constructor(library) {
    super(library, "view_close");
  }

  /** Another view of the same. */
  again() {
    const view = new View(this.library);
    view.opened(this.call("view_again", BigInt(view.handle)));
    return view;
  }

  /** What stands as the bytes of a script: the map, and one turn in which caller 0 adds all that stands. */
  snapshot() {
    return this.written("snapshot");
  }

  /** The digest of the snapshot, a BigInt: where two players have the same, the same stands. */
  digest() {
    return this.number("view_digest");
  }

  passable(classNumber, i, j) {
    return this.call("passable", classNumber, i, j) === 1;
  }

  /** The number of the cell's region in its chunk, or 0. */
  region(classNumber, i, j) {
    return this.call("region", classNumber, i, j);
  }

  /** The number of the cell's area, or 0: cells of one area can be reached from one another. */
  area(classNumber, i, j) {
    return this.call("area", classNumber, i, j);
  }

  /** Which cells of a row are passable: 1 or 0 of each. */
  row(classNumber, j, width) {
    const count = Math.ceil(width / 64), [at] = this.library.room(8 * count);
    const told = 8 * Number(this.call("row", classNumber, j, BigInt(at), BigInt(count)));
    const bytes = this.library.bytes.subarray(at, at + told), cells = new Uint8Array(width), end = Math.min(width, 8 * told);
    for (let i = 0; i < end; i++) cells[i] = bytes[i >> 3] >> (i & 7) & 1;
    return cells;
  }

  /** The cell in which a path of a class from the point (x, z) starts: the one that holds it, or else the passable one nearest to
   * it. Null where there is none, or the point is not on the map. */
  nearest(classNumber, x, z) {
    const [at] = this.library.room(CELL), point = [fitting("x", "Int32", x), fitting("z", "Int32", z)];
    return this.call("nearest", classNumber, ...point, BigInt(at)) ? this.library.cells(at, 1)[0] : null;
  }

  /** How a path would end, without a search: the kind of the reply that `find` gives, and the cell where it ends near its goal.
   * A post that asks for no path throws BAD_VALUE. */
  reachable(post) {
    const [asked, at] = this.library.room(POST.size, CELL);
    this.library.write(asked, POST, post);
    const kind = KINDS[this.call("reachable", BigInt(asked), BigInt(at))];
    must(kind ? Status.DONE : Status.BAD_VALUE);
    return kind === "near-goal" ? { kind, end: this.library.cells(at, 1)[0] } : { kind };
  }

  /** How many columns and rows the map has. */
  size() {
    const [at] = this.library.room(CELL);
    const is_open = this.call("view_size", BigInt(at));
    const { i: width, j: height } = is_open ? this.library.cells(at, 1)[0] : { i: 0, j: 0 };
    return { width, height };
  }

  /** The post by which caller 0 adds what stands under a number, or null. */
  standingAt(id) {
    const [at] = this.library.room(POST.size);
    return this.call("standing_at", fitting("id", "Uint32", id), BigInt(at)) ? addOf(this.library.read(at, POST)) : null;
  }

  /** All that stands, as the posts by which caller 0 adds it, by rising number. */
  standing() {
    let [whole] = this.library.room(8);
    must(this.call("standing", 0n, 0n, 0n, BigInt(whole)));
    const count = Number(this.library.data.getBigUint64(whole, true));
    const [again, at] = this.library.room(8, POST.size * count);
    must(this.call("standing", 0n, BigInt(at), BigInt(count), BigInt(again)));
    return Array.from({ length: count }, (_, n) => addOf(this.library.read(at + POST.size * n, POST)));
  }

  /** Answers a path or a region at once, as a turn without edits would. The match knows nothing of it. */
  find(post) {
    return found(this.library, post, (...words) => this.call("find", ...words));
  }

  /** The flow field of a path, one for a whole group, on a map of this size. Null where no path is answered: `find` says why. */
  field(post, width, height) {
    const { library } = this, count = fitting("width", "Uint16", width) * fitting("height", "Uint16", height);
    const [asked, reply] = library.room(POST.size, REPLY.size);
    library.write(asked, POST, post);
    const far = library.allocate(9 * count), steps = far + 8 * count;
    try {
      must(this.call("field", ...[asked, reply, steps, count, far, count].map(BigInt)));
      const told = replyOf(library.read(reply, REPLY), []);
      return told.path ? new FlowField(told, width, library.bytes.slice(steps, steps + count), library.distances(far, count)) : null;
    } finally {
      library.free(far);
    }
  }

  /** Whether a straight line between the middles of two cells touches passable cells alone. */
  clear(classNumber, from, to) {
    const [at] = this.library.room(2 * CELL);
    this.library.writeCells(at, [from, to]);
    return this.call("clear", classNumber, BigInt(at), BigInt(at + CELL)) === 1;
  }

  /** The fewest of a walk's waypoints that clear straight lines join. Failed with BAD_VALUE where these are those of no legal walk
   * from the start. */
  smooth(classNumber, start, waypoints) {
    const { library } = this, count = waypoints.length, [begins, kept, cells] = library.room(CELL, 8, CELL * count);
    library.writeCells(begins, [start]);
    library.writeCells(cells, waypoints);
    must(this.call("smooth", classNumber, ...[begins, cells, count, kept].map(BigInt)));
    return library.cells(cells, Number(library.data.getBigUint64(kept, true)));
  }
}

/** Answers paths and regions by views, as `View.find` does and faster: see `Library.finder`. */
export class Finder extends Owner {
  constructor(library) {
    super(library, "finder_close");
    this.opened(this.call("finder_open"));
  }

  /** What `view.find` answers to the post. */
  find(view, post) {
    return found(this.library, post, (...words) => this.#asked(view, "find_with", words));
  }

  /** What `view.find` answers to the post, if that is no path that costs more than `most`; else a reply of the kind "too-far". */
  findWithin(view, post, most) {
    const limit = BigInt(fitting("most", "Uint53", most));
    return found(this.library, post, (asked, ...words) => this.#asked(view, "find_within", [asked, limit, ...words]));
  }

  /** What `view.find` answers to each of the posts, in their order. A reply's `post` is the place of its post. */
  findAll(view, posts) {
    const { library } = this, count = posts.length;
    for (let room = 64 * count; ; ) {
      const [asked, replies, cells] = library.room(POST.size * count, REPLY.size * count, CELL * room);
      posts.forEach((it, n) => library.write(asked + POST.size * n, POST, it));
      must(this.#asked(view, "find_all", [asked, count, replies, count, cells, room].map(BigInt)));
      const told = posts.map((_, n) => library.read(replies + REPLY.size * n, REPLY));
      const whole = told.reduce((most, it) => Math.max(most, it.firstWaypoint + it.waypoints), 0);
      if (whole <= room) {
        const waypoints = library.cells(cells, whole);
        return told.map((it) => replyOf(it, waypoints));
      }
      room = whole;
    }
  }

  #asked(view, name, words) {
    if (view.library !== this.library) throw new TypeError("the view is of another library");
    return this.call(name, view.address, ...words);
  }
}

/** The answer to a post by a call that takes its address, and those of the reply and of room for so many waypoints. */
function found(library, post, call) {
  for (let room = 256; ; ) {
    const [asked, reply, cells] = library.room(POST.size, REPLY.size, CELL * room);
    library.write(asked, POST, post);
    must(call(...[asked, reply, cells, room].map(BigInt)));
    const told = library.read(reply, REPLY);
    if (told.waypoints <= room) return replyOf(told, library.cells(cells, told.waypoints));
    room = told.waypoints;
  }
}
