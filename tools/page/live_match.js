// A match that is played as one draws: each edit and each path is a turn of its own, and the edits are a script. `pathserve.js`
// and `cells.js` stand before it.

/** A raw number as a decimal of a script: it has at most 16 places. */
const decimalOf = (raw) => (raw / NAVCELL).toFixed(16).replace(/\.?0+$/, "");

/** A decimal of a script as a raw number, cut as the program cuts it. */
function rawOf(text) {
  const [, sign, whole, part = ""] = /^(-?)(\d+)(?:\.(\d+))?$/.exec(text), raw = BigInt(whole + part) * BigInt(NAVCELL) / 10n ** BigInt(part.length);
  return Number(sign ? -raw : raw);
}

/** A shape as [x, z, ux, uz, hw, hh] in raw numbers, from the numbers of an add line. */
function shapeOf(post) {
  if (post.square) return post.square.map(rawOf);
  const [x, z, half] = post.unit.map(rawOf);
  return [x, z, NAVCELL, 0, half, half];
}

/** The rectangle along the axes between two points in navcells. */
function boxBetween([x0, z0], [x1, z1]) {
  return [(x0 + x1) / 2, (z0 + z1) / 2, 1, 0, Math.abs(x1 - x0) / 2, Math.abs(z1 - z0) / 2].map(fixed);
}

/** A wall of a width from one point to another; along the first axis where they are one. */
function wallBetween([x0, z0], [x1, z1], width) {
  const length = Math.hypot(x1 - x0, z1 - z0), along = length ? [(x1 - x0) / length, (z1 - z0) / length] : [1, 0];
  const unit = along.map((it) => Math.round(it * NAVCELL));
  return [fixed((x0 + x1) / 2), fixed((z0 + z1) / 2), ...unit, fixed(length / 2), fixed(width / 2)];
}

/** Whether a point in navcells lies in a shape. */
function isIn([x, z], shape) {
  const [mx, mz, ux, uz, hw, hh] = shape.map((it) => it / NAVCELL), dx = x - mx, dz = z - mz;
  return Math.abs(dx * ux + dz * uz) <= hw && Math.abs(dz * ux - dx * uz) <= hh;
}

/** A path out of the words of its line, and of the line with its smoothed waypoints. */
function pathTold([kind, ...words], smooth) {
  if (kind !== "path") return kind === "refused" ? { kind, why: words[0] } : { kind };
  const cell = (it) => { const [i, j] = it.split(",").map(Math.trunc); return { i, j }; };
  const [i0, j0, i1, j1, , cost] = words.map(Number), [waypoints, smoothed] = [words.slice(7), smooth.slice(2)].map((its) => its.map(cell));
  return { kind: words[4] === "goal" ? "at-goal" : "near-goal", path: { start: { i: i0, j: j0 }, end: { i: i1, j: j1 }, cost, waypoints, smoothed } };
}

class Live {
  /** Plays the whole turns of a script. */
  constructor(library, script) {
    this.library = library;
    this.head = JSON.parse(script.slice(0, script.indexOf("\n")));
    this.lines = script.trimEnd().split("\n");
    this.played = this.lines.length;
    this.reopen();
  }

  /** Plays what was played so far in a new match. */
  reopen() {
    this.match?.close();
    this.match = this.library.textMatch("smooth");
    Object.assign(this, { standing: new Map(), turns: 0, ended: 0, most: 0, posts: [] });
    this.feed(this.lines);
  }

  get classes() {
    return this.head.classes;
  }

  /** The script of all that was played, for the program. */
  get script() {
    return this.lines.join("\n") + "\n";
  }

  /** Feeds lines, and gives their answers without those about smoothed waypoints. The match has more turns than the script. */
  answered(lines) {
    const numbered = lines.map((it) => (JSON.parse(it).end === undefined ? it : `{"end":${++this.ended}}`));
    this.match.feed(numbered.join("\n") + "\n");
    return this.match.takeText().trimEnd().split("\n").filter((it) => it.split(" ", 3)[2] !== "smooth");
  }

  /** Feeds lines of the script, and looks at what they make stand. The answers to them are returned. */
  feed(lines) {
    const answers = this.answered(lines);
    let at = 0;
    for (const line of lines) {
      const value = JSON.parse(line);
      if (value.caller !== undefined) this.posts.push(value);
      if (value.end === undefined) continue;
      this.turns = value.end;
      this.stand(answers.slice(at + 1, at + 1 + this.posts.length));
      at += 1 + this.posts.length;
      this.posts = [];
    }
    this.view?.close();
    this.view = this.match.view();
    return answers;
  }

  /** Puts, moves and removes what the replies to the posts of a turn say. */
  stand(replies) {
    const of = (caller, number) => this.posts.filter((it) => it.caller === caller)[number];
    for (const [caller, number, kind, id] of replies.map((it) => it.split(" "))) {
      const post = of(+caller, +number), old = this.standing.get(+id);
      if (kind === "added") this.standing.set(+id, { shape: shapeOf(post), mask: post.mask ?? 65535 });
      else if (kind === "removed") this.standing.delete(+id);
      else if (kind === "moved") this.standing.set(+id, { ...old, shape: [...post.to.map(rawOf), ...old.shape.slice(2)] });
    }
    for (const post of this.posts) this.most = Math.max(this.most, post.add ?? 0);
  }

  /** Plays a turn of one post, and returns its reply; a refused post is not kept. */
  play(post) {
    const lines = [JSON.stringify({ caller: 0, ...post }), JSON.stringify({ end: this.turns + 1 })];
    const reply = this.feed(lines)[1].split(" ").slice(2).join(" ");
    this.lines.push(...lines);
    return reply;
  }

  /** Adds a shape for the classes of a mask. */
  add(shape, mask) {
    const masked = this.head.version > 1 ? { mask } : {};
    return this.play({ add: this.most + 1, square: shape.map(decimalOf), ...masked });
  }

  remove(id) {
    return this.play({ remove: id });
  }

  /** Takes the last edit back; false where there is none. */
  undo() {
    if (this.lines.length === this.played) return false;
    this.lines.splice(-2);
    this.reopen();
    return true;
  }

  /** The edits so far, as lines. */
  get edits() {
    return this.lines.slice(this.played).filter((_, n) => n % 2 === 0);
  }

  /** What stands at a point in navcells: its number, of several that of the last, or none. */
  at(point) {
    return [...this.standing].filter(([, it]) => isIn(point, it.shape)).at(-1)?.[0];
  }

  /** The path of a class from one point to another, with its smoothed waypoints. */
  find(classNumber, from, to) {
    const [start, point] = [from, to].map((its) => its.map((it) => decimalOf(fixed(it))));
    const ask = { caller: 0, path: this.classes[classNumber].name, from: start, goal: { point } };
    this.match.feed(`${JSON.stringify(ask)}\n{"end":${++this.ended}}\n`);
    return pathTold(...this.match.takeText().trimEnd().split("\n").slice(1).map((it) => it.split(" ").slice(2)));
  }

  /** The cells of a class. */
  cells(classNumber) {
    const [w, h] = this.head.size, state = new Uint8Array(w * h).fill(BODY);
    for (let j = 0; j < h; j++) this.view.row(classNumber, j, w).forEach((it, i) => { if (it) state[j * w + i] = FREE; });
    return Cells.of(w, h, state);
  }
}
