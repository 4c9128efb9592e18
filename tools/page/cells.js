"use strict";
// Cells of a class, their regions and areas, and fields. Lengths are in 65536ths of a navcell, as in the script.
const SIDE = 65536, CHUNK = 96, STRAIGHT = 65536, DIAGONAL = 92682;
const FREE = 0, BASE = 1, NEAR = 2, BODY = 3; // what holds a cell: nothing, a base rectangle, a clearance, an obstruction
const STEPS = [["N", 0, 1], ["E", 1, 0], ["S", 0, -1], ["W", -1, 0], ["NE", 1, 1], ["SE", 1, -1], ["SW", -1, -1], ["NW", -1, 1]];

/** Whether a <= b, by doubles where they are surely apart, and else by whole numbers of any size. */
function atMost(a, b, exactly) {
  return Math.abs(a - b) > 1e-9 * (Math.abs(a) + Math.abs(b)) ? a < b : exactly();
}
const big = BigInt;

/** How far a cell's middle lies from a square's middle, along its vector and across it. */
function turned(s, px, pz) {
  return [px * s[2] + pz * s[3], pz * s[2] - px * s[3]];
}

function blocks(s, clearance, i, j) {
  const [du, dv] = turned(s, SIDE * i + SIDE / 2 - s[0], SIDE * j + SIDE / 2 - s[1]);
  const a = Math.max(Math.abs(du) - SIDE * s[4], 0), b = Math.max(Math.abs(dv) - SIDE * s[5], 0), r = SIDE * clearance;
  return atMost(a * a + b * b, r * r, () => big(a) * big(a) + big(b) * big(b) <= big(r) * big(r));
}

/** The columns and rows that a square with a margin can reach, as [i0, j0, i1, j1] within the map. */
function reach(s, margin, w, h) {
  const t = (s[4] + s[5] + margin) * 1.02 + SIDE;
  return [Math.max(0, Math.floor((s[0] - t) / SIDE)), Math.max(0, Math.floor((s[1] - t) / SIDE)),
    Math.min(w - 1, Math.floor((s[0] + t) / SIDE)), Math.min(h - 1, Math.floor((s[1] + t) / SIDE))];
}

class Cells {
  /** The cells of class k with what stands, out of the base bits of all classes. */
  constructor(w, h, base, k, clearance, standing) {
    this.w = w;
    this.h = h;
    this.state = new Uint8Array(w * h);
    const width = Math.ceil(w / 8);
    for (let j = 0, at = k * width * h; j < h; j++, at += width) {
      for (let i = 0; i < w; i++) if (base[at + (i >> 3)] >> (i & 7) & 1) this.state[j * w + i] = BASE;
    }
    for (const it of standing) if (it.mask >> k & 1) this.paint(it.square, clearance);
  }

  /** Cells whose states are known. */
  static of(w, h, state) {
    return Object.assign(Object.create(Cells.prototype), { w, h, state });
  }

  paint(s, clearance) {
    const [i0, j0, i1, j1] = reach(s, 2 * clearance, this.w, this.h);
    for (let j = j0; j <= j1; j++) {
      for (let i = i0; i <= i1; i++) {
        const at = j * this.w + i;
        if (this.state[at] === BASE || this.state[at] === BODY || !blocks(s, clearance, i, j)) continue;
        this.state[at] = blocks(s, 0, i, j) ? BODY : NEAR;
      }
    }
  }

  free(i, j) {
    return i >= 0 && j >= 0 && i < this.w && j < this.h && this.state[j * this.w + i] === FREE;
  }

  /** Numbers the regions of each chunk and the areas, 0 for a blocked cell. */
  label() {
    if (this.region) return;
    const { w, h } = this, stack = new Int32Array(w * h);
    this.region = new Uint16Array(w * h);
    this.area = new Int32Array(w * h);
    this.areaCells = [0];
    const flood = (into, first, number, i0, j0, i1, j1) => {
      let count = 0, top = 0;
      stack[top++] = first;
      into[first] = number;
      while (top) {
        const at = stack[--top], i = at % w, j = (at - i) / w;
        count++;
        if (i > i0 && !this.state[at - 1] && !into[at - 1]) { into[at - 1] = number; stack[top++] = at - 1; }
        if (i < i1 && !this.state[at + 1] && !into[at + 1]) { into[at + 1] = number; stack[top++] = at + 1; }
        if (j > j0 && !this.state[at - w] && !into[at - w]) { into[at - w] = number; stack[top++] = at - w; }
        if (j < j1 && !this.state[at + w] && !into[at + w]) { into[at + w] = number; stack[top++] = at + w; }
      }
      return count;
    };
    for (let j0 = 0; j0 < h; j0 += CHUNK) {
      for (let i0 = 0; i0 < w; i0 += CHUNK) {
        const i1 = Math.min(i0 + CHUNK, w) - 1, j1 = Math.min(j0 + CHUNK, h) - 1;
        let number = 0;
        for (let j = j0; j <= j1; j++) {
          for (let i = i0, at = j * w + i0; i <= i1; i++, at++) {
            if (this.state[at]) continue;
            if (!this.region[at]) flood(this.region, at, ++number, i0, j0, i1, j1);
            if (!this.area[at]) this.areaCells.push(flood(this.area, at, this.areaCells.length, 0, 0, w - 1, h - 1));
          }
        }
      }
    }
  }
}

/** Whether a cell is a goal cell of [kind, numbers ..], a square where it is by obstruction. */
function isGoal(goal, i, j) {
  const [kind, x, z] = goal, s = goal.slice(1);
  const px = SIDE * i + SIDE / 2 - x, pz = SIDE * j + SIDE / 2 - z;
  if (kind === "point") return i === Math.floor(x / SIDE) && j === Math.floor(z / SIDE);
  if (kind === "circle") {
    const ex = Math.max(Math.abs(px) - SIDE / 2, 0), ez = Math.max(Math.abs(pz) - SIDE / 2, 0), r = goal[3];
    return atMost(ex * ex + ez * ez, r * r, () => big(ex) ** 2n + big(ez) ** 2n <= big(r) ** 2n);
  }
  const corners = [[i, j], [i + 1, j], [i, j + 1], [i + 1, j + 1]].map(([a, b]) => [SIDE * a - x, SIDE * b - z]);
  if (kind === "not-circle") {
    const r = goal[3];
    return corners.some(([a, b]) => atMost(r * r, a * a + b * b, () => big(r) ** 2n <= big(a) ** 2n + big(b) ** 2n));
  }
  const [ux, uz, hw, hh] = s.slice(2);
  if (kind === "not-square") {
    return corners.map(([a, b]) => turned(s, a, b)).some(([du, dv]) => Math.abs(du) >= SIDE * hw || Math.abs(dv) >= SIDE * hh);
  }
  const [du, dv] = turned(s, px, pz), n = ux * ux + uz * uz, half = SIDE / 2;
  const axis = (p, a, b) => atMost(Math.abs(p) * n, half * n + SIDE * (hw * a + hh * b),
    () => big(Math.abs(p)) * big(n) <= big(half) * big(n) + big(SIDE) * (big(hw) * big(a) + big(hh) * big(b)));
  const across = Math.abs(ux) + Math.abs(uz);
  return axis(px, Math.abs(ux), Math.abs(uz)) && axis(pz, Math.abs(uz), Math.abs(ux))
    && Math.abs(du) <= SIDE * hw + half * across && Math.abs(dv) <= SIDE * hh + half * across;
}

/** The rectangle of cells in which a goal's cells lie. */
function goalBox(goal, w, h) {
  const [kind, x, z] = goal;
  if (kind.startsWith("not-")) return [0, 0, w - 1, h - 1];
  if (kind === "point") return [Math.floor(x / SIDE), Math.floor(z / SIDE), Math.floor(x / SIDE), Math.floor(z / SIDE)];
  const s = kind === "circle" ? [x, z, SIDE, 0, goal[3], goal[3]] : goal.slice(1);
  return reach(s, SIDE, w, h);
}

/** For each cell of an area the least cost of a walk to the nearest of some cells, or -1. */
class Field {
  constructor(cells, targets) {
    const { w, h } = cells;
    this.w = w;
    this.h = h;
    this.cells = cells;
    this.far = new Float64Array(w * h).fill(-1);
    this.count = 0;
    this.most = 0;
    this.sum = 0n;
    this.sweep(targets);
    for (let j = 0; j < h; j++) this.addRow(j);
  }

  sweep(targets) {
    const { w, h, far } = this, state = this.cells.state;
    // what was reached by a straight step and by a diagonal one: each list is in the order of its costs
    const straight = [...targets], diagonal = [];
    let s = 0, d = 0;
    for (const at of targets) far[at] = 0;
    while (s < straight.length || d < diagonal.length) {
      const first = d >= diagonal.length || (s < straight.length && far[straight[s]] <= far[diagonal[d]]);
      const at = first ? straight[s++] : diagonal[d++], i = at % w, j = (at - i) / w, here = far[at];
      for (let n = 0; n < 8; n++) {
        const [, di, dj] = STEPS[n], a = i + di, b = j + dj, next = b * w + a;
        if (a < 0 || b < 0 || a >= w || b >= h || state[next] || (n > 3 && (state[j * w + a] || state[b * w + i]))) continue;
        const cost = here + (n > 3 ? DIAGONAL : STRAIGHT);
        if (far[next] < 0 || cost < far[next]) {
          far[next] = cost;
          (n > 3 ? diagonal : straight).push(next);
        }
      }
    }
  }

  addRow(j) {
    let sum = 0;
    for (let at = j * this.w; at < (j + 1) * this.w; at++) {
      if (this.far[at] < 0) continue;
      this.count++;
      sum += this.far[at];
      this.most = Math.max(this.most, this.far[at]);
    }
    this.sum += big(sum);
  }

  /** The first direction that leads nearer by its whole cost, as a step, or null. */
  next(i, j) {
    const here = this.far[j * this.w + i];
    if (!(here > 0)) return null;
    return STEPS.find(([, di, dj], n) => {
      if (!this.cells.free(i + di, j + dj) || (n > 3 && !(this.cells.free(i + di, j) && this.cells.free(i, j + dj)))) return false;
      return this.far[(j + dj) * this.w + i + di] + (n > 3 ? DIAGONAL : STRAIGHT) === here;
    }) || null;
  }

  /** The cells of the walk from a cell along the field. */
  walk(i, j) {
    const found = [[i, j]];
    for (let next = this.next(i, j); next; next = this.next(i, j)) {
      i += next[1];
      j += next[2];
      found.push([i, j]);
    }
    return found;
  }
}
