#!/usr/bin/env node
// Draws the page of `view.py --live` without a browser, as SVG: node tools/live_picture.mjs PAGE > PICTURE. The README's:
//
//     tools/from_movingai.py --paths 0 --class infantry:0 --class siege:1 examples/valley.map > valley.script
//     tools/view.py --live valley.script > live.html && node tools/live_picture.mjs live.html > docs/pictures/live.svg
//
// The page's own code runs here, on a canvas that writes down what is drawn. Four states of the valley of the examples are drawn:
// a path, another one after a wall was drawn across it, one of another class, and a flow field.
import { readFileSync } from "node:fs";

const WIDTH = 480, HEIGHT = 240, CAPTION = 22, GAP = 10;
const START = [3.5, 12.5], GOAL = [44.5, 17.5], WALL = [[28.5, 15.5], [28.5, 20]];
const short = (it) => String(Math.round(it * 10) / 10);
const hex = (data, at) => "#" + [0, 1, 2].map((n) => data[at + n].toString(16).padStart(2, "0")).join("");

/** A canvas's pen: what is drawn since the canvas was filled last, as elements of SVG. */
class Pen {
  constructor(canvas) {
    Object.assign(this, { canvas, marks: [], place: "", dashes: [] });
  }

  /** Adds a shape; one that looks as that before it is of the same element. */
  mark(place, look) {
    const last = this.marks.at(-1);
    if (last?.look === look) last.place += place;
    else this.marks.push({ place, look });
  }

  fillRect(x, y, w, h) {
    if (w === this.canvas.width && h === this.canvas.height) this.marks = [];
    this.mark(`M${x} ${y}h${w}v${h}h${-w}z`, `fill="${this.fillStyle}"`);
  }

  beginPath() { this.place = ""; }
  moveTo(x, y) { this.place += `M${short(x)} ${short(y)}`; }
  lineTo(x, y) { this.place += `${this.place ? "L" : "M"}${short(x)} ${short(y)}`; }
  closePath() { this.place += "z"; }
  arc(x, y, r) { this.place += `M${short(x - r)} ${short(y)}a${short(r)} ${short(r)} 0 1 0 ${short(2 * r)} 0a${short(r)} ${short(r)} 0 1 0 ${short(-2 * r)} 0z`; }
  setLineDash(dashes) { this.dashes = dashes; }
  fill() { this.mark(this.place, `fill="${this.fillStyle}"`); }

  stroke() {
    const dash = this.dashes.length ? ` stroke-dasharray="${this.dashes.join(" ")}"` : "";
    this.mark(this.place, `fill="none" stroke="${this.strokeStyle}" stroke-width="${this.lineWidth}"${dash}`);
  }

  createImageData(width, height) { return { width, height, data: new Uint8ClampedArray(4 * width * height) }; }
  putImageData(sheet) { this.canvas.sheet = sheet; }

  /** Draws the points of another canvas, those of one colour together. */
  drawImage({ sheet }, x, y, w, h) {
    if (!sheet) return;
    const side = w / sheet.width, colours = new Map();
    for (let j = 0; j < sheet.height; j++) {
      for (let i = 0, end; i < sheet.width; i = end) {
        const colour = hex(sheet.data, 4 * (j * sheet.width + i));
        for (end = i + 1; end < sheet.width && hex(sheet.data, 4 * (j * sheet.width + end)) === colour; ) end++;
        const run = `M${short(x + i * side)} ${short(y + j * h / sheet.height)}h${short((end - i) * side)}v${short(side)}h${short((i - end) * side)}z`;
        colours.set(colour, (colours.get(colour) ?? "") + run);
      }
    }
    for (const [colour, place] of colours) this.mark(place, `fill="${colour}" shape-rendering="crispEdges"`);
  }

  get svg() {
    return this.marks.map(({ place, look }) => `<path d="${place}" ${look}/>\n`).join("");
  }
}

// ---- what the page takes of a browser

const known = new Map();

class Part {
  constructor() {
    Object.assign(this, { does: {}, dataset: {}, textContent: "" });
  }

  set id(name) { known.set(name, this); }
  addEventListener(kind, does) { this.does[kind] = does; }
  getContext() { return (this.pen ??= new Pen(this)); }
  getBoundingClientRect() { return { left: 0, top: 0, width: WIDTH, height: HEIGHT }; }
  append() {}
  replaceChildren() {}
}

function byId(name) {
  if (!known.has(name)) known.set(name, new Part());
  return known.get(name);
}

const page = readFileSync(process.argv[2], "utf8");
for (const [, name, text] of page.matchAll(/<script type="text\/plain" id="(\w+)">(.*?)<\/script>/gs)) byId(name).textContent = text;
Object.assign(globalThis, {
  document: { title: "", getElementById: byId, createElement: () => new Part(), documentElement: new Part(), addEventListener() {} },
  window: { devicePixelRatio: 1, addEventListener() {} },
  matchMedia: () => ({ matches: false }),
  requestAnimationFrame: (draws) => draws(),
  Option: Part,
});
const [, code] = /<script type="module">\n(.*)<\/script>/s.exec(page);
await import(`data:text/javascript;base64,${Buffer.from(code).toString("base64")}`);
const { live } = await globalThis.ready, map = byId("map"), side = WIDTH / live.head.size[0];

// ---- what is done on it

const point = (kind, [x, z]) => map.does[kind]({ clientX: x * side, clientY: HEIGHT - z * side, button: 0 });
const panels = [];
const shown = (caption) => panels.push([caption, map.pen.svg]);

point("pointerdown", START);
point("pointerup", START);
point("pointermove", GOAL);
shown("the path to the pointer; dashed: smoothed");
byId("act-wall").onchange();
point("pointerdown", WALL[0]);
point("pointermove", WALL[1]);
point("pointerup", WALL[1]);
shown("the path after a wall was drawn");
byId("class").value = 1;
byId("class").onchange();
shown("siege engines are too wide: as near as can be");
byId("class").value = 0;
byId("class").onchange();
byId("layer-field").checked = true;
byId("layer-field").onchange();
shown("the flow field to the end of the path");

const [width, height] = [2 * WIDTH + 3 * GAP, 2 * (HEIGHT + CAPTION) + 2 * GAP];
const pictures = panels.map(([caption, svg], n) => {
  const [x, y] = [GAP + (n % 2) * (WIDTH + GAP), CAPTION + Math.floor(n / 2) * (HEIGHT + CAPTION + GAP)];
  return `<text x="${x}" y="${y - 6}" font-family="sans-serif" font-size="14" fill="#1b1f24">${caption}</text>\n` +
    `<g transform="translate(${x} ${y})" stroke-linejoin="round">\n${svg}</g>\n`;
});
process.stdout.write(`<svg xmlns="http://www.w3.org/2000/svg" width="${width}" height="${height}" viewBox="0 0 ${width} ${height}">\n` +
  `<rect width="${width}" height="${height}" fill="#ffffff"/>\n${pictures.join("")}</svg>\n`);
