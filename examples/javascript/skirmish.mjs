// Plays examples/skirmish.script by posts, without a script, looks at what stands, and leads a group by a flow field:
// `node skirmish.mjs [pathserve.wasm]`.
import { pathToFileURL } from "node:url";
import { Goal, addSquare, fixed, load, move, path, region, remove } from "./pathserve/pathserve.js";

const INFANTRY = 0, SIEGE = 1, BOTH = 1 << INFANTRY | 1 << SIEGE;
const library = await load(process.argv[2] && pathToFileURL(process.argv[2]));
const match = library.postedMatch({
  width: 12, height: 8, callers: 2,
  classes: [{ name: "infantry", clearance: fixed(0.5) }, { name: "siege", clearance: fixed(1.5) }],
  base: [{ i0: 0, j0: 7, i1: 11, j1: 7, mask: BOTH }],
});
const west = path(1, SIEGE, fixed(10.5), fixed(3.5), Goal.circle(fixed(1.5), fixed(3.5), fixed(1)));
const turns = [
  [
    addSquare(0, 1, BOTH, fixed(6), fixed(3), fixed(1), 0, fixed(0.5), fixed(2)),
    path(0, INFANTRY, fixed(1.5), fixed(1.5), Goal.obstruction(1, fixed(1))),
    west,
    region(1, SIEGE, fixed(6.5), fixed(3.5)),
  ],
  [west, move(0, 1, fixed(6), fixed(1)), remove(0, 2)],
];
for (const posts of turns) {
  match.post(...posts);
  const turn = match.endTurn();
  console.log(`turn ${turn.turn}: ${turn.areas} areas, ${turn.relabelled} relabelled`);
  for (const { caller, post, kind, ...said } of turn.replies) console.log(`  caller ${caller}, post ${post}: ${kind} ${JSON.stringify(said)}`);
}
const view = match.view();
console.log("siege, from the north:");
for (let j = 7; j >= 0; j--) console.log("  " + [...view.row(SIEGE, j, 12)].map((it) => "#."[it]).join(""));
console.log("and back east:", JSON.stringify(view.find(path(1, SIEGE, fixed(1.5), fixed(3.5), Goal.point(fixed(10.5), fixed(3.5)))).path));

const order = ([i, j]) => path(1, SIEGE, fixed(i + 0.5), fixed(j + 0.5), Goal.point(fixed(10.5), fixed(3.5)));
const group = [[1, 3], [2, 5], [1, 1]], finder = library.finder();
const found = finder.findAll(view, group.map(order)), field = view.field(order(group[0]), 12, 8);
console.log("a field for a group:");
for (let j = 7; j >= 0; j--) console.log("  " + [...field.steps.slice(12 * j, 12 * j + 12)].map((it) => " |-|-/\\/\\*"[it]).join(""));
group.forEach(([i, j], n) => {
  let at = { i, j }, count = 0;
  for (let next = field.next(at); next && (next.i !== at.i || next.j !== at.j); next = field.next(at)) [at, count] = [next, count + 1];
  const { start, waypoints, cost } = found[n].path, kept = view.smooth(SIEGE, start, waypoints);
  console.log(`  unit ${i},${j}: cost ${cost}, as the field says ${field.distance(start)}; ${count} steps to ${at.i},${at.j}; waypoints, smoothed: ${JSON.stringify(kept)}`);
});
for (const it of [finder, view, match]) it.close();
