// Refuses each allocation in turn, as refused.c does, by the package for JavaScript: node refused.mjs PACKAGE MODULE SCRIPT. The
// module has the memory of web_refused.c.
import { readFileSync } from "node:fs";
import { pathToFileURL } from "node:url";

const [place, file, name] = process.argv.slice(2);
const { Failed, Goal, Library, Status, addSquare, move, path, region, remove } = await import(pathToFileURL(place));
const { instance } = await WebAssembly.instantiate(readFileSync(file), {});
const { refuse, count_calls: calls, count_live: live } = instance.exports;
const library = new Library(instance), script = readFileSync(name);
let forGood = 0;

/** Calls again as long as there was no memory, unless it is refused for good. */
function again(call) {
  for (;;) {
    try {
      return call();
    } catch (failed) {
      if (!(failed instanceof Failed) || failed.status !== Status.NO_MEMORY || forGood) throw failed;
    }
  }
}

const ask = path(1, 1, 688128, 229376, Goal.circle(98304, 229376, 65536));

function lead(view, told) {
  const finder = again(() => library.finder());
  try {
    const [{ path: its }] = again(() => finder.findAll(view, [ask, ask])), field = again(() => view.field(ask, 12, 8));
    told.push(JSON.stringify([its, again(() => finder.find(view, ask)), field.distance(its.start)]), [...field.steps].join(""));
    const kept = again(() => view.smooth(1, its.start, its.waypoints));
    told.push(JSON.stringify([kept, again(() => view.clear(1, its.start, kept[0]))]));
  } finally {
    finder.close();
  }
}

function look(match, told) {
  const view = again(() => match.view());
  try {
    const other = again(() => view.again());
    try {
      told.push(JSON.stringify(again(() => other.find(ask))), [...view.row(1, 3, 12)].join(""));
      const looks = [() => view.nearest(1, 688128, 229376), () => view.reachable(ask), () => view.standingAt(1)];
      told.push(...looks.map((it) => JSON.stringify(again(it))));
      lead(other, told);
    } finally {
      other.close();
    }
  } finally {
    view.close();
  }
}

function byText(told) {
  const match = again(() => library.textMatch("smooth"));
  try {
    for (let at = 0; at < script.length; ) {
      const piece = script.subarray(at, at + 7);
      try {
        match.feed(piece);
        at += piece.length;
      } catch (failed) {
        if (failed.status !== Status.NO_MEMORY || forGood) throw failed;
        at += failed.taken;
      }
    }
    again(() => match.finish());
    told.push(match.takeText());
    look(match, told);
  } finally {
    match.close();
  }
}

function byPosts(told) {
  const classes = [{ name: "infantry", clearance: 32768 }, { name: "siege", clearance: 98304 }];
  const base = [{ i0: 0, j0: 7, i1: 11, j1: 7, mask: 3 }];
  const match = again(() => library.postedMatch({ width: 12, height: 8, callers: 2, classes, base }));
  const first = [addSquare(0, 1, 3, 393216, 196608, 65536, 0, 32768, 131072), path(0, 0, 98304, 98304, Goal.obstruction(1, 65536)), ask];
  try {
    for (const posts of [[...first, region(1, 1, 425984, 229376)], [move(0, 1, 393216, 65536), remove(0, 2), ask]]) {
      again(() => match.post(...posts));
      told.push(JSON.stringify(again(() => match.endTurn())));
    }
    look(match, told);
    told.push(String(again(() => match.journal())));
  } finally {
    match.close();
  }
}

function must(is, what, at) {
  if (!is) throw new Error(`${what}, at allocation ${at}`);
}

function refuseEach(play) {
  const whole = [];
  refuse(0n, 0);
  play(whole);
  for (let at = 1; ; at++) {
    for (forGood = 0; forGood < 2; forGood++) {
      const told = [];
      let failed = null;
      refuse(BigInt(at), forGood);
      try {
        play(told);
      } catch (it) {
        failed = it;
      }
      if (calls() < at) return at - 1;
      must(live() === 0n, "not all was given back", at);
      must(!failed || (forGood && failed.status === Status.NO_MEMORY), `ended with ${failed}`, at);
      must(told.every((it, n) => it === whole[n]), "another text", at);
      must(failed || told.length === whole.length, "a text that is not whole", at);
    }
    forGood = 0;
  }
}

const counts = [byText, byPosts].map(refuseEach);
console.log(`${counts[0]} allocations by text, ${counts[1]} by posts`);
