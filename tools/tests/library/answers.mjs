// As answers.c, by the package for JavaScript: node answers.mjs PACKAGE MODULE < SCRIPTS
import { readFileSync, writeSync } from "node:fs";
import { pathToFileURL } from "node:url";

const [place, file] = process.argv.slice(2);
const { load, REPORTS } = await import(pathToFileURL(place));
const library = await load(readFileSync(file));
const given = readFileSync(0), told = [];
for (let at = 0; at < given.length; ) {
  const end = given.indexOf(10, at), [report, length] = given.toString("latin1", at, end).split(" ").map(Number);
  at = end + 1 + length;
  const match = library.textMatch(REPORTS[report]);
  let status = 0;
  try {
    match.feed(given.subarray(end + 1, at));
    match.finish();
  } catch (failed) {
    if (failed.status === undefined) throw failed;
    status = failed.status;
  }
  const text = match.take();
  match.close();
  told.push(Buffer.from(`${status} ${text.length}\n`), text);
}
const whole = Buffer.concat(told);
for (let at = 0; at < whole.length; ) at += writeSync(1, whole, at);
