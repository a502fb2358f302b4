#!/usr/bin/env node
// Compares the page's module with the program, text and status: scripts/page/compare.mjs PROGRAM [TABLE ..]
//
// Each row of a TABLE, behind its first line, is a run: its last column, behind a tab, has the words of the program,
// which name files in the table's folder. Without a table the runs are those below, in demo/. Each is done by the
// program and by the module in page/i960.html, and both must print the same bytes and end with the same status. At the
// end it says how much more time `gen 1 -` takes in the module, and it ends with 1 where a run differed. It is no part
// of the gate, and stands for a proof that what is built for a page does what the proved program does.
import { spawnSync } from "node:child_process";
import { existsSync, readFileSync } from "node:fs";
import { dirname, join, resolve } from "node:path";
import { fileURLToPath } from "node:url";
import { command } from "../../page/command.mjs";

const TOP = resolve(dirname(fileURLToPath(import.meta.url)), "../..");
const FILES = { run: [1, 2], trace: [1, 2], debug: [1, 2, 4], asm: [1], asmelf: [1], dis: [1], tune: [1] };
const DEMO = [
  "run smallest.hex - - 100", "run unflushed.hex - - 100", "run flushed.hex - 1 100", "run board.hex board.sch - 1000",
  "run board.hex board.out 3 1000", "trace board.hex board.sch - 1000 1000 1094", "debug unflushed.hex - - unflushed.dbg",
  "debug flushed.hex - 2 flushed.dbg", "asm board.s", "asm board.sch", "asmelf board.s", "dis board.hex", "dis board.s",
  "run fibonacci.hex - - 100000", "run ticks.hex ticks.sch 4 10000", "run uart.hex - - 10000", "tune board.hex 1000 2",
  "run level.hex level.sch 2 1000", "run marks.hex marks.sch - 1000",
  "run none.hex - - 1", "run smallest.hex none.sch - 1", "run smallest.hex - 16 1", "gen 0 -", "gen 7 3", "gen -", "",
];

/** The words with the names of files replaced by 1, 2 and 3, and the files; one that is not there keeps another
 * name. */
function inSlots(words, folder) {
  const files = [], named = [...words];
  for (const place of FILES[words[0]] ?? []) {
    if (words[place] === undefined || words[place] === "-" || words[place] === "") continue;
    const file = join(folder, words[place]);
    named[place] = existsSync(file) ? String(files.push(readFileSync(file))) : "none";
  }
  return { named, files };
}

function rowsOf(table) {
  return readFileSync(table, "utf8").trimEnd().split("\n").slice(1).map(row => row.split("\t").at(-1));
}

/** Whether a run differs, with what it printed. */
function differs(program, module, words, folder) {
  const native = spawnSync(program, words, { cwd: folder, maxBuffer: 1 << 29 }), { named, files } = inSlots(words, folder);
  const reply = command(module, named, files);
  return native.status !== reply.status || Buffer.compare(native.stdout, Buffer.from(reply.bytes)) !== 0
    ? `status ${reply.status} for ${native.status}, ${reply.bytes.length} bytes for ${native.stdout.length}` : undefined;
}

/** The processor time of a call in milliseconds. */
function moduleTime(call) {
  const before = process.cpuUsage();
  call();
  const { user, system } = process.cpuUsage(before);
  return (user + system) / 1000;
}

/** The processor time of the program in milliseconds, as the shell tells it of what it ran. */
function nativeTime(program) {
  const told = spawnSync("bash", ["-c", '"$0" gen 1 - >/dev/null; times', program], { encoding: "utf8" }).stdout.split("\n")[1];
  return told.split(" ").map(part => part.match(/(\d+)m([\d.]+)s/)).reduce((sum, [, minutes, seconds]) => sum + 60000 * minutes + 1000 * seconds, 0);
}

const [program, ...tables] = process.argv.slice(2);
if (program === undefined) { console.error("scripts/page/compare.mjs PROGRAM [TABLE ..]"); process.exit(2); }
const kept = /<script type="text\/plain" id="module">([^<]*)</.exec(readFileSync(join(TOP, "page", "i960.html"), "latin1"))[1];
const module = new WebAssembly.Module(Buffer.from(kept, "base64"));
const runs = tables.length === 0 ? DEMO.map(words => [words, join(TOP, "demo")]) : tables.flatMap(table => rowsOf(table).map(words => [words, dirname(resolve(table))]));
let wrong = 0;
for (const [words, folder] of runs) {
  const found = differs(resolve(program), module, words === "" ? [] : words.split(" "), folder);
  if (found) { wrong++; console.log(`${words}: ${found}`); }
}
console.log(`${runs.length} runs, ${wrong} differ`);
// By turns, since other work on the machine makes both slower, and comes and goes.
const pairs = Array.from({ length: 30 }, () => [moduleTime(() => command(module, ["gen", "1", "-"], [])), nativeTime(resolve(program))]);
const [here, there] = [0, 1].map(which => Math.min(...pairs.map(pair => pair[which])));
console.log(`gen 1 -: ${here.toFixed(0)} ms in the module, ${there.toFixed(0)} ms in the program: ${(here / there).toFixed(2)} times`);
process.exit(wrong ? 1 : 0);
