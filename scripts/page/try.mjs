#!/usr/bin/env node
// Tries the page in a headless Chromium: scripts/page/try.mjs PROGRAM [FOLDER [PART ..]]
//
// Opens page/i960.html from the disk, as a double click does, hands it files of demo/, presses what a person would, and
// compares what is shown with the lines of the program's own debugger and tracer at the same place. With a FOLDER it
// leaves pictures there, and with names of parts it tries these alone. Prints a line for each part, and how long the
// page took behind 100,000 instructions, and ends with 1 where something is not as it should be. It is no part of the
// gate.
import { spawnSync } from "node:child_process";
import { existsSync, mkdirSync, mkdtempSync, readFileSync, rmSync, writeFileSync } from "node:fs";
import { tmpdir } from "node:os";
import { dirname, join, resolve } from "node:path";
import { fileURLToPath } from "node:url";
import { Chromium } from "./chromium.mjs";

const TOP = resolve(dirname(fileURLToPath(import.meta.url)), "../.."), DEMO = join(TOP, "demo");
const NAMES = "pfp sp rip r3 r4 r5 r6 r7 r8 r9 r10 r11 r12 r13 r14 r15 g0 g1 g2 g3 g4 g5 g6 g7 g8 g9 g10 g11 g12 g13 g14 fp".split(" ");
const MOST_WAIT = 50, STALE = "--------";
const [program, folder, ...only] = [resolve(process.argv[2] ?? join(TOP, "i960")), ...process.argv.slice(3)];
const room = mkdtempSync(join(tmpdir(), "i960-try-")), browser = new Chromium();
let wrong = 0;

const native = (...words) => spawnSync(program, words, { cwd: DEMO, maxBuffer: 1 << 29, encoding: "latin1" }).stdout;

function check(what, found, wanted) {
  if (JSON.stringify(found) === JSON.stringify(wanted)) return;
  wrong++;
  console.log(`  ${what}: ${JSON.stringify(found)} for ${JSON.stringify(wanted)}`);
}

// ---- what is shown, and what the debugger tells

/** The texts of the page that are tied to lines of the debugger. */
const shown = () => browser.evaluate(`(() => {
  const cell = name => document.querySelector('#registers td[data-name="' + name + '"]');
  const names = ${JSON.stringify(NAMES)};
  return {
    raw: names.map(name => cell(name).firstChild.textContent.replace(" *", "")),
    busy: names.filter(name => cell(name).classList.contains("busy")),
    marked: names.filter(name => cell(name).classList.contains("marked")),
    seen: names.map(name => cell(name).querySelector(".sees")?.textContent.slice(3) ?? cell(name).firstChild.textContent.replace(" *", "")),
    controls: ["ip", "ac", "pc", "count"].map(name => cell(name).textContent),
    memory: document.getElementById("memory").textContent.split("\\n").map(line => line.split("  ")[1]),
    console: document.getElementById("console").textContent,
    here: [...document.querySelectorAll("#listing li.here")].map(item => Number(item.dataset.address)),
    held: document.getElementById("held").textContent,
  };
})()`);

/** The same of the debugger's lines behind a script that leads there. */
function wanted(image, schedule, sets, lead, memory = 0x1000) {
  const rows = Array.from({ length: 8 }, (_, n) => `mem ${(memory + 16 * n).toString(16)} 16\n`).join("");
  const script = join(room, "script.dbg");
  writeFileSync(script, `${lead}${rows}raw\nheld\nregs\n`);
  const lines = native("debug", image, schedule, sets, script).trimEnd().split("\n").map(line => line.split(" "));
  const last = word => lines.filter(line => line[0] === word).at(-1);
  const raw = [...last("#rl").slice(1), ...last("#rg").slice(1)], seen = [...last("#l").slice(1), ...last("#g").slice(1)];
  const busy = parseInt(last("#raw")[2], 16), view = last("#view").slice(1);
  return {
    raw, busy: NAMES.filter((_, bit) => busy >>> bit & 1), marked: NAMES.filter((_, n) => seen[n] === STALE), seen,
    controls: [view[1], view[2], view[3], view[0]],
    memory: lines.filter(line => line[0] === "#mem").slice(-8).map(line => line.slice(2).join(" ")),
    console: lines.filter(line => line[0] === "#out").map(line => String.fromCharCode(parseInt(line[1], 16))).join(""),
    here: [parseInt(view[1], 16)],
    held: `${last("#held")[2]} of ${last("#held")[1]} sets hold one`,
  };
}

/** The frames that are shown, each with its address, what stands beside that, and its locals. */
const shownFrames = () => browser.evaluate(`[...document.querySelectorAll("#frames details")].map(view => ({
  address: view.dataset.address, told: view.querySelector("summary").textContent,
  locals: view.querySelector("pre").textContent.trim().split(/\\s+/).filter((_, n) => n % 2),
}))`);

/** The 16 words from an address on, as a session tells them that a script leads. */
function wordsAt(image, schedule, sets, lead, address) {
  const script = join(room, "words.dbg");
  writeFileSync(script, `${lead}mem ${address} 64\n`);
  const bytes = native("debug", image, schedule, sets, script).trimEnd().split("\n").at(-1).split(" ").slice(2);
  return Array.from({ length: 16 }, (_, n) => bytes.slice(4 * n, 4 * n + 4).reverse().join("")).map(word => (word.includes("-") ? STALE : word));
}

const lead = turn => (turn > 1 ? `turn ${turn - 1}\n` : "");

// ---- moves

async function settle() {
  await browser.until("page.isIdle() && document.getElementById('cancel').disabled", 60);
}

async function load(...names) {
  await browser.evaluate("Object.assign(page.board, { name: '', image: undefined, schedule: '' }), 1");
  await browser.choose("files", names.map(name => resolve(DEMO, name)));
  await browser.until("page.isIdle() && page.board.image !== undefined && page.board.place !== undefined");
  await settle();
}

async function click(id) {
  await browser.evaluate(`document.getElementById("${id}").click()`);
  await settle();
}

async function goTurn(turn) {
  await set("turn", turn);
}

async function press(key, times = 1) {
  for (let n = 0; n < times; n++) { await browser.press(key); await settle(); }
}

async function picture(name) {
  if (folder) writeFileSync(join(folder, `${name}.png`), await browser.picture());
}

/** Drops a file on the page, as from a folder. */
async function drop(file) {
  const data = { items: [], files: [file], dragOperationsMask: 1 };
  for (const type of ["dragEnter", "dragOver", "drop"]) await browser.send("Input.dispatchDragEvent", { type, x: 700, y: 500, data });
}

/** Waits until the notice says something. */
const says = word => browser.until(`document.getElementById("notice").textContent.includes(${JSON.stringify(word)})`);

/** Writes into a field, as a person does, and does not wait for what comes of it. */
async function write(id, text) {
  await browser.evaluate(`(() => { const field = document.getElementById("${id}"); field.value = ${JSON.stringify(text)}; field.onchange(); })()`);
}

async function set(id, text) {
  await write(id, text);
  await settle();
}

const notice = () => browser.evaluate("document.getElementById('notice').textContent");
const position = () => browser.evaluate("page.board.position");

async function part(name, body) {
  const before = wrong;
  await body();
  console.log(`${name}: ${wrong === before ? "as it should be" : `${wrong - before} wrong`}`);
}

// ---- the parts

async function board() {
  await load("board.s", "board.sch");
  for (const turn of [1, 2, 17, 70, 71, 72, 150, 149, 148, 260]) {
    await goTurn(turn);
    check(`board, turn ${turn}`, await shown(), wanted("board.hex", "board.sch", "-", lead(turn)));
  }
  await goTurn(70);
  await press("ArrowRight", 3);
  check("three turns on", await shown(), wanted("board.hex", "board.sch", "-", lead(73)));
  await press("ArrowLeft", 2);
  check("two turns back", await shown(), wanted("board.hex", "board.sch", "-", lead(71)));
  await goTurn(17);
  check("labels", await browser.evaluate("[...document.querySelectorAll('#listing li.label')].map(item => item.textContent).includes('wait:')"), true);
  await goTurn(200);
  await picture("board");
  const told = native("run", "board.hex", "board.sch", "-", "1000");
  await click("run");
  check("the whole run", await browser.evaluate("document.getElementById('text').textContent"), told);
}

async function hazard() {
  await load("unflushed.s");
  for (let n = 0; n < 20 && !/ended/.test(await notice()); n++) await press("ArrowRight");
  check("the hazard", (await notice()).split(":").slice(0, 2).join(":"), "the run has ended: hazard 00001024");
  const { raw, marked } = await shown(), there = wanted("unflushed.hex", "-", "-", "turn 100\n");
  check("its registers", [raw, marked], [there.raw, ["g4"]]);
  await picture("hazard");
  await press("ArrowLeft", 3);
  check("back from there", await shown(), wanted("unflushed.hex", "-", "-", lead((await position()).turn)));
  await load("flushed.s");
  await click("run");
  check("the cure", await browser.evaluate("document.getElementById('text').textContent"), native("run", "flushed.hex", "-", "-", "100000"));
}

/** Registers that are marked, and bytes of memory that are not compared. */
async function marks() {
  await load("marks.s", "marks.sch");
  await set("address", "3000");
  const seen = new Set();
  for (const turn of [20, 23, 24, 26, 30, 60, 61, 62, 63, 64, 100, 150]) {
    await goTurn(turn);
    const found = await shown();
    check(`marks, turn ${turn}`, found, wanted("marks.hex", "marks.sch", "-", lead(turn), 0x3000));
    found.marked.forEach(name => seen.add(name));
  }
  check("some are marked", [...seen].sort(), ["g3", "g4"]);
  await picture("marks");
  await write("address", "1000");
  await set("schedule", "");
}

/** The addresses of the first instructions of a run, as the tracer tells them. */
const traced = (image, schedule, length) => native("trace", image, schedule, "-", String(length), "0", "FFFFFFFF").split("\n")
  .filter(line => line.startsWith("#t ")).map(line => line.split(" ")[2]);

async function instructions() {
  await load("fibonacci.s");
  const addresses = traced("fibonacci.hex", "-", 60);
  for (let n = 1; n < 40; n++) {
    await press("ArrowDown");
    check(`instruction ${n}`, (await shown()).controls.slice(0, 1), [addresses[n]]);
  }
  for (let n = 38; n > 30; n--) {
    await press("ArrowUp");
    check(`back to ${n}`, (await shown()).controls.slice(0, 1), [addresses[n]]);
  }
  await goTurn(900);
  await browser.evaluate("document.querySelector('#frames details').open = true");
  await picture("fibonacci");
}

async function calls() {
  await load("fibonacci.s");
  await press("ArrowDown", 3);
  const before = await shown();
  check("at a call", before.controls[0], traced("fibonacci.hex", "-", 10)[3]);
  await press("o");
  const behind = await shown();
  check("behind it, in the same frame", [behind.controls[0], behind.seen[31]], ["00001014", before.seen[31]]);
  await goTurn(2000);
  const inner = await shown();
  await press("u");
  const outer = await shown();
  check("out of a procedure", outer.seen[31], (parseInt(inner.seen[0], 16) & ~15).toString(16).toUpperCase().padStart(8, "0"));
}

async function breakpoints() {
  await load("ticks.s", "ticks.sch");
  const tick = parseInt(/^([0-9A-F]{8}) tick /m.exec(spawnSync(join(TOP, "scripts/names"), ["ticks.s"], { cwd: DEMO, encoding: "utf8", env: { ...process.env, PROGRAM: program } }).stdout)[1], 16);
  await browser.evaluate(`page.board.stops.clear(), page.board.stops.add(${tick}), 1`);
  await press("c");
  check("at the handler", (await shown()).here, [tick]);
  check("its interrupt", await browser.evaluate("/interrupt of vector 18/.test(document.getElementById('frames').textContent)"), true);
  const first = (await shown()).controls[3];
  await press("c");
  check("at the next one", Number((await shown()).controls[3]) > Number(first), true);
  await picture("ticks");
}

/** A fault's record, in words, and the frames below it with their locals. */
async function faults() {
  const file = join(room, "faults.s");
  writeFileSync(file, `.org 0xFFFFFF10\n.word start, prcb\n.org 0x800\nprcb: .word 0x900, 0xA00, 0x8000, 0x40000000, 0x2000, 0xB00, 0, 0x3000, 0, 0\n`
    + `.org 0x918\n.word handler\n.org 0x1000\nstart: mov 7, r4\n call divide\ndivide: mov 5, r5\n mov 0, g1\n divi g1, r5, g2\n ret\nhandler: ret\n`);
  const image = join(room, "faults.hex");
  writeFileSync(image, native("asm", file));
  await load(file);
  await browser.evaluate("page.board.stops.clear(), page.board.stops.add(0x1018), 1");
  await press("c");
  const frames = await shownFrames(), { turn, address: within } = await position();
  check("behind the entry", within, undefined);
  check("a fault in words", frames[0]?.told.includes("arithmetic fault (type 3, subtype 2: a division by 0) at 00001010"), true);
  check("its frames", frames.map(frame => frame.address), ["00003090", "00003040", "00003000"]);
  frames.slice(1).forEach(({ address, locals }) => check(`locals at ${address}`, locals, wordsAt(image, "-", "-", lead(turn), address)));
  await picture("fault");
}

async function stack() {
  await load("fibonacci.s");
  let deepest = 0;
  for (const turn of [700, 2000, 9000, 15000, 21000]) {
    await goTurn(turn);
    const frames = await shownFrames(), { seen } = await shown();
    check(`the frame at ${turn}`, frames[0].locals, seen.slice(0, 16));
    frames.slice(1).forEach(({ address, locals }) => check(`locals at ${address}`, locals, wordsAt("fibonacci.hex", "-", "-", lead(turn), address)));
    frames.slice(1).forEach(({ address }, n) => check(`the caller of ${frames[n].address}`, address, (parseInt(frames[n].locals[0], 16) & ~15).toString(16).toUpperCase().padStart(8, "0")));
    deepest = Math.max(deepest, frames.length);
  }
  check("a deep call", deepest > 6, true);
  await picture("stack");
}

/** Who wrote a byte, and the script that leads to a place. */
async function writers() {
  await load("fibonacci.s");
  await goTurn(2000);
  await set("address", "3010");
  await browser.evaluate("document.getElementById('who').click()");
  await says("3010");
  const script = join(room, "who.dbg");
  writeFileSync(script, `${lead(2000)}who 3010\n`);
  const [, count, address] = native("debug", "fibonacci.hex", "-", "-", script).trimEnd().split("\n").at(-1).split(" ");
  check("who wrote 3010", (await notice()).includes(`the instruction at ${address} `) && (await notice()).endsWith(`number ${count} of the run`), true);
  await browser.send("Page.setDownloadBehavior", { behavior: "allow", downloadPath: room });
  await browser.evaluate("document.getElementById('save-script').click()");
  const kept = join(room, "session.dbg");
  for (let n = 0; n < 200 && !existsSync(kept); n++) await new Promise(done => setTimeout(done, 20));
  check("the script that is kept", await shown(), wanted("fibonacci.hex", "-", "-", existsSync(kept) ? readFileSync(kept, "latin1") : "", 0x3010));
  await set("address", "1000");
}

/** The picture of turns, by the tracer's lines and the debugger's counts, and a small one by hand. */
async function pictured() {
  const rows = () => browser.evaluate(`[...document.querySelectorAll("#picture svg.names text")].slice(1).map(text => text.textContent)`);
  const bars = () => browser.evaluate(`[...document.querySelectorAll("#picture rect title")].map(title => title.textContent)`);
  await load("board.s", "board.sch");
  await goTurn(73);
  const script = join(room, "turns.dbg");
  writeFileSync(script, "turn 1\n".repeat(73));
  const counts = [0, ...native("debug", "board.hex", "board.sch", "-", script).split("\n").filter(line => line.startsWith("#turn ")).map(line => Number(line.split(" ")[2]))];
  const told = native("trace", "board.hex", "board.sch", "-", String(counts.at(-1)), "0", "FFFFFFFF").split("\n").filter(line => line.startsWith("#t "))
    .map(line => line.split(" ")).map(([, count, address, ...statement]) => ({ count: Number(count), row: `${address} ${statement.join(" ")}`.slice(0, 40) })).slice(-60);
  check("the rows of turns", await rows(), told.map(({ row }) => row));
  check("the turns of issue", (await bars()).map(title => Number(title.split(" ")[1])), told.map(({ count }) => counts.findLastIndex(before => before <= count) + 1));
  const file = join(room, "late.s");
  writeFileSync(file, ".org 0xFFFFFF10\n.word start\n.org 0x1000\nstart: muli 3, 4, g2\n addo 1, 2, g5\n ld 0x100, g6\n b next\nnext: mov 0, g7\n");
  await load(file);
  await goTurn(7);
  check("a small picture", (await bars()).slice(0, 2), ["turn 1 to 6, side R", "turn 2 to 3, side R"]);
  await load("unflushed.s");
  await goTurn(8);
  check("a call in it", (await bars())[1], "turn 2 to 6, side C");
}

async function keys() {
  await load("ticks.s", "ticks.sch");
  await browser.evaluate("document.activeElement.blur(), page.board.stops.clear(), 1");
  await goTurn(50);
  await press("Home");
  check("Home", (await position()).turn, 1);
  for (let n = 0; n < 7; n++) await browser.press("j");
  await browser.press("k");
  const chosen = await browser.evaluate("Number(document.querySelector('#listing li.chosen').dataset.address)");
  check("j and k", chosen, 0x1020);
  await press("g");
  check("to the selected line", (await shown()).here, [chosen]);
  await browser.press("j"); await browser.press("b");
  check("a breakpoint", await browser.evaluate("[...document.querySelectorAll('#listing li.stop')].map(item => Number(item.dataset.address))"), [0x1024]);
  await press("c");
  check("up to it", (await shown()).here, [0x1024]);
  await browser.evaluate("page.board.stops.clear(), 1");
}

/** Files that are dropped: an ELF file, and what a run printed as a schedule. */
async function drops() {
  const elf = join(room, "level.elf"), out = join(DEMO, "level.out");
  writeFileSync(elf, Buffer.from(native("asmelf", "level.s"), "latin1"));
  await browser.evaluate("page.board.name = '', page.board.image = undefined, 1");
  await drop(elf);
  await browser.until("page.isIdle() && page.board.name === 'level.elf'");
  await settle();
  await drop(out);
  await browser.until("page.isIdle() && page.board.schedule.startsWith('schedule 2')");
  await settle();
  await click("run");
  check("an ELF file and a kept run", await browser.evaluate("document.getElementById('text').textContent"), readFileSync(out, "latin1"));
  await set("schedule", "");
}

/** A script that is dropped is run, by its name or by how it begins. */
async function scripts() {
  const text = () => browser.evaluate("document.getElementById('text').textContent"), told = native("debug", "unflushed.hex", "-", "-", "unflushed.dbg");
  await load("unflushed.s");
  await drop(join(DEMO, "unflushed.dbg"));
  await says("unflushed.dbg was run");
  check("a script", await text(), told);
  check("the place stays", (await position()).turn, 1);
  const other = join(room, "script.txt"), bad = join(room, "bad.dbg");
  writeFileSync(other, `# a script\n${readFileSync(join(DEMO, "unflushed.dbg"), "latin1")}`);
  await drop(other);
  await says("script.txt was run");
  check("a script by its text", await text(), told);
  writeFileSync(bad, "turn 1\nregs 1\n");
  await drop(bad);
  await says("bad.dbg, line 2");
  check("a schedule by turns is none", await browser.evaluate(`page.kindOf("a", new TextEncoder().encode("turn 5 pin 0\\n"))`), "schedule");
}

/** Nothing is asked of a network, and what asks is stopped. */
async function network() {
  const asked = await browser.evaluate("performance.getEntriesByType('resource').map(entry => entry.name).filter(name => !/^(blob|data):/.test(name))");
  check("what was asked for", asked, []);
  const stopped = await browser.evaluate(`new Promise(done => {
    document.addEventListener("securitypolicyviolation", event => done(event.effectiveDirective));
    fetch("http://127.0.0.1:9/").catch(() => setTimeout(done, 1000, "not stopped"));
  })`);
  check("a request", stopped, "connect-src");
}

async function refusals() {
  const bad = join(room, "bad.s");
  writeFileSync(bad, ".org 16\nld 4 (g5), g6\n");
  await browser.choose("files", [bad]);
  await says("bad.s, line 2");
  check("beside its line", await browser.evaluate("document.querySelector('#listing li.fault + li.why').textContent.startsWith('a wrong form')"), true);
  await picture("refused");
  await load("ticks.s");
  await write("schedule", "at 1 pin 0\nat 2 pin 8\n");
  await says("the schedule, line 2");
  check("the line of a schedule", await browser.evaluate("(area => area.value.slice(area.selectionStart, area.selectionEnd))(document.getElementById('schedule'))"), "at 2 pin 8");
  await set("schedule", "");
  const broken = join(room, "broken.hex");
  writeFileSync(broken, ":0400100004030201E3\n");
  await browser.choose("files", [broken]);
  await says("broken.hex, line 1");
  await write("sets", "16");
  await says("Sets is 1 to 15");
  await set("sets", "-");
}

const LOOP = ".org 0xFFFFFF10\n.word start, 0x800\n.org 0x1000\nstart: addo 1, g4, g4\n mulo g4, g4, g5\n st g5, 0x2000\n cmpo g4, g5\n b start\n";
// A procedure of some 1,800 instructions, which is called again and again.
const CALLS = ".org 0xFFFFFF10\n.word start, 0x800\n.org 0x800\n.word 0x900, 0xA00, 0, 0x40000000, 0x2000, 0xB00, 0, 0x3000, 0, 0\n"
  + ".org 0x1000\nstart: addo 1, g4, g4\n call work\nagain: b start\nwork: mov 0, r4\nround: addo 1, r4, r4\n cmpo r4, g9\n lda 600, g9\n bl round\n ret\n";

const machineLoad = () => readFileSync("/proc/loadavg", "latin1").split(" ")[0];

/** How long a move took, by the page's own clock. */
async function took(move) {
  await browser.evaluate("document.getElementById('took').textContent = ''");
  await move();
  await browser.until("document.getElementById('took').textContent !== ''");
  return parseInt(await browser.evaluate("document.getElementById('took').textContent"), 10);
}

/** Makes a move some times, and asks that the median of what it took is short; `prepare` comes before each. */
async function inTime(what, times, move, prepare = () => {}) {
  const all = [];
  for (let n = 0; n < times; n++) {
    await prepare(n);
    all.push(await took(() => move(n)));
    await settle();
  }
  const median = [...all].sort((a, b) => a - b)[times >> 1];
  console.log(`  ${what}: ${median} ms, ${Math.min(...all)} to ${Math.max(...all)}`);
  check(`${what} in time`, median <= MOST_WAIT, true);
}

/** Each way of showing a place behind 100,000 instructions, and how long it takes. */
async function longRuns() {
  const alu = readFileSync(join(TOP, "bench", "alu.s"), "latin1"), key = name => () => browser.press(name);
  for (const [name, source, turn] of [["loop", LOOP, 147000], ["alu", alu, 110000]]) {
    const file = join(room, `${name}.s`), jump = to => write("turn", to);
    writeFileSync(file, source);
    await load(file);
    await browser.evaluate("document.activeElement.blur()");
    await goTurn(turn);
    console.log(`  ${name}, behind ${(await shown()).controls[3]} instructions, load ${machineLoad()}`);
    await inTime("a jump to a turn", 9, n => jump(turn - 400 * (n + 1)));
    await inTime("a turn more or less", 60, n => browser.press(n % 3 === 2 ? "ArrowLeft" : "ArrowRight"));
    await inTime("an instruction more", 15, key("ArrowDown"));
    await inTime("an instruction less", 15, key("ArrowUp"));
    await inTime("an instruction, at once behind a jump", 9, key("ArrowDown"), n => took(() => jump(turn - 400 * n - 4200)));
    await inTime("an instruction less, at once behind a jump", 9, key("ArrowUp"), n => took(() => jump(turn - 400 * n - 8200)));
    await inTime("a jump to a count", 9, n => write("behind", 112001 + 777 * n));
    const stop = Number((await shown()).here[0]);
    await browser.evaluate(`page.board.stops.clear(), page.board.stops.add(${stop}), 1`);
    await inTime("a breakpoint", 9, key("c"));
    await inTime("a breakpoint, at once behind a jump", 9, key("c"), n => took(() => jump(turn - 400 * n - 12200)));
    await browser.evaluate("page.board.stops.clear(), 1");
  }
  const file = join(room, "calls.s");
  writeFileSync(file, CALLS);
  await load(file);
  await browser.evaluate("document.activeElement.blur(), page.board.stops.add(0x1004), 1");
  await write("behind", "105000");
  await settle();
  const { turn } = await position();
  console.log(`  calls, behind ${(await shown()).controls[3]} instructions, load ${machineLoad()}`);
  await inTime("a jump to a turn", 9, n => write("turn", turn - 400 * (n + 1)));
  await write("behind", "105000");
  await settle();
  await inTime("a breakpoint far on", 5, key("c"));
  await inTime("over a call", 5, key("o"), async () => { await took(key("c")); await settle(); });
  check("behind the call", (await shown()).here, [0x1008]);
  await inTime("out of a procedure", 5, key("u"), async () => { await took(key("c")); await settle(); await took(key("ArrowDown")); await settle(); });
  check("behind it, too", (await shown()).here, [0x1008]);
  await browser.evaluate("page.board.stops.clear(), 1");
}

async function cancels() {
  await load("ticks.s");
  await browser.evaluate("document.getElementById('length').value = '10000000'; document.getElementById('run').click()");
  await new Promise(done => setTimeout(done, 300));
  await browser.evaluate("document.getElementById('cancel').click()");
  check("cancelled", await notice(), "cancelled");
  await browser.evaluate("document.getElementById('run').click()");
  await new Promise(done => setTimeout(done, 300));
  await browser.press("Escape");
  check("cancelled by its key", await notice(), "cancelled");
  await browser.evaluate("document.getElementById('length').value = '100000'");
  await goTurn(90);
  check("goes on behind it", (await position()).turn, 90);
}

const PARTS = {
  board, hazard, marks, instructions, calls, stack, breakpoints, faults, writers, pictured, keys, drops, scripts, refusals, network, longRuns, cancels,
};
if (folder) mkdirSync(folder, { recursive: true });
try {
  await browser.open(`file://${join(TOP, "page", "i960.html")}`);
  await browser.until("window.page?.ready === true");
  for (const [name, body] of Object.entries(PARTS)) if (only.length === 0 || only.includes(name)) await part(name, body);
} catch (error) {
  wrong++;
  console.log(`  ${error.stack}`);
  await picture("failed").catch(() => {});
} finally {
  await browser.close();
  rmSync(room, { recursive: true, force: true });
}
console.log(wrong ? `${wrong} wrong` : "all as it should be");
process.exit(wrong ? 1 : 0);
