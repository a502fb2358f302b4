// The page of the simulator: what is pressed, and what is shown then. It computes nothing of the machine.
import { Simulator, Cancelled } from "./simulator.mjs";
import { Board, Refused, kindOf } from "./board.mjs";
import { hex, number } from "./session.mjs";
import {
  at, showListing, showRegisters, showFrames, showMemory, showText, showConsole, showPicture, showFaultyText,
  refusalText, endText, chooseLine,
} from "./views.mjs";

const PICTURED_TURNS = 100;
let board, simulator, words, chosen, lastText = "";
let moving = false, resting = 0, rest = Promise.resolve(), shownMoves = 0;

// ---- what is in the page's own file

const kept = id => document.getElementById(id).textContent;
const moduleBytes = () => Uint8Array.from(atob(kept("module")), character => character.charCodeAt(0));
const workerScript = () => URL.createObjectURL(new Blob([kept("worker")], { type: "text/javascript" }));

async function start() {
  words = JSON.parse(kept("words"));
  simulator = await Simulator.start(moduleBytes(), workerScript());
  simulator.busy = is => { at("cancel").disabled = !is; };
  board = new Board((...asked) => simulator.ask(...asked), (...asked) => simulator.askAside(...asked));
  await board.probe();
  at("who").hidden = !board.has.who;
  window.page = { board, words, kindOf, ready: true, isIdle: () => !moving && resting === 0 };
  notice("Open an image, a source or an ELF file; a schedule may come with it.");
}

const notice = text => { at("notice").textContent = text; };

// ---- moves

/** Makes a move and shows where it leads; one at a time. */
async function move(go) {
  if (moving || !board.image) return;
  moving = true;
  const begun = performance.now();
  notice("");
  try {
    await go();
    showPlace();
    at("took").textContent = `${(performance.now() - begun).toFixed(0)} ms`;
    moving = false;
    await showRest(++shownMoves);
  } catch (error) {
    tellError(error);
  } finally {
    moving = false;
  }
}

function tellError(error) {
  if (error instanceof Cancelled) { notice("cancelled"); return; }
  if (!(error instanceof Refused)) { notice(error.message); return; }
  notice(refusalText(error, words));
  showText(error.status, error.message, words);
  if (error.refusal?.what === "schedule") chooseLine(at("schedule"), error.refusal.line);
  else showFaultyText(error, words);
}

/** What the place itself tells. */
function showPlace() {
  const { place, position } = board;
  chosen = undefined;
  at("turn").value = position.turn;
  at("behind").value = place.count;
  showListing(board, chosen);
  showRegisters(board);
  showMemory(board);
  showConsole(place.console);
  lastText = place.lines.join("\n");
  showText(undefined, lastText, words);
  const within = position.address === undefined ? "" : `within turn ${place.turn}, behind ${place.count} instructions`;
  notice(place.end ? endText(place.end, words) : within);
}

/** What needs runs of its own, as long as no other move came; one place at a time. */
async function showRest(number) {
  resting++;
  const before = rest;
  let done;
  rest = new Promise(end => { done = end; });
  try {
    await before;
    if (number === shownMoves) await showFramesAndTurns(number);
  } finally {
    resting--;
    done();
  }
}

async function showFramesAndTurns(number) {
  const still = () => number === shownMoves && !moving;
  const marked = board.before !== undefined;
  await board.tellCourse();
  if (!still()) return;
  await board.tellRound();
  if (!still()) return;
  if (!marked) showRegisters(board);
  const frames = await board.frames(board.askAside);
  if (!still()) return;
  showFrames(board, frames, words);
  if (at("picture-box").open) {
    const issued = await board.issued(PICTURED_TURNS);
    if (!still()) return;
    showPicture(board, issued);
  }
}

// ---- loading

async function open(files) {
  notice("");
  const before = board.name, kinds = [];
  try {
    for (const file of files) kinds.push(await board.load(file.name, new Uint8Array(await file.arrayBuffer())));
  } catch (error) {
    tellError(error);
    return;
  }
  if (kinds.every(kind => kind === "script")) {
    if (board.image) await runGiven();
    else notice("a script runs over an image: open one first");
    return;
  }
  at("schedule").value = board.schedule;
  at("name").textContent = board.name;
  document.title = `i960CA: ${board.name}`;
  await move(() => board.goTurn(1));
  const keeps = before !== "" && before !== board.name && !kinds.includes("schedule") && board.schedule.trim() !== "";
  if (keeps && at("notice").textContent === "") notice("the schedule is still the one from before");
  if (kinds.includes("script")) await runGiven();
}

/** Takes what the fields have, where it is not what it was. */
function takeFields() {
  const sets = at("sets").value.trim() || "-", length = at("length").value.trim() || "100000";
  const given = { schedule: at("schedule").value, sets, length };
  const from = parseInt(at("address").value, 16) >>> 0, by = at("by").value;
  if (["schedule", "sets", "length"].some(name => board[name] !== given[name])) {
    Object.assign(board, given);
    board.forget();
    board.position = { turn: Number(at("turn").value) || 1 };
  }
  if (board.memory.from !== from || board.memory.by !== by) {
    board.memory = { ...board.memory, from, by };
    board.forgetPlaces();
  }
}

const again = () => { takeFields(); return move(() => board.goTurn(board.position.turn)); };

const runAll = () => showReply(() => board.run());

/** Runs the script that was opened, from the start, and shows all that it prints. */
const runGiven = () =>
  showReply(() => board.runGiven(), `${board.given.name} was run, and printed what stands under Text`);

async function showReply(ask, told = "") {
  takeFields();
  notice("");
  const begun = performance.now();
  try {
    const reply = await ask();
    notice(told);
    lastText = reply.text;
    showText(reply.status, reply.text, words);
    const sent = reply.text.split("\n").filter(line => line.startsWith("#out "));
    showConsole(sent.map(line => String.fromCharCode(number(line.slice(5)))).join(""));
    at("took").textContent = `${(performance.now() - begun).toFixed(0)} ms`;
  } catch (error) {
    tellError(error);
  }
}

async function who() {
  const told = await board.whoWrote(board.memory.from).catch(tellError);
  if (told) notice(whoText(hex(board.memory.from), told));
}

function whoText(address, [count, instruction]) {
  if (count === "none") return `no instruction has changed the byte at ${address}`;
  const named = `${instruction} ${board.labelOf(number(instruction))}`;
  return `the byte at ${address} was last changed by the instruction at ${named}, number ${count} of the run`;
}

function save(name, text) {
  const link = document.createElement("a");
  link.href = URL.createObjectURL(new Blob([text], { type: "text/plain" }));
  link.download = name;
  link.click();
}

// ---- the listing

function choose(address) {
  chosen = address;
  showListing(board, chosen);
}

function chooseNext(step) {
  const here = chosen ?? number(board.place.ip), n = board.listing.findIndex(line => line.address >= here);
  const line = board.listing[Math.max(0, Math.min(board.listing.length - 1, n + step))];
  if (line) choose(line.address);
}

function toggleStop() {
  const address = chosen ?? number(board.place.ip);
  if (!board.stops.delete(address)) board.stops.add(address);
  showListing(board, chosen);
}

// ---- wiring

const MOVES = {
  "first": () => board.goTurn(1),
  "turn-back": () => board.goTurn(board.position.address === undefined ? board.position.turn - 1 : board.position.turn),
  "turn-next": () => board.goTurn(board.place.end ? board.position.turn : board.position.turn + 1),
  "step-back": () => board.stepBack(),
  "step": () => board.step(),
  "over": () => board.over(),
  "out": () => board.out(),
  "to-line": () => board.reach(chosen ?? number(board.place.ip)),
  "go-on": () => board.goOn(),
};
const KEYS = {
  ArrowRight: "turn-next", ArrowLeft: "turn-back", ArrowDown: "step", ArrowUp: "step-back", Home: "first",
  o: "over", u: "out", g: "to-line", c: "go-on", b: "break",
};

for (const [id, go] of Object.entries(MOVES)) at(id).onclick = () => { takeFields(); move(go); };
at("behind").onchange = () => move(() => board.goInstruction(Number(at("behind").value) || 0));
at("turn").onchange = () => move(() => board.goTurn(Number(at("turn").value) || 1));
for (const id of ["schedule", "sets", "length", "address", "by"]) at(id).onchange = again;
at("run").onclick = runAll;
at("break").onclick = toggleStop;
at("who").onclick = who;
at("cancel").onclick = () => simulator.cancel();
at("save-script").onclick = () => save("session.dbg", board.script);
at("save-text").onclick = () => save("session.txt", lastText);
at("files").onchange = event => {
  const files = [...event.target.files];
  // The same file can be chosen again then, as after a change.
  event.target.value = "";
  open(files);
};
at("listing").onclick = event => {
  const item = event.target.closest("li[data-address]");
  if (item) choose(Number(item.dataset.address));
};
at("listing").ondblclick = () => toggleStop();
document.ondragover = event => event.preventDefault();
document.ondrop = event => { event.preventDefault(); open(event.dataTransfer.files); };
document.onkeydown = event => {
  if (event.key === "Escape") { simulator.cancel(); return; }
  if (event.target.matches("input, textarea, select") || !board?.place) return;
  if (event.ctrlKey || event.metaKey || event.altKey) return;
  if (event.key === "j" || event.key === "k") { chooseNext(event.key === "j" ? 1 : -1); return; }
  if (!KEYS[event.key]) return;
  event.preventDefault();
  at(KEYS[event.key]).click();
};
const NEEDS = "It needs WebAssembly with bulk memory and 64-bit numbers.";
start().catch(error => notice(`This browser cannot run the page: ${error.message}. ${NEEDS}`));
