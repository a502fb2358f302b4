// What is shown of a board. Each view shows words of lines that the command printed.
import { REGISTERS, LOCALS, hex, number, isBusy, returnTypeOf, recordOf, sideOf, destinationOf } from "./session.mjs";

const LISTED = 240, CELL = 9, ROW = 13, PICTURED = 60, STATEMENT = 246, STATEMENT_LENGTH = 40;
const STALE = "--------";
export const at = id => document.getElementById(id);

/** An element with a class and a text or children. */
function made(tag, name, ...children) {
  const element = document.createElement(tag);
  if (name) element.className = name;
  element.append(...children);
  return element;
}

// ---- listing

/** The lines round an address, with the labels and lines of the source beside them. */
export function showListing(board, chosen) {
  const here = board.place ? number(board.place.ip) : undefined, centre = chosen ?? here;
  const found = board.listing.findIndex(line => line.address >= (centre ?? 0));
  const from = Math.max(0, (found < 0 ? board.listing.length : found) - LISTED / 2);
  const items = board.listing.slice(from, from + LISTED).flatMap(line => [
    ...(board.names.get(line.address) ?? []).map(name => made("li", "label", `${name}:`)),
    listed(board, line, here, chosen),
  ]);
  at("listing").replaceChildren(...items);
  const beside = board.source ? "; labels and lines of the source" : "";
  at("code-note").textContent = `${board.listing.length} lines${beside}`;
  const shown = at("listing").querySelector(chosen === undefined ? ".here" : ".chosen");
  shown?.scrollIntoView({ block: "center" });
}

function listed(board, line, here, chosen) {
  const { address } = line, source = board.lines.get(address);
  const marks = [address === here && "here", address === chosen && "chosen", board.stops.has(address) && "stop"];
  const head = made("b", "", `${hex(address)}  `);
  const item = made("li", marks.filter(Boolean).join(" "), head, line.statement.padEnd(34));
  if (source !== undefined) item.append(made("i", "", `${source + 1}: ${board.source[source].trim()}`));
  item.dataset.address = address;
  return item;
}

// ---- registers

export function showRegisters({ place, before }) {
  const rows = Array.from({ length: 8 }, (_, row) => {
    const line = made("tr", "");
    for (let column = 0; column < 4; column++) line.append(...register(place, before, row + 8 * column));
    return line;
  });
  const last = made("tr", "");
  for (const name of ["ip", "ac", "pc", "count"]) {
    const value = String(place[name]);
    last.append(...cells(name, value, before && String(before[name]) !== value ? "changed" : ""));
  }
  at("registers").replaceChildren(...rows, last);
}

function register(place, before, n) {
  const busy = isBusy(place, n), changed = before && before.raw[n] !== place.raw[n];
  const marks = [busy && "busy", changed && "changed", place.seen[n] === STALE && "marked"].filter(Boolean);
  const shown = cells(REGISTERS[n], place.raw[n] + (busy ? " *" : ""), marks.join(" "));
  if (place.seen[n] !== place.raw[n]) shown[1].append(made("span", "sees", ` \u2192 ${place.seen[n]}`));
  return shown;
}

function cells(name, value, marks) {
  const cell = made("td", marks, value);
  cell.dataset.name = name;
  return [made("td", "name", name), cell];
}

// ---- frames

export function showFrames(board, { frames, bytes }, words) {
  const { held, sets } = board.place;
  at("held").textContent = `${held.length} of ${sets} sets hold one`;
  const opened = [...at("frames").querySelectorAll("details[open]:not(:first-child)")];
  const open = new Set(opened.map(view => view.dataset.address));
  const isOpen = ({ address }, n) => n === 0 || open.has(hex(address));
  const views = frames.map((frame, n) => frameView(board, frame, frames[n + 1], bytes, words, isOpen(frame, n)));
  at("frames").replaceChildren(...views);
}

function frameView(board, frame, caller, bytes, words, open) {
  const how = words.returns[returnTypeOf(frame.locals[0])] ?? "call", record = caller && recordOf(frame, bytes);
  const to = caller?.locals[2], back = to === undefined ? "" : `, goes back to ${to} ${board.labelOf(number(to))}`;
  const summary = made("summary", "", `${hex(frame.address)} in ${frame.where}${caller ? `, by ${how}${back}` : ""}`);
  if (record) summary.append(made("b", "", `; ${recordText(record, words)}`));
  const locals = LOCALS.map((name, k) => `${name.padStart(3)} ${frame.locals[k] ?? STALE}`);
  const text = [0, 4, 8, 12].map(k => locals.slice(k, k + 4).join("  ")).join("\n");
  const view = made("details", "", summary, made("pre", "", text));
  view.open = open;
  view.dataset.address = hex(frame.address);
  return view;
}

/** A record in words. */
export function recordText(record, words) {
  if (record.interrupt !== undefined) return `interrupt of vector ${record.interrupt}`;
  const kind = words.faults[record.fault] ?? {};
  const subtype = kind[record.subtype] ?? (record.fault === 1 ? "an event that is traced" : "");
  const numbers = `type ${record.fault}, subtype ${record.subtype}`;
  const told = subtype ? `${numbers}: ${subtype}` : numbers;
  return `${kind[""] ?? "unknown"} fault (${told}) at ${hex(record.address)}`;
}

// ---- memory, console and text

export function showMemory({ place }) {
  const rows = place.memory.map(({ address, bytes }) => `${hex(address)}  ${bytes.join(" ")}  ${characters(bytes)}`);
  at("memory").textContent = rows.join("\n");
}

const characters = bytes => bytes.map(number)
  .map(byte => (byte >= 32 && byte < 127 ? String.fromCharCode(byte) : ".")).join("");

export function showText(status, text, words) {
  const end = /^#end (\w+)/m.exec(text)?.[1];
  const why = words.ends[end] ?? words.statuses[status];
  at("status").textContent = status === undefined ? "" : `status ${status}: ${why}`;
  at("text").textContent = text.length > 200000 ? `${text.slice(0, 200000)}\n.. (Save text has all)` : text;
}

export function showConsole(text) {
  at("console").textContent = text;
}

/** The words of the end of a run. */
export const endText = ([word, ...rest], words) => `the run has ended: ${word} ${rest.join(" ")}: ${words.ends[word]}`;

// ---- refusals

/** What is wrong with a file, in words; and the line at fault, which the page marks. */
export function refusalText({ refusal, name, text, status, message }, words) {
  if (!refusal) return `${name}: ${message}: ${words.statuses[status]}`;
  const why = words.kinds[refusal.what][refusal.kind];
  if (refusal.line === undefined) return `${name}: ${why}`;
  return `${name}, line ${refusal.line}: ${why}\n    ${(text.split("\n")[refusal.line - 1] ?? "").trimEnd()}`;
}

/** The lines round the one at fault, with the words beside it. */
export function showFaultyText({ refusal, text, name }, words) {
  if (!refusal?.line) return;
  const from = Math.max(0, refusal.line - 12);
  const lines = text.split("\n").slice(from, refusal.line + 12).flatMap((line, n) => {
    const nth = from + n + 1, faulty = nth === refusal.line;
    const item = made("li", faulty ? "fault" : "", made("b", "", `${nth}`.padStart(5) + "  "), line);
    return faulty ? [item, made("li", "fault why", words.kinds[refusal.what][refusal.kind])] : [item];
  });
  at("listing").replaceChildren(...lines);
  at("code-note").textContent = `${name}, which is refused`;
  at("listing").querySelector(".fault")?.scrollIntoView({ block: "center" });
}

/** Marks a line of the schedule. */
export function chooseLine(area, line) {
  const lines = area.value.split("\n");
  const start = lines.slice(0, line - 1).reduce((sum, text) => sum + text.length + 1, 0);
  area.focus();
  area.setSelectionRange(start, start + (lines[line - 1]?.length ?? 0));
}

// ---- the picture of turns

/** A row for each instruction, from the turn in which it issued to the one at which its register is no longer busy. */
export function showPicture(board, issued) {
  const shown = issued.slice(-PICTURED), box = at("picture");
  if (shown.length === 0) { box.replaceChildren("nothing has issued in these turns"); return; }
  const first = shown[0].turn, last = board.position.turn, height = ROW * (shown.length + 1);
  const width = CELL * (last - first + 4), now = CELL * (last - first);
  const names = shown.map(({ address, statement }, n) => {
    const name = `${hex(address)} ${statement}`.slice(0, STATEMENT_LENGTH);
    return `<text x="0" y="${ROW * (n + 1) + 10}">${escaped(name)}</text>`;
  });
  const bars = shown.map((item, n) => bar(board, item, ROW * (n + 1), first, last));
  box.innerHTML = `<svg class="names" width="${STATEMENT}" height="${height}">`
    + `<text x="0" y="10">turns ${first} to ${last}</text>${names.join("")}</svg>`
    + `<svg width="${width}" height="${height}" role="img" aria-label="instructions by turn">`
    + `<line x1="${now}" y1="0" x2="${now}" y2="${height}"/>${bars.join("")}</svg>`;
  [box.scrollTop, box.scrollLeft] = [box.scrollHeight, box.scrollWidth];
}

const escaped = text => text.replaceAll("&", "&amp;").replaceAll("<", "&lt;");

function bar(board, { turn, statement }, y, first, last) {
  const done = doneAt(board, turn, statement, last), side = sideOf(statement.split(" ")[0]);
  const length = CELL * Math.max(1, done - turn) - 1;
  return `<rect class="${side}" x="${CELL * (turn - first)}" y="${y + 2}" width="${length}" height="${ROW - 4}">`
    + `<title>turn ${turn} to ${done}, side ${side}</title></rect>`;
}

/** The first turn behind an issue at which the register that is written is not busy; at most the last one. */
function doneAt(board, turn, statement, last) {
  const register = destinationOf(statement);
  let done = turn + 1;
  const busyAt = turn => board.told.has(turn) && isBusy(board.told.get(turn), register);
  while (register !== undefined && done < last && busyAt(done)) done++;
  return done;
}
