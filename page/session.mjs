// Scripts of the debugger, and what its lines tell. Nothing here computes anything of the machine: each value is a word
// of a line that the command printed.

export const LOCALS = ["pfp", "sp", "rip", ...Array.from({ length: 13 }, (_, n) => `r${n + 3}`)];
export const GLOBALS = [...Array.from({ length: 15 }, (_, n) => `g${n}`), "fp"];
export const REGISTERS = [...LOCALS, ...GLOBALS];
const MOST_PASSED = 1000000;
export const FRAME_BYTES = 64, RECORD_BYTES = 16;

export const hex = value => (value >>> 0).toString(16).toUpperCase().padStart(8, "0");
export const number = word => parseInt(word, 16);

// ---- scripts

/** The commands that pass from a turn to a later one. */
function pass(from, to) {
  let script = "", left = to - from;
  for (; left > 0; left -= MOST_PASSED) script += `turn ${Math.min(left, MOST_PASSED)}\n`;
  return script;
}

/** The commands that lead from a turn on to a position within it: so many times on until an instruction leads there. */
export const arriveAt = ({ address, times = 1 }) =>
  (address === undefined ? "" : `until ${hex(address)}\n`.repeat(times));

/** The commands that lead to a position from the start. */
export const leadTo = position => pass(1, position.turn) + arriveAt(position);

/** The commands that tell a place: rows of 16 bytes of memory by the command `mem` or `rawmem`, and then the state. */
export function tell({ from, rows, by }) {
  const lines = Array.from({ length: rows }, (_, row) => `${by} ${hex(from + 16 * row)} 16\n`);
  return lines.join("") + "raw\nheld\nregs\n";
}

/** The commands that tell steps one after the other, from the first on, which is a turn: each later one is the next
 * turn, or in the same turn the next time that an instruction leads to an address. */
export const tellSteps = ([, ...rest], memory) => tell(memory)
  + rest.map(({ address }) => (address === undefined ? "turn 1\n" : `until ${hex(address)}\n`) + tell(memory)).join("");

/** The commands that tell a turn and the one before it, and how many instructions there are up to each turn from
 * `first` on, where they begin, to `last`. */
export function tellTurn(turn, first, last, memory) {
  const before = Math.max(first, turn - 1), one = "turn 1\n", here = before < turn ? one + tell(memory) : "";
  return one.repeat(before - first) + tell(memory) + here + one.repeat(last - turn);
}

// ---- what is told

const PLACE_END = /^#view (\d+) .*\n#g .*\n#l .*\n/gm;
const FIELDS = ["lines", "memory", "raw", "seen", "held", "sets", "who", "busy", "ip", "ac", "pc"];

/** The places that a session tells, each ended by its registers as the program sees them. */
export function readPlaces(text) {
  const places = [];
  let from = 0, console = "", end;
  for (const { index, 0: last, 1: count } of text.matchAll(PLACE_END)) {
    const told = text.slice(from, index + last.length);
    from = index + last.length;
    for (const [, byte] of told.matchAll(/^#out (..)/gm)) console += String.fromCharCode(number(byte));
    end = /^#end (.*)/m.exec(told)?.[1].split(" ") ?? end;
    places.push(new Place(told, Number(count), console, end));
  }
  return places;
}

/** A place by its lines, which are read when one of its fields is asked for. */
class Place {
  constructor(text, count, console, end) {
    Object.assign(this, { text, count, console, end, turn: Number(/^#raw (\d+)/m.exec(text)?.[1]), fields: undefined });
  }

  read() {
    const fields = { lines: this.text.trimEnd().split("\n"), memory: [], raw: [], seen: [], held: [], sets: 0 };
    let seen = false;
    for (const line of fields.lines) {
      const words = line.split(" ");
      if (words[0] === "#view") seen = true;
      takeLine(fields, words, seen);
    }
    return fields;
  }
}

for (const field of FIELDS) {
  Object.defineProperty(Place.prototype, field, { get() { return (this.fields ??= this.read())[field]; } });
}

function takeLine(place, [word, ...rest], seen) {
  if (word === "#raw") place.busy = number(rest[1]);
  else if (word === "#rg") place.raw = [...place.raw.slice(0, 16), ...rest];
  else if (word === "#rl") place.raw = [...rest, ...place.raw.slice(-16)];
  else if (word === "#held") { place.sets = Number(rest[0]); place.held = rest.slice(2).map(number); }
  else if (word === "#view") [place.ip, place.ac, place.pc] = rest.slice(1);
  else if (word === "#g" && seen) place.seen = [...Array(16).fill(""), ...rest];
  else if (word === "#l" && seen) place.seen = [...rest, ...place.seen.slice(16)];
  else if (word === "#mem" || word === "#rawmem") place.memory.push({ address: number(rest[0]), bytes: rest.slice(1) });
  else if (word === "#who") place.who = rest;
}

/** The turn and the count of instructions of each line that tells one. */
export function readTurns(text) {
  const lines = [...text.matchAll(/^#turn (\d+) (\d+)$/gm)];
  return lines.map(([, turn, count]) => ({ turn: Number(turn), count: Number(count) }));
}

/** Whether a register is busy at a place. */
export const isBusy = (place, register) => (place.busy >>> register & 1) === 1;

/** The instructions of a trace: how many came before each, its address and its statement; the last `most` of them. */
export function readTrace(text, most) {
  let from = text.length;
  for (let n = 0; n < most && from > 0; n++) from = text.lastIndexOf("\n#t ", from - 1);
  const lines = text.slice(Math.max(from, 0)).split("\n").filter(line => line.startsWith("#t "));
  return lines.map(line => {
    const [, count, address, ...statement] = line.split(" ");
    return { count: Number(count), address: number(address), statement: statement.join(" ") };
  });
}

/** The lines of a listing that have a statement, with its address. */
export function readListing(text) {
  const found = [];
  for (const line of text.split("\n")) {
    const at = line.lastIndexOf(" # "), address = number(line.slice(at + 3, at + 11));
    if (at > 0) found.push({ address, statement: line.slice(0, at), words: line.slice(at + 12) });
  }
  return found;
}

/** What a line that refuses a file says: the file, the line and the kind; or nothing. */
export function readRefusal(text) {
  const line = /^#(image|schedule|source|script) line (\d+) kind (\d+)$/m.exec(text);
  if (line) return { what: line[1], line: Number(line[2]), kind: line[3] };
  const elf = /^#image elf kind (\d+)$/m.exec(text);
  return elf ? { what: "elf", line: undefined, kind: elf[1] } : undefined;
}

// ---- instructions

const WRITES_NONE = /^(cmp[io]$|chkbit|mark|fmark|syncf|flushreg|calls|sysctl|sdma|udma|bal)/;

/** The side on which an instruction issues, by its mnemonic: R, M or C. */
export function sideOf(mnemonic) {
  if (/^(ld|st|lda)/.test(mnemonic)) return "M";
  return /^(b|cmp[io]b|call$|callx$|ret$|test|fault)/.test(mnemonic) ? "C" : "R";
}

/** The number of the register that a statement writes, where it writes one; of a call or a return fp, which is busy as
 * long as the frames move. */
export function destinationOf(statement) {
  const [mnemonic, ...rest] = statement.replace(/\{.*$/, "").trim().split(/\s+/);
  const side = sideOf(mnemonic), operands = rest.join("").split(",");
  if (/^(call|callx|calls|ret)$/.test(mnemonic)) return REGISTERS.indexOf("fp");
  if (side === "C" || mnemonic.startsWith("st") || WRITES_NONE.test(mnemonic)) return undefined;
  const at = REGISTERS.indexOf({ r0: "pfp", r1: "sp", r2: "rip", g15: "fp" }[operands.at(-1)] ?? operands.at(-1));
  return at < 0 ? undefined : at;
}

/** Whether an instruction calls a procedure. */
export const isCall = statement => /^(call|callx|calls|bal|balx)(\s|$)/.test(statement);

// ---- frames

/** The bytes of memory that a session told, as a function of the address. */
export function memoryOf(rows) {
  const bytes = new Map();
  for (const { address, bytes: told } of rows) told.forEach((byte, n) => bytes.set((address + n) >>> 0, byte));
  return bytes;
}

/** The word at an address, in eight digits, where all of its bytes were told; low byte first. */
export function wordAt(bytes, address) {
  const told = [3, 2, 1, 0].map(n => bytes.get((address + n) >>> 0));
  return told.every(byte => byte !== undefined && byte !== "--") ? told.join("") : undefined;
}

/** The address of the frame that a previous frame pointer names, and the return type in its low bits. */
export const frameOf = pfp => (number(pfp) & ~15) >>> 0;
export const returnTypeOf = pfp => number(pfp) & 7;

/** The frames from the current one on, as far as memory was told; and the address of the first that was not told. */
export function framesOf(place, bytes, most = 64) {
  const frames = [{ address: frameOf(place.seen[31]), locals: place.seen.slice(0, 16), where: "registers" }];
  while (frames.length < most) {
    const next = frameOf(frames.at(-1).locals[0]);
    if (next === 0 || frames.some(frame => frame.address === next)) return { frames, missing: undefined };
    const locals = Array.from({ length: 16 }, (_, n) => wordAt(bytes, next + 4 * n));
    if (locals[0] === undefined) return { frames, missing: bytes.has(next) ? undefined : next };
    frames.push({ address: next, locals, where: place.held.includes(next) ? "a register set" : "memory" });
  }
  return { frames, missing: undefined };
}

/** The commands that tell the frames of a place: those in sets, and what lies below the first address that is
 * missing. */
export function tellFrames(place, missing, depth = 24) {
  const told = new Set(place.held.map(address => address));
  const from = missing ?? frameOf(place.seen[0]);
  for (let n = 0; n < depth && from !== 0; n++) if (from - FRAME_BYTES * n >= 0) told.add(from - FRAME_BYTES * n);
  const rows = [...told].map(address => `mem ${hex(address)} ${FRAME_BYTES}\n`);
  const records = [frameOf(place.seen[31]), ...told].filter(address => address >= RECORD_BYTES)
    .map(address => `mem ${hex(address - RECORD_BYTES)} ${RECORD_BYTES}\n`);
  return rows.join("") + records.join("") + "raw\nheld\nregs\n";
}

/** The record below the frame of a handler: of a fault its type, subtype and address, of an interrupt its vector. */
export function recordOf(frame, bytes) {
  const type = frame.locals[0] === undefined ? 0 : returnTypeOf(frame.locals[0]);
  const [third, fourth] = [8, 4].map(n => wordAt(bytes, frame.address - n));
  if (third === undefined || fourth === undefined) return undefined;
  if (type === 7) return { interrupt: number(third) & 255 };
  if (type !== 1) return undefined;
  return { fault: number(third) >>> 16 & 255, subtype: number(third) & 65535, address: number(fourth) };
}

// ---- the names of a source

const NAME = "[A-Za-z_][A-Za-z0-9_]{0,62}";
const LABEL = new RegExp(`^[ \\t]*(${NAME}):`);
const SILENT = [".org", ".align", ".set"];
const withoutComment = line => /^(?:[^"#]|"(?:[^"\\]|\\.)*"?)*/.exec(line)[0];

/** A source with a label at each line that writes bytes, and a table of words behind it with the values of the labels:
 * the table is the last segment of what the assembler prints. */
export function sourceWithTable(source) {
  let prefix = "line_";
  while (source.includes(prefix)) prefix += "_";
  const labels = [], marked = source.split("\n").map((line, n) => {
    const code = withoutComment(line), label = LABEL.exec(code), words = code.slice(label ? label[0].length : 0).trim();
    const writes = words !== "" && !SILENT.includes(words.split(/\s/)[0]);
    const name = label?.[1] ?? (writes ? `${prefix}${n}` : undefined);
    if (name !== undefined) labels.push({ name: label?.[1], word: name, line: n, writes });
    return writes && !label ? `${name}: ${line}` : line;
  });
  return { labels, text: `${marked.join("\n")}\n.org 0${labels.map(label => `\n.word ${label.word}`).join("")}\n` };
}

/** The labels of a source by address, and its lines by the address of their first byte, out of the assembled table. */
export function readTable(labels, hexText) {
  const data = hexText.split("\n").filter(line => line.startsWith(":") && line.slice(7, 9) === "00")
    .map(line => line.slice(9, -2).trim()).join("").replace(/\s/g, "");
  const start = data.length - 8 * labels.length, names = new Map(), lines = new Map();
  labels.forEach(({ name, line, writes }, n) => {
    const word = data.slice(start + 8 * n, start + 8 * n + 8).match(/../g).reverse().join("");
    if (name !== undefined) names.set(number(word), [...(names.get(number(word)) ?? []), name]);
    if (writes) lines.set(number(word), line);
  });
  return { names, lines };
}
