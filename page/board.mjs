// What is loaded and where the session stands, and the moves from there. Each is a run of the command from the start,
// where what it shows was not told by an earlier one.
import {
  hex, number, leadTo, arriveAt, tell, tellSteps, tellTurn, tellFrames, readPlaces, readTurns, readTrace,
  readListing, readRefusal, readTable, sourceWithTable, memoryOf, framesOf, isCall,
} from "./session.mjs";
import { NOT_TOLD } from "./course.mjs";

const BEHIND = 100, AHEAD = 100, EDGE = 24, MOST_TRIES = 64, FRAME_ROUNDS = 6, TRACED = 400, HEAD = 65536;
const STRIDE = 64, STRIDES = 4096, WIDER = 8;
// A course is told of so many instructions at most, and with it the count at each so many turns; the course is told
// further where a place comes near to its end.
const MOST_COURSE = 300000, COURSE_AHEAD = 5000, COUNTED = 3200, MOST_UNTILS = 300, NEAR = 5000, MOST_COUNTS = 1000;
const EVERYWHERE = ["0", "FFFFFFFF"];
const latin1 = new TextDecoder("latin1");
const NO_BYTES = bytesOf(":00000001FF\n");

/** A text as the program takes it, a byte for each character; one past 255 is a byte past ASCII, which it refuses. */
export function bytesOf(text) {
  return Uint8Array.from(text, character => Math.min(character.charCodeAt(0), 255));
}

/** What the program says of a file that it refuses; `text` is that of the file. */
export class Refused extends Error {
  constructor(reply, name, text) {
    super(reply.text.trim());
    Object.assign(this, { status: reply.status, refusal: readRefusal(reply.text), name, text });
  }
}

// The first line that says anything is a command of the debugger. A schedule by turns has an event behind the turn.
const BLANKS = "[ \\t]+", HEX = "[0-9A-Fa-f]+", SKIPPED = "^(?:[ \\t\\r]*(?:#.*)?\\n)*";
const WITH_NUMBER = `(?:turn|until|back|last|who)${BLANKS}${HEX}`;
const WITH_PIECE = `(?:raw)?mem${BLANKS}${HEX}${BLANKS}[0-9]+`;
const SCRIPT = new RegExp(`${SKIPPED}[ \\t]*(?:${WITH_NUMBER}|regs|raw|held|${WITH_PIECE})[ \\t\\r]*(?:\\n|$)`);
const SCHEDULE = new RegExp(`${SKIPPED}[ \\t]*(?:at|turn|schedule)[ \\t]+\\d`);

/** What a file is to be, by its name and how it begins. */
export function kindOf(name, bytes) {
  const head = new TextDecoder("latin1").decode(bytes.subarray(0, HEAD));
  if (head.startsWith("\x7FELF") || head.startsWith(":")) return "image";
  if (/\.dbg$/i.test(name) || (!/\.(s|sch)$/i.test(name) && SCRIPT.test(head))) return "script";
  if (/\.sch$/i.test(name) || SCHEDULE.test(head)) return "schedule";
  return "source";
}

export class Board {
  /** `ask(words, files, more)` answers a status and a text, and so does `askAside`, where nobody waits for it. */
  constructor(ask, askAside) {
    Object.assign(this, { ask, askAside, image: undefined, name: "", source: undefined });
    Object.assign(this, { schedule: "", sets: "-", length: "100000", memory: { from: 0x1000, rows: 8, by: "mem" } });
    Object.assign(this, { names: new Map(), lines: new Map(), listing: [], stops: new Set(), has: {} });
    this.forget();
  }

  /** Which of the commands the debugger has that came later. */
  async probe() {
    const { status } = await this.ask(["debug", "1", "-", "-", "3"], [NO_BYTES, undefined, bytesOf("who 0\n")]);
    this.has.who = status === 0 || status === 4;
  }

  /** Lets go of what was told, as where something else is loaded. */
  forget() {
    Object.assign(this, { position: { turn: 1 }, place: undefined, before: undefined, script: "", ending: undefined });
    Object.assign(this, { counts: new Map(), course: undefined });
    this.forgetPlaces();
  }

  /** Lets go of the places that were told: by turn, and behind an instruction by its number. */
  forgetPlaces() {
    Object.assign(this, { told: new Map(), within: new Map() });
  }

  // ---- what is loaded

  async load(name, bytes) {
    const kind = kindOf(name, bytes), text = new TextDecoder("latin1").decode(bytes);
    if (kind === "schedule") { this.schedule = text; this.forget(); return kind; }
    if (kind === "script") { this.given = { name, text }; return kind; }
    if (kind === "source") await this.loadSource(name, text, bytes);
    else await this.loadImage(name, text, bytes);
    this.forget();
    return kind;
  }

  async loadSource(name, text, bytes) {
    const made = await this.ask(["asm", "1"], [bytes]);
    if (made.status !== 0) throw new Refused(made, name, text);
    const { labels, text: marked } = sourceWithTable(text.replaceAll("\r\n", "\n"));
    const table = await this.ask(["asm", "1"], [bytesOf(marked)]);
    await this.loadImage(name, text, bytesOf(made.text));
    if (table.status === 0) Object.assign(this, readTable(labels, table.text));
    this.source = text.split("\n");
  }

  async loadImage(name, text, bytes) {
    const listed = await this.ask(["dis", "1"], [bytes]);
    if (listed.status !== 0) throw new Refused(listed, name, text);
    Object.assign(this, { image: bytes, name, source: undefined, listing: readListing(listed.text) });
    Object.assign(this, { names: new Map(), lines: new Map() });
  }

  /** The label of an address, or the nearest one before it. */
  labelOf(address) {
    let best;
    for (const at of this.names.keys()) {
      if (at <= address && address - at < 65536 && (best === undefined || at > best)) best = at;
    }
    if (best === undefined) return "";
    const distance = address - best;
    return this.names.get(best)[0] + (distance ? `+0x${distance.toString(16).toUpperCase()}` : "");
  }

  // ---- asking

  /** The status and the text of a form of the command over the image, the schedule and the bytes of a script. */
  async form(words, script, ask = this.ask, more = undefined) {
    const plan = this.schedule.trim() === "" ? "-" : "2", asked = [words[0], "1", plan, this.sets, ...words.slice(1)];
    const reply = await ask(asked, [this.image, bytesOf(this.schedule), script], more);
    if (reply.status === 0 || reply.status === 4) return reply;
    const name = reply.status === 1 ? "Sets or Length" : plan === "2" ? "the schedule" : this.name;
    throw new Refused(reply, name, this.schedule);
  }

  /** What a script prints that leads to a turn and then does these commands. */
  async debug(turn, commands, ask = this.ask) {
    const { counts } = this;
    const { text } = await this.form(["debug", "3"], bytesOf(leadTo({ turn }) + commands), ask);
    // What others lead to stands within a turn. A turn in which the run ends comes again, with what has issued by then.
    if (/^(until|back|last) /m.test(commands)) return text;
    for (const { turn: at, count } of readTurns(text)) if (!counts.has(at)) counts.set(at, count);
    return text;
  }

  run() {
    return this.form(["run", this.length]);
  }

  /** The status and the text of the script that was opened. */
  async runGiven() {
    try {
      return await this.form(["debug", "3"], bytesOf(this.given.text));
    } catch (error) {
      if (error.refusal?.what === "script" || error.message.startsWith("#script")) Object.assign(error, this.given);
      throw error;
    }
  }

  /** How the run ends within the length: the words of its last line. */
  async endOfRun() {
    this.ending ??= (await this.run()).text.trim().split("\n").at(-1).split(" ").slice(1);
    return this.ending;
  }

  // ---- places

  /** Tells the turns round one, and the places behind the instructions of each, as far as the course leads there. */
  async tellAround(turn, ask = this.ask) {
    const first = Math.max(1, turn - BEHIND), last = Math.max(1, turn) + AHEAD;
    const turns = Array.from({ length: last - first + 1 }, (_, n) => first + n), steps = [];
    if (this.course && !turns.every(at => this.counts.has(at))) {
      await this.debug(first, tellTurn(first, first, last, this.memory), ask);
    }
    for (const at of turns) steps.push({ turn: at }, ...(at < last ? this.stepsOf(at) : []));
    return this.tellSteps(steps, ask);
  }

  /** The steps behind the instructions of a turn: what leads there, and how often in this turn. */
  stepsOf(turn) {
    const steps = [], last = this.counts.get(turn + 1) ?? 0;
    for (let count = (this.counts.get(turn) ?? Infinity) + 1; count <= last; count++) {
      const address = this.leadOf(count);
      if (address === undefined) break;
      steps.push({ turn, count, address, times: 1 + steps.filter(step => step.address === address).length });
    }
    return steps;
  }

  /** Tells steps, up to the one at which the run has ended, and keeps the places. */
  async tellSteps(steps, ask = this.ask) {
    const { told, within } = this, text = await this.debug(steps[0].turn, tellSteps(steps, this.memory), ask);
    const places = readPlaces(text);
    for (const [n, place] of places.entries()) {
      const { turn, count, address, times } = steps[n];
      // A run that had ended before says nothing of which turn that was.
      if (n === 0 && turn > 1 && place.end) break;
      if (address === undefined) told.set(turn, place);
      else if (place.count !== count || place.turn !== turn) break;
      else within.set(count, { position: { turn, address, times }, place });
      if (place.end) break;
    }
    return places;
  }

  /** Goes to a turn, one more than the turns that have passed, or to the last one where the run ends before. */
  async goTurn(turn) {
    turn = Math.max(1, turn);
    if (!this.told.has(turn)) {
      // Only what is shown at once: the rest is told when it is shown.
      const first = Math.max(1, turn - BEHIND), from = Math.max(1, turn - 1), { told } = this;
      const places = readPlaces(await this.debug(first, tellTurn(turn, first, turn + AHEAD, this.memory)));
      const isNew = n => (n === 0 ? !(from > 1 && places[0].end) : !places.slice(0, n).some(place => place.end));
      for (const [n, place] of places.entries()) if (isNew(n)) told.set(from + n, place);
      if (!told.has(turn)) turn = await this.lastTurn(places[0].turn);
    }
    this.take({ turn }, this.told.get(turn), this.told.get(turn - 1));
  }

  /** The turn at which the run has ended, near to one that is known. */
  async lastTurn(near) {
    await this.tellAround(near);
    const ended = [...this.told].filter(([, place]) => place.end).map(([turn]) => turn);
    return ended.length ? Math.min(...ended) : near + 1;
  }

  /** Goes from a position to the next time that an instruction leads to an address. */
  async goUntil(from, address) {
    const text = await this.debug(from.turn, `${arriveAt(from)}until ${hex(address)}\n${tell(this.memory)}`);
    const [place] = readPlaces(text);
    await this.settleAt(place, address);
  }

  /** Takes a place within a turn, to which an instruction led that has left the instruction address there. */
  async settleAt(place, address) {
    if (place.end) return this.goTurn(place.turn + 1);
    if (!this.told.has(place.turn)) await this.tellAround(place.turn);
    const before = this.told.get(place.turn);
    let times = 1;
    // An address can come more than once in a turn, as where a branch leads to itself.
    if (place.count - before.count > 1) {
      const text = await this.debug(place.turn, `until ${hex(address)}\n`.repeat(3));
      times = readTurns(text).slice(-3).findIndex(({ count }) => count === place.count) + 1;
    }
    this.take({ turn: place.turn, address, times }, place, before);
  }

  // ---- the course

  /** Tells the course as far as it is wanted, and the counts of turns, where that was not told. */
  async tellCourse() {
    const wanted = Math.min(MOST_COURSE, Math.max(Number(this.length) || 0, (this.place?.count ?? 0) + COURSE_AHEAD));
    const { counts, course: told } = this;
    if (!told || (told.limit < wanted && told.addresses.length >= told.limit)) {
      const limit = Math.max(wanted, Math.min(MOST_COURSE, 2 * (told?.limit ?? 0)));
      const whole = ["trace", String(limit), ...EVERYWHERE];
      const { course } = await this.form(whole, undefined, this.askAside, { reads: "course" });
      if (counts !== this.counts) return;
      this.course = { ...course, limit, isCounted: counts.has(1 + STRIDE * COUNTED) };
    }
    const { course } = this;
    if (!course.isCounted) await this.debug(1, `turn ${STRIDE}\n`.repeat(COUNTED), this.askAside);
    course.isCounted = true;
  }

  /** The address at which the last of so many instructions left the instruction address, where the course tells it. */
  leadOf(count) {
    const address = this.course?.leads[count - 1];
    return address === NOT_TOLD ? undefined : address;
  }

  /** The instructions from one count to another, as the trace told them; undefined where the course ends before. */
  traced(from, to) {
    const { bytes, lines, addresses } = this.course ?? { addresses: [] };
    if (addresses.length < to) return undefined;
    return Array.from({ length: to - from }, (_, n) => {
      const line = latin1.decode(bytes.subarray(lines[from + n], bytes.indexOf(10, lines[from + n])));
      return { count: from + n, address: addresses[from + n], statement: line.split(" ").slice(3).join(" ") };
    });
  }

  /** Goes behind so many instructions, by one run, where the course and the counts lead there; whether they do. */
  async goBehind(count, wanted = this.leadOf(count)) {
    const address = this.leadOf(count);
    if (address === undefined || address !== wanted) return false;
    if (this.takeWithin(count)) return true;
    const from = this.countedBefore(count), first = this.counts.get(from), steps = [];
    for (let at = first + 1; at <= count; at++) steps.push({ count: at, address: this.leadOf(at) });
    if (steps.length > MOST_UNTILS || steps.some(step => step.address === undefined)) return false;
    const lead = steps.map(step => `until ${hex(step.address)}\n`).join("");
    const text = await this.debug(from, tell(this.memory) + lead + tell(this.memory)), places = readPlaces(text);
    const place = places.at(-1), turns = readTurns(text).slice(-steps.length);
    if (places.length < 2 || place.count !== count || place.end) return false;
    const times = turns.filter(({ turn }, n) => turn === place.turn && steps[n].address === address).length;
    if (place.turn === from) this.told.set(from, places[0]);
    this.take({ turn: place.turn, address, times }, place, this.told.get(place.turn));
    return true;
  }

  /** Takes the place behind so many instructions, where it was told; whether it was. */
  takeWithin(count) {
    const found = this.within.get(count);
    if (found) this.take(found.position, found.place, this.told.get(found.position.turn));
    return found !== undefined;
  }

  /** The last turn of which the count is known, and before which fewer instructions have issued. */
  countedBefore(count) {
    let best = 1;
    if (!this.counts.has(1)) this.counts.set(1, 0);
    for (const [turn, issued] of this.counts) if (issued < count && turn > best) best = turn;
    return best;
  }

  /** Goes behind so many instructions, of which there are more than now, where the next one is at an address. */
  async goCount(count, address) {
    if (await this.goBehind(count, address)) return;
    let turn = await this.turnBefore(count);
    for (; ; turn++) {
      if (!this.told.has(turn)) await this.tellAround(turn);
      const place = this.told.get(turn);
      if (place === undefined) throw new Error(`${hex(address)} is too far ahead`);
      if (place.count === count && number(place.ip) === address) return this.goTurn(turn);
      if (place.count > count || place.end) break;
    }
    // An entry of a handler leads to an address without an instruction, perhaps within a turn.
    if (this.told.get(turn - 1).count === count) return this.goTurn(turn - 1);
    await this.goUntil({ turn: turn - 1 }, address);
  }

  /** Goes behind so many instructions. */
  async goInstruction(count) {
    if (count <= 0) return this.goTurn(1);
    if (await this.goBehind(count)) return;
    const address = await this.addressBehind(count);
    if (address === undefined) throw new Error(`the run ends before instruction ${count} is done`);
    await this.goCount(count, address);
  }

  /** A turn before the one at which so many instructions have issued, and near to it. */
  async turnBefore(count) {
    let turn = this.countedBefore(count), stride = STRIDE;
    if (this.counts.has(turn + STRIDE)) return turn;
    const passed = async times => {
      const told = readTurns(await this.debug(turn, `turn ${stride}\n`.repeat(times)));
      turn = told.filter(told => told.count < count).at(-1)?.turn ?? turn;
      return told.at(-1).count >= count || told.at(-1).turn === told.at(-2).turn;
    };
    while (!await passed(STRIDES)) stride *= WIDER;
    for (; stride > STRIDE; await passed(WIDER)) stride /= WIDER;
    return turn;
  }

  take(position, place, before) {
    Object.assign(this, { position, place, before, script: leadTo(position) + tell(this.memory) });
  }

  /** Tells the turns before and behind the place that were not told yet. */
  async tellRound() {
    const turn = this.position.turn, near = Math.max(1, turn - EDGE);
    const hasEnd = this.place.end || [...this.told].some(([told, place]) => place.end && told - turn <= EDGE);
    const lacksAt = at => !this.counts.has(at + 1) || this.stepsOf(at).some(({ count }) => !this.within.has(count));
    const lacks = this.course && (lacksAt(near) || (!hasEnd && [turn, turn + EDGE].some(lacksAt)));
    const isTold = this.told.has(near) && (hasEnd || this.told.has(turn + EDGE));
    if (lacks || !isTold) await this.tellAround(turn, this.askAside);
    this.before ??= this.told.get(this.position.address === undefined ? turn - 1 : turn);
  }

  // ---- moves

  /** The address of the next instruction behind so many; undefined where the run ends before. */
  async addressBehind(count) {
    const { text } = await this.form(["run", String(count)]);
    const point = text.slice(text.lastIndexOf("#point ")).split(/\s/);
    const isThere = point[1] === String(count) && point[2] === "end" && text.trimEnd().endsWith("#end limit");
    return isThere ? number(point[3]) : undefined;
  }

  async step() {
    if (!this.place.end && await this.goBehind(this.place.count + 1)) return;
    const address = await this.addressBehind(this.place.count + 1);
    if (address === undefined) return this.goTurn(await this.lastTurn(this.place.turn));
    await this.goUntil(this.position, address);
  }

  async stepBack() {
    const count = this.place.count - 1;
    if (count <= 0) return this.goTurn(1);
    if (await this.goBehind(count)) return;
    let turn = this.position.turn;
    for (; turn > 1; turn--) {
      if (!this.told.has(turn)) await this.tellAround(turn);
      if (this.told.get(turn).count < count) break;
    }
    const address = await this.addressBehind(count), missing = count - this.told.get(turn).count;
    const text = await this.debug(turn, `until ${hex(address)}\n`.repeat(missing));
    const times = readTurns(text).slice(-missing).findIndex(told => told.count === count) + 1;
    const [place] = readPlaces(await this.debug(turn, arriveAt({ address, times }) + tell(this.memory)));
    this.take({ turn, address, times }, place, this.told.get(turn));
  }

  /** The line of the listing at an address. */
  lineAt(address) {
    return this.listing.find(line => line.address === address);
  }

  /** Goes behind a call; where there is none, one instruction on. */
  async over() {
    const line = this.lineAt(number(this.place.ip));
    if (!line || !isCall(line.statement)) return this.step();
    const words = line.words.trim().split(/\s+/).length;
    return this.reach(line.address + 4 * words, this.place.seen[31]);
  }

  /** Goes to the caller, where it goes on. */
  async out() {
    const { frames } = await this.frames();
    if (frames.length < 2) throw new Error("there is no caller");
    return this.reach(number(frames[1].locals[2]), hex(frames[1].address));
  }

  /** Goes to the next time that the instruction at an address comes, with this frame pointer where one is given. */
  async reach(address, frame) {
    const counts = await this.countsAhead(address);
    if (frame === undefined && counts.length > 0) return this.goCount(counts[0], address);
    // An instruction at which the run ends is not traced.
    if (counts.length === 0 && (await this.endOfRun())[0] === "limit") {
      throw new Error(`${hex(address)} is not reached within ${this.length} instructions`);
    }
    for (const count of frame === undefined ? [] : counts) {
      const found = this.within.get(count);
      if (!found) break;
      if (found.place.seen[31] === frame && this.takeWithin(count)) return;
    }
    // Times that come far behind the first are asked for only where that is not in this frame.
    const near = counts.filter(count => count - counts[0] < NEAR).length;
    for (const tries of frame === undefined ? [1] : [Math.min(Math.max(near, 1), MOST_TRIES), MOST_TRIES]) {
      const commands = arriveAt(this.position) + `until ${hex(address)}\n${tell(this.memory)}`.repeat(tries);
      const places = readPlaces(await this.debug(this.position.turn, commands));
      const place = places.find(place => place.end || frame === undefined || place.seen[31] === frame);
      if (!place) continue;
      const isFirst = !place.end && [1, 2].every(n => ![undefined, address].includes(this.leadOf(place.count - n)));
      if (!isFirst) return this.settleAt(place, address);
      return this.take({ turn: place.turn, address, times: 1 }, place, this.told.get(place.turn));
    }
    throw new Error(`${hex(address)} is not reached in this frame within ${MOST_TRIES} times`);
  }

  /** Behind how many instructions the one at an address comes from here on, within the length. */
  async countsAhead(address) {
    const { course, place: { count } } = this;
    if (course && (course.limit >= Number(this.length) || course.addresses.length < course.limit)) {
      const found = [];
      for (let at = count; found.length < MOST_COUNTS; found.push(at)) {
        at = course.addresses.indexOf(address, at + 1);
        if (at < 0) break;
      }
      return found;
    }
    const { text } = await this.form(["trace", this.length, hex(address), hex(address)]);
    return readTrace(text, Infinity).map(({ count }) => count).filter(count => count > this.place.count);
  }

  /** Goes on to the first of the breakpoints that comes. */
  async goOn() {
    if (this.stops.size === 0) throw new Error("there is no breakpoint");
    let best;
    for (const address of this.stops) {
      const [count] = await this.countsAhead(address);
      if (count !== undefined && (best === undefined || count < best.count)) best = { count, address };
    }
    if (best) return this.goCount(best.count, best.address);
    const last = [...this.stops].at(-1);
    if (this.stops.size === 1 && (await this.endOfRun())[0] !== "limit") return this.reach(last);
    throw new Error(`no breakpoint is reached within ${this.length} instructions`);
  }

  // ---- what belongs to a place

  /** The frames of the place, from the current one on, and the bytes that were told for them. */
  async frames(ask = this.ask) {
    const { place, position } = this;
    if (this.framed?.place === place) return this.framed;
    let rows = [], missing;
    for (let round = 0; round < FRAME_ROUNDS; round++) {
      const [told] = readPlaces(await this.debug(position.turn, arriveAt(position) + tellFrames(place, missing), ask));
      rows = [...rows, ...told.memory];
      const found = framesOf(place, memoryOf(rows));
      missing = found.missing;
      if (missing === undefined) break;
    }
    this.framed = { ...framesOf(place, memoryOf(rows)), bytes: memoryOf(rows), place };
    return this.framed;
  }

  /** The instructions of the last turns that were told, each with the turn in which it issued. */
  async issued(turns) {
    const last = this.position.turn, first = Math.max(1, last - turns), counts = [];
    for (let turn = first; turn <= last + 1; turn++) {
      if (this.told.has(turn)) counts.push([turn, this.told.get(turn).count]);
    }
    const most = counts.at(-1)?.[1] ?? 0, least = counts[0]?.[1] ?? 0;
    if (most === least) return [];
    const from = Math.max(least, most - TRACED);
    const whole = ["trace", String(Math.min(most, 10000000)), ...EVERYWHERE];
    const traced = this.traced(from, most) ?? readTrace((await this.form(whole)).text, TRACED);
    const turnOf = count => counts.filter(([, issued]) => issued <= count).at(-1)?.[0];
    return traced.filter(({ count }) => count >= least).map(item => ({ ...item, turn: turnOf(item.count) }));
  }

  /** Who wrote the byte at an address last: the words that the debugger tells. */
  async whoWrote(address) {
    const { position } = this, commands = `${arriveAt(position)}who ${hex(address)}\nraw\nheld\nregs\n`;
    return readPlaces(await this.debug(position.turn, commands))[0].who;
  }
}
