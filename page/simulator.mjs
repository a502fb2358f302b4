// The command in two workers, so that the page stays awake and a long run can be cancelled: one for what a person waits
// for, and one for what may be asked next.

/** Why a call has no answer: it was cancelled. */
export class Cancelled extends Error {}

/** How many bytes of text a form with these words may print over its script, or a session along instructions that lead
 * there: about that much for each byte of a script that tells places, and for each instruction. */
const SCRIPT_PRINTS = 12, INSTRUCTION_PRINTS = 48;
function roomFor(words, script) {
  if (words[0] === "trace") return INSTRUCTION_PRINTS * Number(words[4]);
  return SCRIPT_PRINTS * (script?.length ?? 0);
}

/** One worker, and who waits for it. */
class Hand {
  constructor({ script, module }, told) {
    Object.assign(this, { waiting: new Map(), next: 0, told });
    this.worker = new Worker(script);
    this.worker.postMessage({ module });
    this.worker.onmessage = ({ data }) => this.answer(data);
  }

  ask(asked) {
    return new Promise((done, fail) => {
      this.waiting.set(this.next, { done, fail });
      this.worker.postMessage({ number: this.next++, ...asked });
      this.told();
    });
  }

  answer({ number, status, bytes, course, failed }) {
    const { done, fail } = this.waiting.get(number);
    this.waiting.delete(number);
    this.told();
    if (failed) fail(new Error(failed));
    else done({ status, course, text: course ? "" : new TextDecoder("latin1").decode(bytes) });
  }
}

export class Simulator {
  /** Over the bytes of the module and the address of the worker's script. */
  static async start(bytes, script) {
    const simulator = new Simulator();
    [simulator.module, simulator.script] = [await WebAssembly.compile(bytes), script];
    simulator.begin();
    return simulator;
  }

  begin() {
    const told = () => this.busy(this.hands.some(hand => hand.waiting.size > 0));
    this.hands = [new Hand(this, told), new Hand(this, told)];
  }

  /** The status and the text of a command, whose words name the files 1, 2 and 3. More can be asked for: that the worker
   * `reads` the course that a trace tells, in place of the text. */
  ask(words, files, more = {}) {
    return this.hands[0].ask({ words, files, ...more, room: roomFor(words, files[2]) });
  }

  /** The same, where nobody waits for it. */
  askAside(words, files, more = {}) {
    return this.hands[1].ask({ words, files, ...more, room: roomFor(words, files[2]) });
  }

  /** Ends all that is under way. */
  cancel() {
    const ended = this.hands;
    for (const { worker } of ended) worker.terminate();
    this.begin();
    this.busy(false);
    for (const { waiting } of ended) for (const { fail } of waiting.values()) fail(new Cancelled());
  }

  /** Told when something is under way, and when nothing is any more. */
  busy() {}
}
