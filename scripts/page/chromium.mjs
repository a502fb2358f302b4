// Speaks with a headless Chromium over a pipe: opens a page, evaluates in it, hands it files, and takes pictures.
import { spawn } from "node:child_process";
import { mkdtempSync, rmSync } from "node:fs";
import { tmpdir } from "node:os";
import { join } from "node:path";

const FLAGS = ["--headless=new", "--no-sandbox", "--disable-gpu", "--remote-debugging-pipe", "--no-first-run", "--window-size=1600,1000"];

export class Chromium {
  constructor(program = "chromium") {
    this.room = mkdtempSync(join(tmpdir(), "i960-page-"));
    this.process = spawn(program, [...FLAGS, `--user-data-dir=${this.room}`], { stdio: ["ignore", "ignore", "ignore", "pipe", "pipe"] });
    this.waiting = new Map();
    this.number = 0;
    this.rest = "";
    this.process.stdio[4].on("data", bytes => this.take(bytes));
  }

  take(bytes) {
    const messages = (this.rest + bytes).split("\0");
    this.rest = messages.pop();
    for (const message of messages.map(text => JSON.parse(text))) {
      const waits = this.waiting.get(message.id);
      this.waiting.delete(message.id);
      if (message.error) waits?.fail(new Error(message.error.message));
      else waits?.done(message.result);
    }
  }

  send(method, params = {}, sessionId = this.session) {
    return new Promise((done, fail) => {
      this.waiting.set(++this.number, { done, fail });
      this.process.stdio[3].write(JSON.stringify({ id: this.number, method, params, sessionId }) + "\0");
    });
  }

  async open(address) {
    const { targetId } = await this.send("Target.createTarget", { url: address });
    this.session = (await this.send("Target.attachToTarget", { targetId, flatten: true })).sessionId;
    await this.send("Page.enable");
    await this.send("DOM.enable");
  }

  /** The value of an expression in the page, which may be a promise. */
  async evaluate(expression) {
    const { result, exceptionDetails } = await this.send("Runtime.evaluate", { expression, awaitPromise: true, returnByValue: true });
    if (exceptionDetails) throw new Error(exceptionDetails.exception?.description ?? exceptionDetails.text);
    return result.value;
  }

  /** Waits until an expression holds. */
  async until(expression, seconds = 30) {
    for (const end = Date.now() + 1000 * seconds; Date.now() < end; await new Promise(done => setTimeout(done, 10))) {
      if (await this.evaluate(expression)) return;
    }
    throw new Error(`not within ${seconds} s: ${expression}`);
  }

  /** Chooses files at the input of an id. */
  async choose(id, files) {
    const { root } = await this.send("DOM.getDocument");
    const { nodeId } = await this.send("DOM.querySelector", { nodeId: root.nodeId, selector: `#${id}` });
    await this.send("DOM.setFileInputFiles", { nodeId, files });
  }

  async press(key) {
    const code = { key, windowsVirtualKeyCode: key.length === 1 ? key.toUpperCase().charCodeAt(0) : { ArrowLeft: 37, ArrowUp: 38, ArrowRight: 39, ArrowDown: 40, Home: 36, Escape: 27 }[key] };
    await this.send("Input.dispatchKeyEvent", { type: "keyDown", ...code });
    await this.send("Input.dispatchKeyEvent", { type: "keyUp", ...code });
  }

  async picture() {
    return Buffer.from((await this.send("Page.captureScreenshot", { format: "png" })).data, "base64");
  }

  async close() {
    const ended = new Promise(done => this.process.once("exit", done));
    this.process.kill();
    await ended;
    // Some of its processes may still write there for a moment.
    await new Promise(done => setTimeout(done, 200));
    rmSync(this.room, { recursive: true, force: true, maxRetries: 10, retryDelay: 200 });
  }
}
