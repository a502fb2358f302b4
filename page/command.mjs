// The command in its module: words and up to three files go in, a status and a text come out. Each call has an instance
// of its own, whose memory is let go with it; an instance that trapped is never called again.
const FIRST_ROOM = 1 << 20, MOST_ROOM = 1 << 28, NO_ROOM = 6;

/** The status and the text; the words name the files 1, 2 and 3. The room for the text, which may be guessed, grows
 * until it is enough; each try is a whole run. */
export function command(module, words, files, guess = 0) {
  for (let room = Math.min(Math.max(FIRST_ROOM, guess), MOST_ROOM); ; room *= 4) {
    const reply = callWith(module, words, files, room);
    if (reply.status !== NO_ROOM || room >= MOST_ROOM) return reply;
  }
}

function callWith(module, words, files, room) {
  const { exports: calls } = new WebAssembly.Instance(module, {});
  const take = length => {
    const place = calls.page_take(BigInt(length));
    if (place === 0n) throw new Error("no memory");
    return place;
  };
  // Views of the memory are made anew at each use: they end where the memory grows.
  const put = bytes => {
    const place = take(bytes.length);
    new Uint8Array(calls.memory.buffer, Number(place), bytes.length).set(bytes);
    return [place, BigInt(bytes.length)];
  };
  const slots = [0, 1, 2].map(n => files[n] ?? new Uint8Array());
  const given = [new TextEncoder().encode(words.join("\n")), ...slots].flatMap(put);
  const out = take(room), printed = take(8);
  const status = calls.i9_page(...given, out, BigInt(room), printed) & 255;
  const length = Number(new DataView(calls.memory.buffer).getBigUint64(Number(printed), true));
  return { status, bytes: new Uint8Array(calls.memory.buffer, Number(out), length).slice() };
}
