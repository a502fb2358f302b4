// What a trace of all addresses tells, by the number of each instruction; it is read in the worker. Each value is a word
// of a line that the command printed.

const [FEED, SPACE, HASH, LETTER_T, LETTER_P] = [..."\n #tp"].map(letter => letter.charCodeAt(0));
// No instruction stands there.
export const NOT_TOLD = 1;
// Behind these points the instruction address is still the one that the instruction left.
const STILL = ["flush", "sync", "event"];

/** Of each instruction the place of its line, its address, and the address at which it left the instruction address, as
 * far as the next line tells it: an entry changes it first. */
export function readCourse(bytes) {
  const most = Math.ceil(bytes.length / 16), lines = new Uint32Array(most), addresses = new Uint32Array(most);
  const leads = new Uint32Array(most).fill(NOT_TOLD);
  let count = 0, open = false;
  for (let from = 0; from < bytes.length;) {
    if (bytes[from] === HASH && bytes[from + 1] === LETTER_T && bytes[from + 2] === SPACE) {
      const address = wordIn(bytes, bytes.indexOf(SPACE, from + 3) + 1);
      if (open) leads[count - 1] = address;
      [lines[count], addresses[count], open] = [from, address, true];
      count++;
    } else if (open && bytes[from] === HASH && bytes[from + 1] === LETTER_P) {
      const [, , kind, address] = String.fromCharCode(...bytes.subarray(from, from + 40)).split(" ");
      if (STILL.includes(kind)) leads[count - 1] = parseInt(address, 16);
      open = false;
    }
    const feed = bytes.indexOf(FEED, from);
    from = feed < 0 ? bytes.length : feed + 1;
  }
  return { bytes, lines: lines.slice(0, count), addresses: addresses.slice(0, count), leads: leads.slice(0, count) };
}

/** The value of the eight hexadecimal digits at a place. */
function wordIn(bytes, place) {
  let value = 0;
  for (let n = place; n < place + 8; n++) value = value << 4 | (bytes[n] < 65 ? bytes[n] - 48 : bytes[n] - 55);
  return value >>> 0;
}
