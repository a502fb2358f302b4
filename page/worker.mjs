// A worker of the page: it takes the module first, and then one command after the other.
import { command } from "./command.mjs";
import { readCourse } from "./course.mjs";

const NOT_STARTED = 1;
let module;
onmessage = ({ data }) => {
  if (data.module) { module = data.module; return; }
  try {
    const told = answer(data), { bytes, course = {} } = told;
    const lists = [bytes, ...Object.values(course)].filter(ArrayBuffer.isView);
    const buffers = new Set(lists.map(list => list.buffer));
    postMessage({ number: data.number, ...told }, [...buffers]);
  } catch (error) {
    postMessage({ number: data.number, failed: String(error) });
  }
};

/** The status of a command with its text, or with the course that it tells where that was asked for. */
function answer({ words, files, room, reads }) {
  const { status, bytes } = command(module, words, files, room);
  return reads === "course" && status !== NOT_STARTED ? { status, bytes, course: readCourse(bytes) } : { status, bytes };
}
