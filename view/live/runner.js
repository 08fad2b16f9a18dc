// Runs schedules apart from the page, so that the page stays live. It is given the bytes of the module once, and
// then schedules. Each run has an instance of its own, which is dropped after it: nothing of an instance is used
// again, also where a trap has ended it. The answer is the status and the text, or a trap, and how many milliseconds it
// took.
'use strict';

const NO_MEMORY = 7;
let compiled = null;

// The bytes of a run's text, and its status. `room` is how many bytes the text may have.
function textOf(exports, { schedule, variant, isWatched, room }) {
  const input = exports.page_alloc(BigInt(schedule.length || 1)),
    length = exports.page_alloc(8n),
    out = exports.page_alloc(BigInt(room)),
    memory = () => exports.memory.buffer;
  if (!input || !length || !out) return { status: NO_MEMORY, text: new Uint8Array() };
  new Uint8Array(memory(), Number(input), schedule.length).set(schedule);
  const status = exports.mesh_page_run(variant, isWatched ? 1 : 0, input, BigInt(schedule.length), out, BigInt(room),
      length),
    size = new DataView(memory()).getBigUint64(Number(length), true);
  return { status, text: new Uint8Array(memory(), Number(out), Number(size)).slice() };
}

onmessage = async ({ data }) => {
  if (data.module) {
    compiled = WebAssembly.compile(data.module);
    return;
  }
  let answer, began;
  try {
    const module = await compiled;
    began = performance.now();
    answer = textOf((await WebAssembly.instantiate(module, {})).exports, data);
  } catch (error) {
    answer = { trap: String(error) };
  }
  answer.lasted = performance.now() - began;
  postMessage(answer, answer.text ? [answer.text.buffer] : []);
};
