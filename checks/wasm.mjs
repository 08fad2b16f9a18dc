// Runs the emulator's module of WebAssembly for checks/wasm: node wasm.mjs MODULE JOBS. With the word --try it only says by
// its status whether this node knows memory of 64 bits.
import fs from 'node:fs';

// The least module that has such a memory.
const LEAST = new Uint8Array([0, 97, 115, 109, 1, 0, 0, 0, 5, 3, 1, 4, 1]);
if (process.argv[2] === '--try') process.exit(WebAssembly.validate(LEAST) ? 0 : 1);

const ROOM = 1 << 28, MARK = 0xa5, NO_VARIANT = 2, FULL = 6;
const module = new WebAssembly.Module(fs.readFileSync(process.argv[2]));
const jobs = JSON.parse(fs.readFileSync(process.argv[3], 'utf8'));
let failures = 0;

function expect(holds, what) {
  if (holds) return;
  failures++;
  console.log(`wrong: ${what}`);
}

/** An instance, and its memory as it is now. */
class Emulator {
  constructor() {
    this.exports = new WebAssembly.Instance(module, {}).exports;
  }

  get bytes() {
    return new Uint8Array(this.exports.memory.buffer);
  }

  take(count) {
    const at = this.exports.page_alloc(BigInt(count));
    if (at === 0n) throw new Error(`there is no memory for ${count} bytes`);
    return at;
  }

  /** The status and the text of a run, and what stands in the room behind the text. */
  run(schedule, variant, blocks, room) {
    const input = this.take(schedule.length), out = this.take(room), count = this.take(8);
    this.bytes.set(schedule, Number(input));
    this.bytes.fill(MARK, Number(out), Number(out) + Math.min(room, 1 << 16));
    const status = this.exports.mesh_page_run(variant, blocks ? 1 : 0, input, BigInt(schedule.length), out, BigInt(room), count);
    const length = Number(new DataView(this.exports.memory.buffer).getBigUint64(Number(count), true));
    const start = Number(out), text = this.bytes.slice(start, start + length);
    const behind = this.bytes.slice(start + length, start + Math.min(room, 1 << 16));
    for (const it of [input, out, count]) this.exports.page_free(it);
    return { status, text, behind };
  }
}

const same = (a, b) => Buffer.compare(a, b) === 0;
const isMarked = bytes => bytes.every(it => it === MARK);

function eachRun(emulator) {
  let longest = 0;
  for (const job of jobs) {
    const schedule = fs.readFileSync(job.schedule), due = fs.readFileSync(job.text), began = performance.now();
    const { status, text } = emulator.run(schedule, job.variant, job.blocks, ROOM);
    longest = Math.max(longest, performance.now() - began);
    expect(status === job.status, `${job.what}: status ${status}, due ${job.status}`);
    expect(same(text, due), `${job.what}: another text`);
  }
  return longest;
}

// A text in rooms of all sizes up to its own and one more.
function eachRoom(emulator) {
  const job = jobs.reduce((a, b) => (fs.statSync(a.text).size <= fs.statSync(b.text).size ? a : b));
  const some = jobs.find(it => fs.statSync(it.text).size > 1000 && it.blocks) ?? job;
  let count = 0;
  for (const it of [job, some]) {
    const schedule = fs.readFileSync(it.schedule), due = fs.readFileSync(it.text);
    for (let room = 0; room <= due.length + 1; room++, count++) {
      const { status, text, behind } = emulator.run(schedule, it.variant, it.blocks, room);
      expect(status === (room < due.length ? FULL : it.status), `${it.what}, in ${room} bytes: status ${status}`);
      expect(same(text, due.subarray(0, room)), `${it.what}, in ${room} bytes: another text`);
      expect(isMarked(behind), `${it.what}, in ${room} bytes: something is written behind the text`);
    }
  }
  return count;
}

function otherVariants(emulator) {
  const schedule = fs.readFileSync(jobs[0].schedule);
  for (const variant of [4, 5, 255, 65536, -1]) {
    const { status, text, behind } = emulator.run(schedule, variant, false, 1000);
    expect(status === NO_VARIANT && text.length === 0 && isMarked(behind), `variant ${variant}: status ${status}`);
  }
}

// What a run takes it gives back: many runs in one instance take no more memory than few.
function memoryStays() {
  const emulator = new Emulator(), job = jobs[0], schedule = fs.readFileSync(job.schedule);
  const sizes = [];
  for (let k = 0; k < 400; k++) {
    emulator.run(schedule, job.variant, true, 100000);
    sizes.push(emulator.exports.memory.buffer.byteLength);
  }
  expect(sizes[399] === sizes[10], `memory grows from ${sizes[10]} bytes to ${sizes[399]} in 400 runs`);
}

const emulator = new Emulator();
const isProved = WebAssembly.Module.customSections(module, 'unproved').length === 0;
expect(WebAssembly.Module.imports(module).length === 0, 'the module imports something');
const names = WebAssembly.Module.exports(module).map(it => it.name).sort().join(' ');
expect(names === 'memory mesh_page_run page_alloc page_free', `the module exports ${names}`);
const longest = eachRun(emulator);
const rooms = eachRoom(emulator);
otherVariants(emulator);
memoryStays();
console.log(`${isProved ? '' : 'not proved: '}${jobs.length} runs, the longest ${longest.toFixed(0)} ms; ${rooms} rooms`);
process.exit(failures ? 1 : 0);
