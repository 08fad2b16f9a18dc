'use strict';
// ---- The page that runs schedules: the runs, and what is said of them ------------------------------------

const VARIANTS = ['base', 'number', 'reply', 'error'];
// Bytes that a run's text may have, and milliseconds: of rest in typing after which it is run; of a run after
// which `stop` is shown; of a run so long that the next waits to be asked for.
const ROOM = 1 << 28,
  REST = 350,
  PATIENCE = 400,
  LONG = 1500;
const NO_ROOM = 6;
const TOO_LONG = `The text of this run is longer than ${ROOM >> 20} MB, which is as much as this page reads: ` +
  'mesh run and mesh watch write it whole.';

// The two workers, that of the picture and that of what is saved; the schedule and the variant that were run last, and
// how long that took; the number of the run that goes on, and the timer of the rest in typing.
const live = { runner: null, writer: null, examples: new Map(), name: 'schedule.mesh', ran: null, variant: null,
  turn: 0, rest: 0, lasted: 0, room: ROOM };

// A worker that runs schedules, one at a time.
class Runner {
  constructor(module) {
    this.module = module;
    this.source = URL.createObjectURL(new Blob([$('runner').textContent], { type: 'text/javascript' }));
    this.answer = null;
    this.start();
  }
  start() {
    this.worker = new Worker(this.source);
    this.worker.postMessage({ module: this.module });
    this.worker.onmessage = ({ data }) => this.end(data);
    this.worker.onerror = event => this.end({ trap: event.message || 'the worker ended' });
  }
  end(answer) {
    const resolve = this.answer;
    this.answer = null;
    if (resolve) resolve(answer);
  }
  // The answer of view/live/runner.js, or null where the run was stopped. A run that goes on is stopped.
  run(words) {
    this.stop();
    return new Promise(resolve => {
      this.answer = resolve;
      this.worker.postMessage(words);
    });
  }
  stop() {
    if (!this.answer) return;
    this.worker.terminate();
    this.start();
    this.end(null);
  }
}

const wordsOf = (text, isWatched) => ({ schedule: new TextEncoder().encode(text), isWatched, room: live.room,
  variant: VARIANTS.indexOf($('run-variant').value) });

// --- what is said below the editor

function say(words, isWrong = false, line = 0) {
  const it = line ? el('button', { 'data-line': line, title: 'to the line' }, words) : words;
  $('outcome').replaceChildren(it);
  $('outcome').classList.toggle('wrong', isWrong);
}

const sizeOf = bytes => bytes < 1e4 ? `${bytes} bytes` : bytes < 1e6 ? `${(bytes / 1e3).toFixed(0)} KB` :
  `${(bytes / 1e6).toFixed(1)} MB`;

// The last line of a run, in which a refused line is named, or how much was run.
function sayOutcome(made, answer, wasCut) {
  const number = refusedLine(made),
    bytes = / at bytes (\d+) to (\d+)$/.exec(made.last || '');
  markBad(number ? { line: number, from: bytes ? Number(bytes[1]) : -1, to: bytes ? Number(bytes[2]) : -1 } :
    null);
  if (number) return say(made.last, true, number);
  if (made.last === null) return say('There was not enough memory for this run.', true);
  const lasted = `${live.lasted.toFixed(live.lasted < 10 ? 1 : 0)} ms`;
  say(`${many(made.sums.events, 'event')}, ${sizeOf(answer.text.length)} of text, ${lasted}` +
    (wasCut ? '; with its tables the text is too long for this page, so it has none' : ''));
}

// --- runs

// What of the view stays where another run takes the place of one: the node, the destination and the picture's part,
// and the step, but that a view of the end stays one.
function keptOf(old, made) {
  const index = new Map(made.nodes.map((address, i) => [address, i])),
    to = i => i < 0 ? i : index.get(old.nodes[i]),
    kept = { k: view.k === old.count ? made.count : Math.min(view.k, made.count), dragged: new Map() };
  for (const [i, place] of view.dragged)
    if (to(i) !== undefined) kept.dragged.set(to(i), place);
  if (to(view.node) !== undefined) kept.node = to(view.node);
  if (old.given.length + old.routed.length && to(view.goal) !== undefined) kept.goal = to(view.goal);
  if (old.nodes.length === made.nodes.length)
    for (const name of ['zoom', 'panX', 'panY', 'isCentred']) kept[name] = view[name];
  return kept;
}

// Asks the runner for the text with all tables, and where that is too long for the one without.
async function textOfRun(text) {
  const whole = await live.runner.run(wordsOf(text, true));
  if (!whole || whole.status !== NO_ROOM) return [whole, false];
  return [await live.runner.run(wordsOf(text, false)), true];
}

// Runs the schedule, and shows the run at the step that `stepOf` names, or where it was.
async function runSchedule(stepOf) {
  const turn = ++live.turn,
    isOver = () => turn !== live.turn,
    slow = setTimeout(() => { if (!isOver()) saySlow('running …'); }, PATIENCE);
  clearTimeout(live.rest);
  keepText();
  $('live').setAttribute('aria-busy', true);
  await runUnlessOver(isOver, stepOf, () => clearTimeout(slow));
  if (!isOver()) $('live').setAttribute('aria-busy', false);
}

async function runUnlessOver(isOver, stepOf, hasRun) {
  const text = scheduleText(),
    variant = $('run-variant').value,
    [answer, wasCut] = await textOfRun(text);
  hasRun();
  if (isOver() || !answer) return;
  live.lasted = answer.lasted;
  if (answer.trap) return sayTrap(answer.trap);
  if (answer.status === NO_ROOM) return say(TOO_LONG, true);
  const made = await readAnswer(answer, wasCut, text, isOver);
  if (!made) return;
  Object.assign(live, { ran: text, variant });
  hashBefore = await addressPart(text, variant);
  if (isOver()) return;
  sayOutcome(made, answer, wasCut);
  showRun(made, stepOf);
}

// Reads the text that the runner answered; null where another run has begun meanwhile.
async function readAnswer(answer, wasCut, text, isOver) {
  const began = performance.now();
  class Over extends Error {}
  try {
    const made = await readRun(partsOf(answer.text), text, steps => {
      if (isOver()) throw new Over();
      if (performance.now() - began > PATIENCE) saySlow(`reading … ${steps} steps`);
    });
    // A text with tables has them also where no event has changed a node yet.
    made.watch ||= !wasCut;
    return made;
  } catch (error) {
    if (error instanceof Over) return null;
    if (!(error instanceof Wrong)) console.error(error);
    say(error.message, true);
    return null;
  }
}

function showRun(made, stepOf) {
  const isEmpty = made.nodes.length === 0;
  document.documentElement.classList.toggle('empty', isEmpty);
  if (isEmpty) {
    run = null;
    markNow(0);
  }
  const kept = run && run.schedule && made.nodes.length ? keptOf(run, made) : {};
  if (stepOf && made.nodes.length) kept.k = stepOf(made);
  show(made, { title: live.name, variant: '' }, kept);
  if (isEmpty && !refusedLine(made)) $('ended').replaceChildren(el('h2', {}, 'There is no node yet'), el('p', {},
    'Press + node, write a line as ', el('code', {}, 'node 10.0.0.1'), ', or open an example.'));
}

// What is said while a run goes on, with the button that ends it.
function saySlow(words) {
  const stop = el('button', { id: 'stop' }, 'stop');
  stop.addEventListener('click', () => {
    stopRun();
    say('Stopped.');
  });
  $('outcome').replaceChildren(`${words} `, stop);
  $('outcome').classList.remove('wrong');
}

function stopRun() {
  live.turn++;
  clearTimeout(live.rest);
  live.runner.stop();
  $('live').setAttribute('aria-busy', false);
}

function sayTrap(trap) {
  say(`The module ended by a trap: ${trap}. No run of it should; its instance is dropped.`, true);
}

const isChanged = () => live.ran !== scheduleText() || live.variant !== $('run-variant').value;
const runIfChanged = async () => { if (isChanged()) await runSchedule(); };

// Typing is run after a rest, but where the last run took long.
function typed() {
  editorChanged();
  clearTimeout(live.rest);
  if (live.lasted > LONG) return say('Ctrl-Enter runs it: the last run took long.');
  live.rest = setTimeout(() => runSchedule(), REST);
}

async function openSchedule(text, name) {
  live.name = name;
  writeText(0, scheduleText().length, text);
  $('schedule').scrollTop = $('schedule').scrollLeft = 0;
  run = null;
  await runSchedule();
}

// --- the page

// WebAssembly with memory of 64 bits, for which the module is made.
const canRun = () => typeof WebAssembly === 'object' && typeof CompressionStream === 'function' && WebAssembly.validate(
  new Uint8Array([0, 97, 115, 109, 1, 0, 0, 0, 5, 3, 1, 4, 1]));

async function bytesOf(id) {
  const stream = embedded(id);
  return stream && new Uint8Array(await new Response(stream).arrayBuffer());
}

// A line of a number that was clicked: the step that it came to.
function goToLine(event) {
  const number = event.target.closest('[data-line]'),
    area = $('schedule');
  if (!number) return;
  const line = Number(number.dataset.line);
  if (run && run.schedule && !isChanged()) go(stepOfLine(run, line));
  area.focus();
  area.setSelectionRange(startOfLine(area.value, line), startOfLine(area.value, line));
  bringIntoSight(line);
}

function listenToEditor() {
  const area = $('schedule');
  area.addEventListener('input', typed);
  area.addEventListener('scroll', drawNumbers);
  area.addEventListener('keydown', event => { if (event.key === 'Escape') toPicture(); });
  new ResizeObserver(drawNumbers).observe(area);
  on('numbers', 'mousedown', event => event.preventDefault());
  on('numbers', 'click', goToLine);
  on('outcome', 'click', goToLine);
  on('run-now', 'click', () => runSchedule());
  on('run-variant', 'change', () => runSchedule());
  on('auto', 'click', () => writeLine('auto 100'));
  on('due', 'click', offerAtChosen);
  on('add-node', 'click', writeNode);
  on('undo', 'click', () => undo(false));
  area.addEventListener('keydown', undoKey);
  on('examples', 'click', offerExamples);
  on('files', 'click', offerFiles);
  on('fold', 'click', fold);
  document.addEventListener('keydown', event => {
    if (event.key !== 'Enter' || !(event.ctrlKey || event.metaKey) || document.querySelector('dialog[open]')) return;
    event.preventDefault();
    runSchedule();
  });
}

async function undo(isRedo) {
  undoText(isRedo);
  await runIfChanged();
}

// Ctrl-Z in the editor takes back, and with Shift, or Ctrl-Y, does it again.
function undoKey(event) {
  const key = event.key.toLowerCase();
  if (!(event.ctrlKey || event.metaKey) || event.altKey || key !== 'z' && key !== 'y') return;
  event.preventDefault();
  undo(key === 'y' || event.shiftKey);
}

function toEditor() {
  if (document.documentElement.classList.contains('folded')) fold();
  $('schedule').focus();
}

// From the editor to the picture.
function toPicture() {
  $('schedule').blur();
  $('as-mesh').focus();
}

function fold() {
  const isFolded = document.documentElement.classList.toggle('folded');
  $('fold').setAttribute('aria-pressed', !isFolded);
  fit();
}

// Another address may ask for another schedule, or for another step of this one.
async function goToAddress() {
  if (location.hash === hashWritten) return;
  const asked = await askedByAddress();
  if (asked && (asked.text !== live.ran || asked.variant !== live.variant)) return openAsked(asked);
  if (!run) return;
  hashIn();
  render(true);
}

async function openAsked({ text, name, variant }) {
  $('run-variant').value = VARIANTS.includes(variant) ? variant : 'base';
  await openSchedule(text, name);
}

function takePicks() {
  act.node = (node, event) => offerAtNode(node, event.clientX + 12, event.clientY);
  act.copy = (at, event) => offerAtCopy(at, event.clientX + 12, event.clientY);
  act.ground = offerAtGround;
  act.file = openFile;
  act.address = goToAddress;
  act.shown = () => {
    const row = run.schedule && view.k > 0 && !isChanged() && run.schedule[run.steps[view.k].row];
    markNow(row ? row.number : 0);
  };
  Object.assign(ALWAYS, { e: toEditor, x: offerExamples, w: offerFiles, u: () => undo(false), U: () => undo(
    true) });
  Object.assign(KEYS, { a: () => writeLine('auto 100'), d: offerAtChosen, Enter: offerAtChosen });
  $('mesh').addEventListener('pointermove', ({ clientX, clientY, target }) => {
    $('mesh').style.cursor = target === $('mesh') && canOffer() && linkAt(clientX, clientY) ? 'pointer' : '';
  });
}

// The page without what runs schedules, which says why.
function stayPlayer() {
  $('live').remove();
  $('fold').remove();
  $('unproved').remove();
  $('choose-text').prepend(el('p', { id: 'no-wasm' }, 'This browser can\'t run schedules: that takes WebAssembly ' +
    'with memory of 64 bits, as Chromium and Chrome have it from version 133 on and Firefox from 134 on. Here the ' +
    'page plays texts of runs.'));
}

// A module that was made without a proof has a section that says so.
async function tellProof(module) {
  const compiled = await WebAssembly.compile(module);
  const isProved = WebAssembly.Module.customSections(compiled, 'unproved').length === 0;
  for (const id of ['unproved', 'about-unproved']) $(id).hidden = isProved;
}

async function startLive() {
  if (!canRun() || $('embedded-module').textContent.trim() === '') return stayPlayer();
  document.documentElement.classList.add('live');
  $('drop').hidden = true;
  $('file').setAttribute('aria-label', 'a schedule, or a text of a run');
  $('about-page').replaceChildren($('live-about').content);
  $('key-list').tBodies[0].prepend($('live-keys').content);
  listenToEditor();
  listenToMenu();
  takePicks();
  const module = await bytesOf('embedded-module');
  live.runner = new Runner(module);
  live.writer = new Runner(module);
  live.examples = await readExamples();
  await openAsked(await askedByAddress() || { text: live.examples.get(FIRST) || '', name: FIRST, variant: 'base' });
  await tellProof(module);
}

// The example that is open at first.
const FIRST = 'discovery.mesh';
