'use strict';
// ---- What is due at a node, a link or a copy, and the line that does it ---------------------------------
//
// What is offered is what is enabled at the step that is shown, as the tables, the queues and the copies of the
// text say. A line that is chosen goes into the schedule behind that step, and the schedule is run.

// At most so many copies and links are offered at once.
const MOST_OFFERED = 12;
const DUE_NOW = 'due now';

const offer = (line, why) => ({ line, why });

function turnsDue(node, k) {
  const count = run.state[node].queue.at(k);
  return count ? [offer(`turn ${run.nodes[node]}`, `takes the first of the ${count} in its queue`)] : [];
}

// A send or a request for each destination for which data wait, where one is enabled.
function sendsDue(node, k) {
  return known(run.state[node].waits, k).flatMap(([to, words]) => {
    const entry = run.entry(node, to, k),
      pair = `${run.nodes[node]} ${run.nodes[to]}`;
    if (entry && entry.flag === 'val') return [offer(`send ${pair}`, `to the next hop, ${entry.next}`)];
    return words.startsWith('req ') ? [offer(`ask ${pair}`, 'asks all neighbours for a route')] : [];
  });
}

function copyDue(at) {
  const copy = run.copies[at],
    name = `${NAMES[run.kind(copy)]} from ${short(copy.from)} to ${short(copy.to)}`;
  return [offer(`deliver ${copy.id}`, name), offer(`lose ${copy.id}`, ''), offer(`copy ${copy.id}`, '')];
}

const copiesDue = (node, k) => run.inFlight(k).filter(at => run.copies[at].to === node).slice(0, MOST_OFFERED)
  .map(copyDue);

const neighbours = (node, k) => run.nodes.map((_, i) => i).filter(i => i !== node && run.isLinked(node, i, k));

const cutsDue = (node, k) => neighbours(node, k).slice(0, MOST_OFFERED).map(i => offer(
  `cut ${run.nodes[node]} ${run.nodes[i]}`, ''));

// All that is offered at a node: groups with a name and rows of lines.
function offersAtNode(node, k) {
  const name = run.nodes[node],
    rows = offers => offers.map(it => [it]),
    shows = [offer(`show ${name}`, 'prints its tables')];
  if (view.goal >= 0 && view.goal !== node) shows.push(offer(`route ${name} ${run.nodes[view.goal]}`,
    'prints where its next hops lead'));
  return [
    { name: DUE_NOW, rows: [...rows([...turnsDue(node, k), ...sendsDue(node, k)]), ...copiesDue(node, k)] },
    { name: 'its links', rows: rows(cutsDue(node, k)) },
    { name: 'to be printed', rows: rows(shows) },
    { name: 'of the whole mesh', rows: [[offer('auto 1', 'does what auto picks'), offer('flight', '')]] }
  ];
}

const offersAtCopy = (at, k) => [{ name: DUE_NOW, rows: [copyDue(at)] }];
const offersAtLink = (a, b) => [{ name: DUE_NOW, rows: [[offer(`cut ${run.nodes[a]} ${run.nodes[b]}`,
  'nobody is told')]] }];

// --- where a line goes

// The offset at which a line begins, with the remarks and blank lines above it.
function startWithRemarks(text, number) {
  let first = number;
  while (first > 1 && /^(#|$)/.test(lineAt(text, first - 1))) first--;
  return startOfLine(text, first);
}

const refusedLine = made => Number((/^(?:bad|full) line (\d+):/.exec(made.last || '') || [0, 0])[1]);

// What is written for a line behind the step k: `{ from, to, text }`, and the number of the line. Where the step
// is one of several that an `auto` line did, that line is cut in two.
function writingAfter(k, line) {
  const text = scheduleText(),
    next = run.steps[k + 1],
    row = next && run.schedule[next.row];
  if (row && k > 0 && isInAuto(k) && run.steps[k].row === next.row) return cutAuto(text, k, row, line);
  const number = row ? row.number : refusedLine(run),
    at = number ? startWithRemarks(text, number) : text.length,
    gap = at > 0 && text[at - 1] !== '\n' ? '\n' : '';
  return { from: at, to: at, text: `${gap}${line}\n`, number: countLines(text.slice(0, at) + gap) };
}

function cutAuto(text, k, row, line) {
  let done = 0;
  while (run.steps[k - done].row === run.steps[k].row) done++;
  const from = startOfLine(text, row.number),
    left = Number(row.line.slice(5)) - done;
  return { from, to: from + row.line.length, text: `auto ${done}\n${line}\nauto ${left}`, number: row.number + 1 };
}

// The last step of the line of this number, or of those above it.
function stepOfLine(made, number) {
  let low = 0,
    high = made.count;
  while (low < high) {
    const middle = (low + high + 1) >> 1,
      row = made.schedule[made.steps[middle].row];
    if (row && row.number <= number) low = middle;
    else high = middle - 1;
  }
  return low;
}

// Writes a line behind the step that is shown, and runs the schedule up to it.
async function writeLine(line) {
  await runIfChanged();
  if (!run || !run.schedule) return;
  const { from, to, text, number } = writingAfter(view.k, line);
  writeText(from, to, text);
  await runSchedule(made => stepOfLine(made, number));
}

// Writes a node with the next free address behind the other nodes.
async function writeNode() {
  const text = scheduleText(),
    taken = new Set((text.match(/^node \S+/gm) || []).map(it => it.slice(5))),
    lines = text.split('\n');
  let last = lines.findLastIndex(it => it.startsWith('node ')),
    free = 1;
  while (taken.has(addressOf(free))) free++;
  if (last < 0) last = lines.findIndex(it => !/^(#|$)/.test(it)) - 1;
  const at = last === -2 ? text.length : startOfLine(text, last + 2),
    gap = at > 0 && text[at - 1] !== '\n' ? '\n' : '';
  writeText(at, at, `${gap}node ${addressOf(free)}\n`);
  await runSchedule();
}

const addressOf = number => `10.0.${number >> 8}.${number & 255}`;

// --- the menu

// Opens a menu at a place of the window. `groups` have names and rows; a row has items, each `{ line, why }` or
// `{ word, why, does }`, or is an element.
function openMenu(title, groups, x, y) {
  const menu = $('menu'),
    parts = [el('h2', {}, title)];
  for (const { name, rows } of groups) {
    if (rows.length === 0) continue;
    if (name) parts.push(el('h3', {}, name));
    parts.push(...rows.map(row => row instanceof Element ? row : menuRow(row)));
  }
  if (!menu.open) menu.dataset.opener = document.activeElement ? document.activeElement.id : '';
  menu.setAttribute('aria-label', title);
  menu.replaceChildren(...parts);
  if (!menu.open) menu.showModal();
  const box = menu.getBoundingClientRect();
  menu.style.left = `${Math.max(6, Math.min(x, innerWidth - box.width - 6))}px`;
  menu.style.top = `${Math.max(6, Math.min(y, innerHeight - box.height - 6))}px`;
  const first = menu.querySelector('button, select');
  if (first) first.focus();
}

function menuRow(items) {
  const row = el('div', { class: 'offer' });
  for (const { line, word, why, does } of items) {
    const button = el('button', line ? { class: 'mono', 'data-writes': line } : {}, line || word);
    button.addEventListener('click', () => {
      closeMenu();
      if (line) writeLine(line);
      else does();
    });
    row.append(button);
    if (why) row.append(el('span', { class: 'dim' }, why));
  }
  return row;
}

function closeMenu() { $('menu').close(); }

// The arrows go through the menu's buttons, and a click beside it closes it.
function listenToMenu() {
  on('menu', 'keydown', event => {
    const way = { ArrowDown: 1, ArrowUp: -1 } [event.key];
    if (!way || event.target.tagName === 'SELECT') return;
    event.preventDefault();
    const all = [...$('menu').querySelectorAll('button, select, input')],
      at = all.indexOf(document.activeElement);
    all[(at + way + all.length) % all.length].focus();
  });
  on('menu', 'click', event => { if (event.target === $('menu')) closeMenu(); });
}

const optionsOf = (chosen, fits) => run.nodes.map((address, i) => fits(i) ? new Option(address, i, false, i ===
  chosen) : null).filter(it => it);

// A row in which a line is put together: its first words, a node, and where it has one a text.
function lineForm(word, node, others, text) {
  const form = el('form', { class: 'offer' }),
    to = el('select', { 'aria-label': 'the other node' }),
    body = text === undefined ? null : el('input', { size: 8, maxlength: 512, 'aria-label': 'the text', required: '',
      pattern: '[ -~]+' });
  if (body) body.value = text;
  to.append(...others);
  form.append(el('span', { class: 'mono' }, `${word} ${run.nodes[node]}`), to, ...(body ? [body] : []), el('button', {},
    'write'));
  form.addEventListener('submit', event => {
    event.preventDefault();
    closeMenu();
    writeLine([word, run.nodes[node], run.nodes[to.value], ...(body ? [body.value] : [])].join(' '));
  });
  return form;
}

function formsAt(node, k) {
  const apart = i => i !== node && !run.isLinked(node, i, k),
    unlinked = optionsOf(-1, apart),
    goal = view.goal >= 0 && view.goal !== node ? view.goal : -1,
    forms = [lineForm('data', node, optionsOf(goal, () => true), 'hello')];
  if (goal < 0 && run.nodes.length > 1) forms[0].querySelector('select').value = node === 0 ? 1 : 0;
  if (unlinked.length) forms.push(lineForm('link', node, unlinked));
  return { name: 'a new one', rows: forms };
}

const canOffer = () => run && run.schedule && !view.playing;

function offerAtNode(node, x, y) {
  choose(node);
  if (!canOffer()) return;
  const groups = offersAtNode(node, view.k);
  groups.splice(1, 0, formsAt(node, view.k));
  openMenu(`${run.nodes[node]}, after step ${view.k}`, groups, x, y);
}

function offerAtCopy(at, x, y) {
  const copy = run.copies[at];
  if (!canOffer()) return go(copy.born);
  const back = { word: `to step ${copy.born}`, why: 'which sent it', does: () => go(copy.born) };
  openMenu(`copy ${copy.id}, after step ${view.k}`, [...offersAtCopy(at), { name: '', rows: [[back]] }], x, y);
}

// The standing link at a place of the picture, as a pair of nodes; null where there is none.
function linkAt(x, y) {
  const place = placed(view.t),
    box = $('mesh').getBoundingClientRect(),
    at = [x - box.left - view.panX, y - box.top - view.panY];
  let best = null,
    least = 8;
  for (const [key, history] of run.links) {
    const [a, b] = [place.at[key >> 8], place.at[key & 255]];
    if (!history.at(view.k) || !a || !b) continue;
    const away = distance(at, a, b);
    if (away < least) [best, least] = [[key >> 8, key & 255], away];
  }
  return best;
}

// How far a point is from a straight line between two others.
function distance([x, y], a, b) {
  const [dx, dy] = [b[0] - a[0], b[1] - a[1]],
    part = Math.max(0, Math.min(1, ((x - a[0]) * dx + (y - a[1]) * dy) / (dx * dx + dy * dy || 1)));
  return Math.hypot(x - a[0] - part * dx, y - a[1] - part * dy);
}

function offerAtGround({ clientX, clientY }) {
  const link = canOffer() && linkAt(clientX, clientY);
  if (link) openMenu(`the link, after step ${view.k}`, offersAtLink(...link), clientX, clientY);
}

// The menu of the chosen node, beside it in the picture.
function offerAtChosen() {
  if (!run) return;
  const box = $('mesh').getBoundingClientRect(),
    place = placed(view.t).at[view.node] || [0, 0],
    isSeen = view.as === 'mesh';
  offerAtNode(view.node, isSeen ? box.left + place[0] + view.panX + 20 : innerWidth / 3, isSeen ? box.top + place[1] +
    view.panY : innerHeight / 4);
}
