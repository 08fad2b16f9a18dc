'use strict';
// ---- The editor: a schedule with the numbers of its lines, its current line and its bad bytes ---------
//
// The text stands in a text area over a sheet on which the lines are marked. Numbers are drawn for the lines
// that are seen, so that a schedule of many thousand lines costs no more than a short one.

const editor = { count: 1, now: 0, bad: null, kept: '', past: [], future: [] };
const scheduleText = () => $('schedule').value;
const LINE_HEIGHT = 19;
// The margin of the text area, and how many letters of texts are kept to be taken back: the browser's own undo is
// slow where a page writes many lines.
const PAPER_TOP = 6,
  MOST_KEPT = 1e7;

// Where the line of this number begins; the end of the text where there is no such line.
function startOfLine(text, number) {
  let at = 0;
  for (let line = 1; line < number; line++) {
    at = text.indexOf('\n', at) + 1;
    if (at === 0) return text.length;
  }
  return at;
}

function lineAt(text, number) {
  const from = startOfLine(text, number),
    to = text.indexOf('\n', from);
  return text.slice(from, to < 0 ? text.length : to);
}

function countLines(text) {
  let count = 1;
  for (let at = text.indexOf('\n'); at >= 0; at = text.indexOf('\n', at + 1)) count++;
  return count;
}

// After a change of the text: old marks say nothing of it.
function editorChanged() {
  editor.count = countLines(scheduleText());
  markBad(null);
}

// Marks the bytes of a line that was refused, `{ line, from, to }`, the whole line where it has no bytes, or none.
function markBad(bad) {
  editor.bad = bad;
  $('schedule').setAttribute('aria-invalid', bad !== null);
  drawMarks();
}

// Marks the line of the step that is shown, and brings it into sight where nobody writes.
function markNow(line) {
  if (editor.now === line) return;
  editor.now = line;
  if (line > 0 && document.activeElement !== $('schedule')) bringIntoSight(line);
  drawMarks();
}

function bringIntoSight(line) {
  const area = $('schedule'),
    top = (line - 1) * LINE_HEIGHT;
  if (top < area.scrollTop || top + 2 * LINE_HEIGHT > area.scrollTop + area.clientHeight) area.scrollTop = top -
    area.clientHeight / 3;
}

function drawMarks() {
  const marks = [];
  if (editor.now > 0) marks.push(el('div', { class: 'line-now', style: `top:${topOf(editor.now)}px` }));
  if (editor.bad) marks.push(badMark(editor.bad));
  $('marks').replaceChildren(...marks);
  drawNumbers();
}

const topOf = line => PAPER_TOP + (line - 1) * LINE_HEIGHT;

function badMark({ line, from, to }) {
  const text = lineAt(scheduleText(), line),
    [before, wrong] = from >= 0 ? cutAtBytes(text, from, to) : ['', text];
  return el('div', { class: 'line-bad', style: `top:${topOf(line)}px` }, before, el('mark', {}, wrong || ' '));
}

// The numbers of the lines in sight, in step with the text.
function drawNumbers() {
  const area = $('schedule'),
    first = Math.floor(area.scrollTop / LINE_HEIGHT) + 1,
    last = Math.min(editor.count, first + Math.ceil(area.clientHeight / LINE_HEIGHT) + 1),
    numbers = [];
  for (let line = first; line <= last; line++) {
    const classes = [line === editor.now ? 'now' : '', editor.bad && line === editor.bad.line ? 'bad' : ''];
    numbers.push(el('button', { class: classes.join(' ').trim(), 'data-line': line, tabindex: -1,
      title: `to the step of line ${line}` }, String(line)));
  }
  $('numbers').replaceChildren(...numbers);
  $('numbers').style.transform = `translateY(${PAPER_TOP - area.scrollTop % LINE_HEIGHT}px)`;
  $('marks').style.transform = `translate(${-area.scrollLeft}px, ${-area.scrollTop}px)`;
}

// --- what is taken back: the text as it was at each run, and before each line that the page wrote

// The caret goes to the first letter that is another.
function setText(text) {
  const area = $('schedule'),
    old = area.value;
  let same = 0;
  while (same < text.length && text[same] === old[same]) same++;
  area.value = text;
  area.setSelectionRange(same, same);
  editorChanged();
}

// Keeps the text as it stands.
function keepText() {
  const text = scheduleText();
  if (text === editor.kept) return;
  editor.past.push(editor.kept);
  while (editor.past.reduce((sum, it) => sum + it.length + 1, 0) > MOST_KEPT) editor.past.shift();
  editor.future = [];
  editor.kept = text;
}

// Puts a text in the place of what stands from one place to another.
function writeText(from, to, text) {
  const area = $('schedule'),
    { scrollTop, scrollLeft } = area;
  keepText();
  area.setRangeText(text, from, to, 'end');
  Object.assign(area, { scrollTop, scrollLeft });
  editorChanged();
  keepText();
}

// Goes to the text before, or after it again.
function undoText(isRedo) {
  keepText();
  const [from, to] = isRedo ? [editor.future, editor.past] : [editor.past, editor.future];
  if (from.length === 0) return;
  to.push(editor.kept);
  editor.kept = from.pop();
  setText(editor.kept);
}
