'use strict';
// ---- What comes into the page and goes out of it: examples, files, addresses -----------------------------

// --- examples

// Each example's name and text, from the element that view/make fills: a line `example NAME BYTES`, then the bytes.
async function readExamples() {
  const stream = embedded('embedded-examples'),
    found = new Map();
  if (!stream) return found;
  const bytes = new Uint8Array(await new Response(stream).arrayBuffer()),
    decoder = new TextDecoder();
  for (let at = 0; at < bytes.length;) {
    const end = bytes.indexOf(10, at),
      [, name, size] = decoder.decode(bytes.subarray(at, end)).split(' ');
    at = end + 1 + Number(size);
    found.set(name, decoder.decode(bytes.subarray(end + 1, at)));
  }
  return found;
}

// The first sentence of an example's first remark.
const headOf = text => (/^# ([^.:]*)/.exec(text) || ['', ''])[1];

function offerExamples() {
  const box = $('examples').getBoundingClientRect(),
    rows = [...live.examples].map(([name, text]) => [{ word: name, why: headOf(text), does: () => openSchedule(text,
      name) }]);
  openMenu('examples', [{ name: '', rows }], box.left, box.bottom + 4);
}

// --- the address

// Longer ones aren't written into the address: some programs cut long addresses.
const MOST_ADDRESS = 8000;

async function through(stream, data) {
  return new Uint8Array(await new Response(new Blob([data]).stream().pipeThrough(stream)).arrayBuffer());
}

// A text as a word of an address, and back: deflated, in the alphabet base64url.
async function packed(text) {
  const bytes = await through(new CompressionStream('deflate-raw'), text);
  let letters = '';
  for (const byte of bytes) letters += String.fromCharCode(byte);
  return btoa(letters).replaceAll('+', '-').replaceAll('/', '_').replace(/=+$/, '');
}

async function unpacked(word) {
  if (word.length > 2 * MOST_ADDRESS) throw new RangeError('a word that this page doesn\'t write');
  const letters = atob(word.replaceAll('-', '+').replaceAll('_', '/'));
  return new TextDecoder().decode(await through(new DecompressionStream('deflate-raw'), Uint8Array.from(letters,
    it => it.charCodeAt(0))));
}

// The part of the address that has the schedule: an example's name where it is one, or else its text.
async function addressPart(text, variant) {
  const example = [...live.examples].find(([, it]) => it === text),
    word = example ? example[0] : text.length < 20 * MOST_ADDRESS ? await packed(text) : '';
  if (!example && word.length > MOST_ADDRESS) return '';
  return word && `${example ? 'example' : 'schedule'}=${word}&${variant === 'base' ? '' : `variant=${variant}&`}`;
}

// What the address asks for: `{ text, name, variant }`, or null where it has no schedule.
async function askedByAddress() {
  const asked = new URLSearchParams(location.hash.slice(1)),
    name = asked.get('example'),
    variant = asked.get('variant') || 'base';
  if (live.examples.has(name)) return { text: live.examples.get(name), name, variant };
  if (!asked.get('schedule')) return null;
  try {
    return { text: await unpacked(asked.get('schedule')), name: 'schedule.mesh', variant };
  } catch (_) {
    say('The schedule in the address is damaged.', true);
    return null;
  }
}

async function share() {
  await runIfChanged();
  if (hashBefore === '') return say('This schedule is too long for an address: save it as a file.', true);
  hashOut();
  try {
    await navigator.clipboard.writeText(location.href);
    say(`The address is copied, ${location.href.length} characters: whoever opens it sees this schedule at this step.`);
  } catch (_) {
    say('The page\'s address has the schedule and the step: copy it from the address bar.');
  }
}

// --- files

// Whether a file is a text of a run: it has an indented line, or a last line that no schedule has.
const isRunText = text => /^(?: {2}\S|done |bad line |full line )/m.test(text);

async function openFile(file) {
  const text = await file.text();
  if (isRunText(text)) {
    stopRun();
    hashBefore = '';
    live.ran = null;
    document.documentElement.classList.remove('empty');
    await load(read(file.stream()), null, { title: file.name });
    return say(`The picture shows the text ${file.name}. Run the schedule to go back to it.`);
  }
  await openSchedule(text, file.name);
  if (text.includes('\r')) say('Carriage returns (CRLF) of this file are left out here.', true);
}

const nameOf = ending => `${live.name.replace(/\.[a-z]+$/, '')}.${ending}`;

function saveSchedule() {
  download(scheduleText(), 'text/plain', nameOf('mesh'));
}

async function saveText(isWatched, ending) {
  const answer = await live.writer.run(wordsOf(scheduleText(), isWatched));
  if (answer && answer.text && answer.status !== NO_ROOM) return download(answer.text, 'text/plain', nameOf(ending));
  say(answer && answer.trap ? answer.trap : TOO_LONG, true);
}

async function saveOfRun(make, type, ending) {
  await runIfChanged();
  if (run) download(make(), type, nameOf(ending));
}

// A row for each step: its event and the counts after it, as the line `done` counts them.
function stepsAsCsv() {
  const names = Object.keys(run.sums),
    rows = run.steps.map((step, k) => {
      const row = run.schedule && k > 0 && run.schedule[step.row],
        node = k > 0 && step.node >= 0 ? run.nodes[step.node] : '';
      return [k, row ? row.number : '', k > 0 ? step.word : '', node, run.castKind(step) || '', ...names.map(name =>
        run.counts[name][k])].join(',');
    });
  return [`step,line,event,node,sent,${names.join(',')}`, ...rows, ''].join('\n');
}

// --- a capture: docs/FORMATS.md, Captures, has its bytes

const PORTS = { data: 49654 };

function sumOfWords(bytes, from, to) {
  let sum = 0;
  for (let at = from; at < to; at += 2) sum += bytes[at] << 8 | (at + 1 < to ? bytes[at + 1] : 0);
  return sum;
}

function checksum(sum) {
  while (sum > 0xffff) sum = (sum & 0xffff) + (sum >>> 16);
  return ~sum & 0xffff;
}

// The IPv4 packet of a copy that was heard or lost.
function datagramOf(copy) {
  const body = run.packets[copy.packet].match(/../g).map(it => parseInt(it, 16)),
    size = 28 + body.length,
    bytes = new Uint8Array(size),
    write = new DataView(bytes.buffer),
    port = PORTS[run.kind(copy)] || 654;
  bytes.set([0x45, 0, 0, 0, 0, copy.heard ? 0 : 1, 0, 0, 64, 17]);
  write.setUint16(2, size);
  write.setUint32(12, numeric(run.nodes[copy.from]));
  write.setUint32(16, numeric(run.nodes[copy.to]));
  write.setUint16(10, checksum(sumOfWords(bytes, 0, 20)));
  write.setUint16(20, port);
  write.setUint16(22, port);
  write.setUint16(24, size - 20);
  bytes.set(body, 28);
  write.setUint16(26, checksum(sumOfWords(bytes, 12, size) + 17 + size - 20) || 0xffff);
  return bytes;
}

const SNAPLEN = 65535,
  RAW_IPV4 = 228;

function words32(...words) {
  const bytes = new Uint8Array(4 * words.length);
  words.forEach((word, i) => new DataView(bytes.buffer).setUint32(4 * i, word));
  return bytes;
}

function capture() {
  const parts = [words32(0xa1b2c3d4, 0x00020004, 0, 0, SNAPLEN, RAW_IPV4)];
  run.steps.forEach((step, k) => {
    const copy = step.hit === undefined || step.word === 'copy' ? null : run.copies[step.hit];
    if (!copy || copy.packet < 0) return;
    const bytes = datagramOf(copy);
    parts.push(words32(Math.floor(k / 1000), k % 1000 * 1000, bytes.length, bytes.length), bytes);
  });
  return new Blob(parts);
}

function offerFiles() {
  const box = $('files').getBoundingClientRect(),
    it = (word, why, does) => [{ word, why, does }];
  openMenu('files', [
    { name: '', rows: [it('open', 'a schedule, or a text of a run (o)', () => $('file').click()), it('copy the address',
      'with the schedule and the step in it', share)] },
    { name: 'save', rows: [
      it('the schedule', nameOf('mesh'), saveSchedule),
      it('the text', `${nameOf('txt')}, as mesh run writes it`, () => saveText(false, 'txt')),
      it('the text with tables', `${nameOf('watch.txt')}, as mesh watch does`, () => saveText(true, 'watch.txt')),
      it('a capture', `${nameOf('pcap')}, for Wireshark`, () => saveOfRun(capture, 'application/vnd.tcpdump.pcap',
        'pcap')),
      it('the counts', `${nameOf('csv')}, a row for each step`, () => saveOfRun(stepsAsCsv, 'text/csv', 'csv'))
    ] }
  ], box.left, box.bottom + 4);
}
