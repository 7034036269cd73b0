// The records: one string for all, which the page holds packed, and where each line begins in it.
const run = JSON.parse(document.getElementById('data').textContent);
async function unpacked(letters) {
  const packed = await fetch(`data:;base64,${letters}`);
  return new Response(packed.body.pipeThrough(new DecompressionStream('deflate')));
}
const text = await (await unpacked(document.getElementById('records').textContent)).text();

const starts = (() => {
  const found = new Uint32Array(run.count + 1);
  for (let at = 0; at < run.count; at++) found[at + 1] = text.indexOf('\n', found[at]) + 1;
  return found;
})();

const lineAt = at => text.slice(starts[at], starts[at + 1] - 1);

// The number of the record in which a place of the text lies.
function recordAt(place) {
  let low = 0, high = run.count - 1;
  while (low < high) {
    const middle = (low + high + 1) >> 1;
    if (starts[middle] <= place) low = middle; else high = middle - 1;
  }
  return low;
}

// The steps, in columns: the first record of each, and its event; -1 where that isn't known.
const steps = await (async () => {
  const bytes = new Uint8Array(await (await unpacked(run.steps)).arrayBuffer());
  const found = {first: new Uint32Array(run.stepCount), event: new Int32Array(run.stepCount)};
  let at = 0, first = 0, event = -1;
  const more = () => {
    let value = 0, factor = 1;
    while (bytes[at] > 127) {
      value += (bytes[at++] - 128) * factor;
      factor *= 128;
    }
    return value + bytes[at++] * factor;
  };
  for (let i = 0; i < run.stepCount; i++) {
    found.first[i] = first += more();
    const past = more();
    found.event[i] = past ? event += past : -1;
  }
  return found;
})();

// The event that wrote a record, or -1; and the first record from an event on.
const eventAt = at => run.stepCount ? steps.event[Math.max(0, firstFrom(steps.first, at + 1) - 1)] : -1;
const recordFrom = event => {
  const i = steps.event.findIndex(other => other >= event);
  return i < 0 ? run.count - 1 : steps.first[i];
};

// The kinds of records that are marked in lanes, the weightiest first.
const KINDS = ['fault', 'halt', 'destroy', 'msg', 'log', 'end', 'shared'];
const WORDS = [['fault', 'faults'], ['halt', 'halts'], ['destruction', 'destructions'], ['message', 'messages'],
  ['piece of the log', 'pieces of the log'], ['end of a program', 'ends of programs'],
  ['access to a page that two write', 'accesses to pages that two write']];
const [FAULT, HALT, DESTROY, MESSAGE, LOG, END, SHARED] = KINDS.keys();
const NOBODY = -1;

// The pages that more than one process writes, where an answer is shown.
const sharedPages = (() => {
  const writers = new Map(), found = new Set();
  if (!run.answer) return found;
  for (let at = 0; at < run.count; at++) {
    if (!text.startsWith('store ', starts[at])) continue;
    const [, process, , kind, number] = lineAt(at).split(' '), page = `${kind} ${number}`;
    if (writers.has(page) && writers.get(page) !== process) found.add(page);
    writers.set(page, process);
  }
  return found;
})();

const isShared = at => sharedPages.size > 0 && sharedPages.has(lineAt(at).split(' ').slice(3).join(' '));

// Whether a fault is the breakpoint with which a program ends: examples/lib has it in these functions.
const ENDINGS = ['_start', '_exit'];
function isEnd(at) {
  const [, process, name, address, heard] = lineAt(at).split(' ');
  if (name !== 'Breakpoint' || heard !== 'unheard') return false;
  const place = parseInt(address, 16), symbol = symbolAt(process, place);
  return symbol ? ENDINGS.includes(symbol.split('+')[0]) : [4, 8].includes(place - run.entries[process]);
}

// The kind of a record that is marked, by its first letters.
function kindAt(at) {
  const start = starts[at];
  switch (text[start]) {
    case 'm': return MESSAGE;
    case 'd': return DESTROY;
    case 'h': return HALT;
    case 'f': return text[start + 1] !== 'a' ? undefined : isEnd(at) ? END : FAULT;
    case 'l': return text[start + 2] === 'g' ? LOG : isShared(at) ? SHARED : undefined;
    case 's': return isShared(at) ? SHARED : undefined;
  }
}

// The decimal number that begins at a place.
function numberAt(place) {
  let value = 0;
  for (let digit; (digit = text.charCodeAt(place) - 48) >= 0 && digit < 10; place++) value = value * 10 + digit;
  return value;
}

// Who is meant by a marked record, and who hears of it.
function endsOf(at, kind, running) {
  if (kind === DESTROY) return [running, NOBODY];
  const first = text.indexOf(' ', starts[at]) + 1, from = numberAt(first);
  if (kind === MESSAGE) return [from, numberAt(text.indexOf(' ', first) + 1)];
  if (kind !== FAULT) return [from, NOBODY];
  const last = text.lastIndexOf(' ', starts[at + 1] - 1);
  return [from, text.slice(last - 3, last) === ' to' ? numberAt(last + 1) : NOBODY];
}

// All marks, in columns: the record, its kind, and the two ends.
const marks = (() => {
  let count = 0;
  for (let at = 0; at < run.count; at++) if (kindAt(at) !== undefined) count++;
  const found = {count, at: new Uint32Array(count), kind: new Uint8Array(count), from: new Int16Array(count),
    to: new Int16Array(count)};
  let next = 0, running = NOBODY;
  for (let at = 0; at < run.count; at++) {
    const kind = kindAt(at);
    if (kind === undefined) {
      running = numberAt(text.indexOf(' ', starts[at]) + 1);
    } else {
      const [from, to] = endsOf(at, kind, running);
      found.at[next] = at;
      found.kind[next] = kind;
      found.from[next] = from;
      found.to[next++] = to;
    }
  }
  return found;
})();

// The first place of a sorted column from which on all values are at least this one.
function firstFrom(column, value, count = column.length) {
  let low = 0, high = count;
  while (low < high) {
    const middle = (low + high) >> 1;
    if (column[middle] < value) low = middle + 1; else high = middle;
  }
  return low;
}
