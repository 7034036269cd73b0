// What each process has in the last state: each capability as a tree of what it leads to, made where it is opened.
const LIMITS = {r: 'no stores', x: 'no fetches', w: 'weak', o: 'opaque', n: 'no handlers'};
const TOP = 2 ** 32;
let open = 400; // how many may still be opened unasked

function made(what, text = '', name = '') {
  const found = document.createElement(what);
  if (text) found.textContent = text;
  if (name) found.className = name;
  return found;
}

// The parts of a capability's word.
function parsed(word) {
  const [, kind, first, second, size, match, limits] =
    word.match(/^(\w+)(?::(\w+))?(?::(\w+))?(?:@(\d+)\/([0-9a-f]+))?(?:\+(\w+))?$/) || [];
  return {word, kind, first, second, limits, number: Number(first), size: size && Number(size),
    match: parseInt(match || '0', 16)};
}

// A capability in words.
function said({word, kind, first, number, second, size, match, limits}) {
  const rest = size === undefined ? '' : `, guard 2^${size} at ${hex(match, 5)}`
    + [...limits || ''].map(letter => `, ${LIMITS[letter]}`).join('');
  switch (kind) {
    case 'page': case 'cappage': case 'gpt': return called(kind, number) + rest;
    case 'endpoint': case 'process': return called(kind, number);
    case 'entry': return `entry to ${called('endpoint', number)}, payload ${second}`;
    case 'schedule': return `schedule of priority ${number}`;
    case 'window': return `window to ${first} of the background${rest}`;
    case 'local': return `window to ${second} of slot ${first}${rest}`;
    case 'kernlog': return 'the kernel\'s log';
    case 'sysctl': return 'system control';
  }
  return word;
}

// What a capability leads to: the place in words, a capability's word, and the address where it begins. What no address
// reaches begins behind all of them.
function behind(cap, base, told) {
  const {endpoints, processes, slots, gpts, cappages} = run.state;
  if (cap.kind === 'entry' || cap.kind === 'endpoint') {
    const found = endpoints[cap.number] || ['null'];
    return [[found[0] === 'null' ? 'no recipient' : 'received by', found[0]]];
  }
  if (cap.kind === 'process' && processes[cap.number]) {
    const [, space, schedule, handler] = processes[cap.number];
    return [['space', space, 0], ['schedule', schedule], ['handler', handler]];
  }
  if (cap.kind === 'cappage') {
    const range = slot => told(base + slot * 16, base + slot * 16 + 15);
    return (cappages[cap.number] || []).map(([slot, word]) => [`slot ${slot} ${range(slot)}`, word]);
  }
  if (cap.kind !== 'gpt') return [];
  const [levels, ...flags] = gpts[cap.number] || ['12'], size = 2 ** Number(levels);
  return (slots[cap.number] || []).map(([slot, word]) => {
    if (slot === 15 && flags.includes('ha')) return [`slot ${slot}, handler`, word];
    if (slot === 14 && flags.includes('bg')) return [`slot ${slot}, background`, word, 0];
    const first = slot * size < 2 ** cap.size ? base + slot * size : TOP;
    return [`slot ${slot} ${told(first, first + size - 1)}`, word, first];
  });
}

// Addresses of a space, and offsets where there is none.
const ranged = sign => (first, last) =>
  first < TOP ? `${sign}${hex(first)} to ${sign}${hex(Math.min(last, TOP - 1))}` : 'out of reach';
const spaceRange = ranged(''), offsetRange = ranged('+');

// A capability as an item of a list; behind it, in its turn, what it leads to. The GPTs above it are known by their
// numbers. A space opens by itself, but for what is out of reach, and for a GPT that stands in itself.
function item(place, word, base, told, above = []) {
  const cap = parsed(word), start = base + (cap.size === undefined ? 0 : cap.match * 2 ** cap.size), found = made('li');
  const inner = behind(cap, start, told);
  const title = inner.length ? made('summary') : found;
  title.append(made('span', place && `${place}: `, 'place'), word === 'null' ? 'nothing' : said(cap));
  if (cap.kind === 'gpt') title.append(`, l2v ${(run.state.gpts[cap.number] || ['12']).join(' ')}`);
  if (!inner.length) return found;
  const details = found.appendChild(made('details')), list = made('ul');
  details.append(title, list);
  details.addEventListener('toggle', () => {
    const within = cap.kind === 'process' ? spaceRange : told;
    const here = cap.kind === 'gpt' ? [...above, cap.number] : above;
    if (!details.open || list.children.length) return;
    list.append(...inner.map(([place, word, at]) => item(place, word, at ?? start, within, here)));
  });
  const opensItself = cap.kind === 'entry' || cap.kind === 'endpoint'
    || cap.kind === 'gpt' && base < TOP && above.length < 4 && !above.includes(cap.number);
  if (opensItself && open > inner.length) {
    open -= inner.length;
    details.open = true;
  }
  return found;
}

function list(...items) {
  const found = made('ul');
  found.append(...items);
  return found;
}

// The capability registers, each with what the plan put there.
function registersOf(process) {
  const given = run.names.given[process] || {}, held = new Map(run.state.held[process] || []);
  const numbers = new Set([...held.keys(), ...Object.keys(given).map(Number)]);
  return list(...[...numbers].sort((one, two) => one - two).map(register => {
    const found = item(`c${register}`, held.get(register) || 'null', 0, offsetRange);
    const title = found.querySelector('summary') || found;
    if (register in given) title.append(made('span', `  (plan: ${given[register]})`, 'remark'));
    return found;
  }));
}

// What a process that waits for a message accepts: `waiting W C R R R R AT BOUND`.
function accepted([what, , count, ...words]) {
  if (what !== 'waiting') return '';
  const caps = words.slice(0, count).map(register => `c${register}`).join(', '), [at, bound] = words.slice(4);
  return `accepts ${Number(count) ? `a capability into ${caps}` : 'no capability'}, and `
    + (Number(bound) ? `a string of at most ${grouped(Number(bound))} bytes at ${at}` : 'no string');
}

// The content of a process's card.
function fill(card, process, [, space, schedule, handler, ...state]) {
  if (accepted(state)) card.append(made('p', accepted(state)));
  card.append(made('h3', 'Space'), list(item('', space, 0, spaceRange)), made('h3', 'Schedule and fault handler'),
    list(item('schedule', schedule, 0, offsetRange), item('handler', handler, 0, offsetRange)));
  if (run.state.held[process] || run.names.given[process]) {
    card.append(made('h3', 'Capability registers'), registersOf(process));
  }
  const memory = run.names.memory[process];
  if (!memory) return;
  const whole = card.appendChild(made('details')), table = made('ul', '', 'place');
  whole.append(made('summary', 'Memory, as the plan gave it'), table);
  table.append(...memory.map(line => made('li', line)));
}

function processCard(process, words, isOpen) {
  const card = made('details', '', 'card'), symbol = symbolAt(process, parseInt(words[0], 16));
  const stands = run.standing[process] || words.slice(4).join(' ');
  const title = `${called('process', process)}: ${stands}`
    + (stands.includes('; at ') ? '' : `; pc ${words[0]}${symbol && ` ${symbol}`}`);
  card.append(made('summary', title));
  card.addEventListener('toggle', () => card.children.length === 1 && fill(card, process, words));
  card.open = isOpen;
  return card;
}

// The endpoints that have a recipient, or a name.
function endpointRow([number, [recipient, id, payload, flag]]) {
  const row = made('tr'), cells = [called('endpoint', Number(number)), recipient === 'null' ? 'no recipient'
    : `received by ${said(parsed(recipient))}`, `id ${id}`,
    flag === 'match' ? `payload ${payload} alone` : 'any payload'];
  row.append(...cells.map(cell => made('td', cell)));
  return row;
}
