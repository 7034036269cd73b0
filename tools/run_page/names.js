// What things are called: names of the plan, functions at addresses, and the words beside a record.
const grouped = number => number.toLocaleString('en');
const count = (number, [one, several]) => `${grouped(number)} ${number === 1 ? one : several}`;
const hex = (number, digits = 8) => number.toString(16).padStart(digits, '0');

// Names are given for runs of objects: those of `pages` of a plan have a number behind the name.
function nameOf(kind, number) {
  for (const [first, last, name] of run.names[kind] || []) {
    if (number < first || number > last) continue;
    return first === last || name.includes(' ') ? name : `${name}.${number - first}`;
  }
  return '';
}

function called(kind, number) {
  const name = nameOf(kind, number);
  return `${kind === 'gpt' ? 'GPT' : kind === 'cappage' ? 'capability page' : kind} ${number}${name && ` (${name})`}`;
}

const processNamed = number => nameOf('process', number) || `process ${number}`;

// The function or datum at an address of a process's program, if it is known.
function symbolAt(process, address) {
  const symbols = run.symbols[process];
  if (!symbols) return '';
  let low = -1, high = symbols.length - 1;
  while (low < high) {
    const middle = (low + high + 1) >> 1;
    if (symbols[middle][0] <= address) low = middle; else high = middle - 1;
  }
  if (low < 0) return '';
  const [start, size, name] = symbols[low], past = address - start;
  if (past >= Math.max(size, 1) && (size || low === symbols.length - 1)) return '';
  return past ? `${name}+${past.toString(16)}` : name;
}

// Each byte as text; what isn't printed stands as its number.
const LETTERS = Array.from({length: 256}, (_, byte) =>
  byte === 10 || byte >= 32 && byte < 127 ? String.fromCharCode(byte) : `\\x${hex(byte, 2)}`);

// The bytes of a piece of the log as text.
function logged(digits) {
  const value = at => digits.charCodeAt(at) - (digits.charCodeAt(at) < 58 ? 48 : 87);
  let told = '';
  for (let at = 0; at + 1 < digits.length; at += 2) told += LETTERS[value(at) << 4 | value(at + 1)];
  return told;
}

// The line of a source at an address, with its text, if it is known.
function sourceAt(process, address) {
  const place = (run.sources.places[process] || {})[address];
  return place ? `${place}  ${run.sources.texts[place] || ''}`.trimEnd() : '';
}

// That an address is a little below the stack of a program, in words.
function belowStack(process, address) {
  for (const line of run.names.memory[process] || []) {
    const found = line.match(/^([0-9a-f]{8}) to ([0-9a-f]{8}) \S+ stack$/);
    const away = found ? parseInt(found[1], 16) - address : 0;
    if (away > 0 && away <= 65536) return `${grouped(away)} ${away === 1 ? 'byte' : 'bytes'} below its stack`;
  }
  return '';
}

// What a record doesn't say itself: names, functions, and the text of the log.
function remarkOf(line) {
  const words = line.split(' '), process = Number(words[1]);
  switch (words[0]) {
    case 'msg': {
      const endpoint = Number(words[3].slice('endpoint='.length));
      return `${processNamed(process)} to ${processNamed(Number(words[2]))}, ${called('endpoint', endpoint)}`;
    }
    case 'log': return `${processNamed(process)}: "${logged(words[2]).replaceAll('\n', '\\n')}"`;
    case 'destroy': return nameOf(words[1], Number(words[2]));
    case 'halt': return processNamed(process);
  }
  const address = words[0] === 'fault' ? words[3] : words[2], place = parseInt(address, 16);
  const parts = [processNamed(process), symbolAt(process, place)];
  if (words[0] === 'fault') parts.push(belowStack(process, place));
  if (words[0] === 'insn') parts.push(sourceAt(process, place));
  if (words[0] === 'fault' && words[4] === 'to') parts.push(`to ${processNamed(Number(words[5]))}`);
  if (words[3] === 'page' || words[3] === 'cappage') parts.push(nameOf(words[3], Number(words[4])));
  return parts.filter(part => part).join(', ');
}
