// The log as lines, each with the record where it begins, its process, and where its digits stand in the text. The pieces
// of a process that writes line feeds are put together to lines; of any other each piece is a line.
const logLines = (() => {
  const found = {count: 0, at: [], process: [], from: [], to: [], more: new Map()}, open = new Map();
  const ends = i => [text.lastIndexOf(' ', starts[marks.at[i] + 1] - 1) + 1, starts[marks.at[i] + 1] - 1];

  // Where the digits of a line feed stand, or -1.
  function feed(digits, from) {
    let at = digits.indexOf('0a', from);
    while (at >= 0 && at % 2) at = digits.indexOf('0a', at + 1);
    return at;
  }

  // A new line, or more of the one that goes on.
  function add(i, from, to) {
    const process = marks.from[i], line = open.get(process);
    if (line !== undefined) {
      found.more.set(line, [...found.more.get(line) || [], [from, to]]);
      return line;
    }
    found.at.push(marks.at[i]);
    found.process.push(process);
    found.from.push(from);
    found.to.push(to);
    return found.count++;
  }

  const endsLines = new Set();
  for (let i = 0; i < marks.count; i++) {
    if (marks.kind[i] !== LOG || endsLines.has(marks.from[i])) continue;
    if (feed(text.slice(...ends(i)), 0) >= 0) endsLines.add(marks.from[i]);
  }
  for (let i = 0; i < marks.count; i++) {
    if (marks.kind[i] !== LOG) continue;
    const [from, to] = ends(i), process = marks.from[i];
    if (!endsLines.has(process)) {
      add(i, from, to);
      continue;
    }
    const digits = text.slice(from, to);
    let begin = 0;
    for (let end = feed(digits, 0); end >= 0; end = feed(digits, begin)) {
      add(i, from + begin, from + end);
      open.delete(process);
      begin = end + 2;
    }
    if (begin < digits.length) open.set(process, add(i, from + begin, to));
  }
  return found;
})();

// The text of a line of the log.
const logText = line => [[logLines.from[line], logLines.to[line]], ...logLines.more.get(line) || []]
  .map(([from, to]) => logged(text.slice(from, to))).join('');
