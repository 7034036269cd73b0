// The parts of the page put together.
const RECORDS = ['record', 'records'];
const tip = document.getElementById('tip');
const eventOf = at => eventAt(at) < 0 ? '' : `event ${eventAt(at)}, `;
const numbered = at => (run.stepCount ? String(eventAt(at) < 0 ? '?' : eventAt(at)).padStart(8) : '') + String(at + 1).padStart(9);
const lines = new Rows(document.getElementById('lines'), run.count,
  at => [`${numbered(at)}  ${lineAt(at)}`, remarkOf(lineAt(at))], at => choose(at));
const log = new Rows(document.getElementById('log'), logLines.count,
  at => [`${processNamed(logLines.process[at])}: ${logText(at)}`, ''], at => choose(logLines.at[at]));

// Marks a record in the list and in the lanes, and brings it into sight.
function choose(at) {
  view.chosen = at;
  lines.mark(at);
  const line = firstFrom(logLines.at, at + 1) - 1;
  log.mark(line);
  document.getElementById('wholeRecord').textContent =
    `${eventOf(at)}record ${at + 1}: ${lineAt(at)}\n${remarkOf(lineAt(at))}`;
  document.getElementById('wholeLog').textContent = line < 0 ? '' : `${processNamed(logLines.process[line])}: ${logText(line)}`;
  const isOut = at < view.from || at > atOf(LEFT + wide());
  look(isOut ? at - wide() / view.scale / 2 : view.from, view.scale);
}

// The process of which a record is, if it is of one.
const processAt = at => text.startsWith('destroy', starts[at]) ? NOBODY
  : numberAt(text.indexOf(' ', starts[at]) + 1);

// The record of this process that is nearest to a place, from the first on and before the last.
function nearest(at, process, first, behind) {
  for (let away = 0; at - away >= first || at + away < behind; away++) {
    if (at - away >= first && at - away < behind && processAt(at - away) === process) return at - away;
    if (at + away >= first && at + away < behind && processAt(at + away) === process) return at + away;
  }
  return first;
}

// What stands at a place of the lanes of harts.
function foundRun(hart, at) {
  const {process, first, behind} = stretches[hart], i = firstFrom(behind, at + 1);
  if (i === first.length || first[i] > at) return null;
  return {at: nearest(at, process[i], first[i], behind[i]),
    told: `${hartLabel(hart)}: ${processNamed(process[i])}, ${count(behind[i] - first[i], RECORDS)} `
      + `from ${eventOf(first[i])}record ${grouped(first[i] + 1)} on`};
}

// The whole label of a lane, where a part of it is cut off.
function foundLabel(lane, hart) {
  const label = hart >= 0 && hart < run.lanes ? hartLabel(hart) : lane in laneOwners ? laneLabel(laneOwners[lane]) : '';
  pen.font = LABEL_FONT;
  return label && fitted(label) !== label ? {told: label} : null;
}

// What stands at a place of the canvas: a record to go to, and words about it.
function found(x, y) {
  const lane = Math.floor((y - laneTop(0)) / HIGH), hart = Math.floor((y - hartTop(0)) / HIGH);
  const at = Math.floor(atOf(x));
  if (x < LEFT) return foundLabel(lane, hart);
  if (at < 0 || at >= run.count) return null;
  if (hart >= 0 && hart < run.lanes) return foundRun(hart, at);
  let best = -1, distance = 13;
  for (let i = clusterFrom(at - 40 / view.scale - NEAR / view.scale); i < clusters.count; i++) {
    const away = Math.abs(clusterX(i) - x);
    if (marks.at[clusters.first[i]] > at + 40 / view.scale) break;
    if (clusters.lane[i] === lane && away < distance) [best, distance] = [i, away];
  }
  if (best < 0) return null;
  const first = marks.at[clusters.first[best]], last = marks.at[clusters.last[best]];
  if (clusters.size[best] === 1) return {at: first, told: `${eventOf(first)}record ${first + 1}: ${lineAt(first)}\n${remarkOf(lineAt(first))}`};
  return {at: nearestMark(best, at), told: `${kindsOf(best)}: records ${first + 1} to ${last + 1}`};
}

// The mark among those that fall together that is nearest to a place.
function nearestMark(i, at) {
  let best = clusters.first[i];
  for (let j = best; j <= clusters.last[i]; j++) {
    if (fromLanes[j] === clusters.lane[i] && Math.abs(marks.at[j] - at) < Math.abs(marks.at[best] - at)) best = j;
  }
  return marks.at[best];
}

function point(event) {
  const what = found(event.offsetX, event.offsetY);
  tip.style.display = what ? 'block' : 'none';
  if (!what) return;
  tip.textContent = what.told;
  tip.style.left = `${Math.min(event.clientX + 12, window.innerWidth - tip.offsetWidth - 12)}px`;
  tip.style.top = `${event.clientY + 16}px`;
}

// The wheel scales; over the labels, or with the shift key, it goes up and down where there are more lanes than fit.
function wheel(event) {
  if (box.scrollHeight > box.clientHeight && (event.shiftKey || event.offsetX < LEFT)) return;
  event.preventDefault();
  if (event.deltaX) look(view.from + event.deltaX / view.scale, view.scale);
  else scaleAt(event.offsetX, event.deltaY < 0 ? 1.25 : 0.8);
}

// Goes to what is looked for: the first record of an event, a record by its number, or the next or previous one that has
// this text.
function seek(sought, isBack = false) {
  const number = sought.match(/^(record |event )?(\d+)$/), isRecord = number && number[1] === 'record ' || !run.stepCount;
  if (number && seekNumber(Number(number[2]), isRecord)) return tellSought('');
  const place = isBack ? placeBefore(sought) : placeBehind(sought);
  if (sought && place >= 0) choose(recordAt(place));
  tellSought(!sought || place >= 0 ? '' : number ? `there is no ${isRecord ? 'record' : 'event'} ${number[2]}, and no record has it`
    : 'no record has this text');
}

// Whether there is such a record, or such an event; it is chosen.
function seekNumber(number, isRecord) {
  const at = isRecord ? number - 1 : recordFrom(number);
  if (at < 0 || at >= run.count || !isRecord && eventAt(at) < number) return false;
  choose(at);
  return true;
}

function placeBehind(sought) {
  const place = text.indexOf(sought, view.chosen < 0 ? 0 : starts[view.chosen + 1]);
  return place < 0 ? text.indexOf(sought) : place;
}

function placeBefore(sought) {
  const place = view.chosen > 0 ? text.lastIndexOf(sought, starts[view.chosen] - 1) : -1;
  return place < 0 ? text.lastIndexOf(sought) : place;
}

// Goes to the mark behind or before what is chosen.
function chooseMark(step) {
  const i = step > 0 ? firstFrom(marks.at, view.chosen + 1) : firstFrom(marks.at, view.chosen) - 1;
  if (i >= 0 && i < marks.count) choose(marks.at[i]);
}

// What keys do in the lanes.
const KEYS = {
  ArrowLeft: () => look(view.from - wide() / view.scale / 10, view.scale),
  ArrowRight: () => look(view.from + wide() / view.scale / 10, view.scale),
  PageUp: () => look(view.from - wide() / view.scale, view.scale),
  PageDown: () => look(view.from + wide() / view.scale, view.scale),
  Home: () => look(0, view.scale), End: () => look(run.count, view.scale), '+': () => scaleAtChosen(2),
  '-': () => scaleAtChosen(0.5), 0: () => look(0, 0), n: () => chooseMark(1), p: () => chooseMark(-1)};

function press(event) {
  if (!(event.key in KEYS) || event.ctrlKey || event.metaKey) return;
  event.preventDefault();
  KEYS[event.key]();
}

// Dark or light, as the system has it until somebody says otherwise.
function setTheme(name) {
  document.documentElement.dataset.theme = name;
  document.getElementById('theme').textContent = name === 'dark' ? 'light' : 'dark';
  takeColors();
  document.querySelectorAll('#key i').forEach((dot, i) => dot.style.background = paint[dot.dataset.kind]);
  window.requestAnimationFrame(draw);
}

function listenForTheme() {
  const wish = window.matchMedia('(prefers-color-scheme: dark)');
  setTheme(wish.matches ? 'dark' : 'light');
  wish.addEventListener('change', () => setTheme(wish.matches ? 'dark' : 'light'));
  document.getElementById('theme').onclick = () =>
    setTheme(document.documentElement.dataset.theme === 'dark' ? 'light' : 'dark');
}

// What the atoms of an answer's line are, and when that changed; a click goes there.
function showValues() {
  if (!run.values.length) return;
  const table = document.getElementById('values').appendChild(made('table')), head = table.appendChild(made('tr'));
  head.append(...['before event', ...run.columns].map(name => made('th', name)));
  for (const [event, ...values] of run.values) {
    const row = table.appendChild(made('tr'));
    row.dataset.event = event;
    row.append(...[String(event), ...values].map(value => made('td', value)));
    row.onclick = () => run.stepCount && choose(recordFrom(event));
  }
}

const tellSought = told => document.getElementById('vain').textContent = told;

// Makes the canvas as high as its lanes, or as the part of the window that it may take; the rest is scrolled to.
function fit() {
  const high = 16 + run.lanes * HIGH + GAP + laneOwners.length * HIGH;
  canvas.style.height = `${Math.min(high, 0.6 * window.innerHeight)}px`;
  document.getElementById('height').style.height = `${Math.max(0, high - canvas.clientHeight)}px`;
}

function listen() {
  canvas.onmousemove = point;
  canvas.onmouseleave = () => tip.style.display = 'none';
  canvas.onclick = event => {
    const what = found(event.offsetX, event.offsetY);
    if (what && 'at' in what) choose(what.at);
  };
  canvas.ondblclick = event => scaleAt(event.offsetX, 8);
  canvas.addEventListener('wheel', wheel, {passive: false});
  box.onscroll = () => window.requestAnimationFrame(draw);
  window.onresize = () => {
    fit();
    look(view.from, view.scale);
  };
  document.getElementById('whole').onclick = () => look(0, 0);
  document.getElementById('nearer').onclick = () => scaleAtChosen(2);
  document.getElementById('farther').onclick = () => scaleAtChosen(0.5);
  document.getElementById('place').oninput = event =>
    look(event.target.value / 10000 * (run.count - wide() / view.scale), view.scale);
  const sought = document.getElementById('sought');
  sought.onkeydown = event => event.key === 'Enter' && seek(event.target.value.trim(), event.shiftKey);
  document.getElementById('next').onclick = () => seek(sought.value.trim());
  document.getElementById('previous').onclick = () => seek(sought.value.trim(), true);
  box.onkeydown = press;
  document.onkeydown = event => {
    if (event.key !== '/' || event.target === sought) return;
    event.preventDefault();
    sought.focus();
  };
}

function begin() {
  document.getElementById('title').textContent =
    `A run: ${count(run.count, RECORDS)}, ${grouped(marks.count)} of them marked`;
  const seen = KINDS.filter((kind, i) => i < END || marks.kind.includes(i));
  document.getElementById('key').append(...seen.map(kind => {
    const part = made('span'), dot = part.appendChild(made('i'));
    dot.dataset.kind = kind;
    part.append(` ${WORDS[KINDS.indexOf(kind)][0]}`);
    return part;
  }), made('span', !run.lanes ? 'no lanes of harts: they need what trace writes'
    : run.unknown === null ? '' : 'on which hart it ran is not known where the lane says so', 'remark'));
  document.getElementById('answer').textContent = run.answer;
  document.getElementById('numbers').textContent = run.stepCount ? '(in front: event, record)' : '';
  if (run.refusal) document.getElementById('refusal').textContent = `The run ended where a line was refused: ${run.refusal}`;
  const cards = Object.entries(run.state.processes);
  document.getElementById('processes').append(
    ...cards.map(([number, words], i) => processCard(Number(number), words, i < 12)));
  const table = document.getElementById('endpoints').appendChild(made('table'));
  table.append(...Object.entries(run.state.endpoints).map(endpointRow));
  showValues();
  listen();
  listenForTheme();
  fit();
  look(0, 0);
  if (marks.count) choose(marks.at[0]);
}

begin();
