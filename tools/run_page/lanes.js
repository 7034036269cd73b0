// The lanes: what ran on each hart, and the marks of each process, for a part of the run that can be moved and scaled.
const HIGH = 34, MIDDLE = 14, GAP = 10, MOST_WIDE = 40, BOX = 22;
const LABEL_FONT = '12px sans-serif', LEAST_LEFT = 110, LETTERS_OF_LABEL = 44;
const HUES = [210, 30, 120, 280, 0, 180, 60, 320];
const box = document.getElementById('lanes'), canvas = document.getElementById('drawing');
const pen = canvas.getContext('2d');
const view = {from: 0, scale: 1, chosen: -1, clustered: 0};

const hartLabel = hart => hart === run.unknown ? 'hart not known' : `hart ${hart}`;
const laneLabel = process => process === NOBODY ? 'destructions'
  : nameOf('process', process) ? `${process} ${nameOf('process', process)}` : `process ${process}`;
const allLabels = [...Array(run.lanes).keys()].map(hartLabel).concat(laneOwners.map(laneLabel));

// The column of labels is as wide as the longest, and at most as a number and 40 letters, or as a third of the window.
const LEFT = (() => {
  pen.font = LABEL_FONT;
  const most = Math.min(pen.measureText('n'.repeat(LETTERS_OF_LABEL)).width + 16, box.clientWidth / 3);
  return Math.ceil(Math.min(most, Math.max(LEAST_LEFT, ...allLabels.map(label => pen.measureText(label).width + 16))));
})();

// The colors of the page, which are those of its style sheet.
const color = name => getComputedStyle(document.documentElement).getPropertyValue(`--${name}`);
let paint = {};
function takeColors() {
  for (const name of ['ground', 'ink', 'line', 'chosen', 'loop', 'on-mark', ...KINDS]) paint[name] = color(name);
}

// A label as it fits into its column, with a sign where it is cut.
function fitted(label) {
  const room = LEFT - 12;
  if (pen.measureText(label).width <= room) return label;
  let letters = label.length;
  while (letters > 1 && pen.measureText(`${label.slice(0, letters)}…`).width > room) letters--;
  return `${label.slice(0, letters)}…`;
}

const colorOf = process => `hsl(${HUES[process % 8]},55%,${process % 16 < 8 ? 70 : 50}%)`;
const wide = () => canvas.clientWidth - LEFT - 30;
const least = () => wide() / Math.max(1, run.count);
const xOf = at => LEFT + (at - view.from) * view.scale;
const atOf = x => view.from + (x - LEFT) / view.scale;
const hartTop = hart => 8 + hart * HIGH - box.scrollTop;
const laneTop = lane => 8 + run.lanes * HIGH + GAP + lane * HIGH - box.scrollTop;
const clusterX = i => xOf(marks.at[clusters.first[i]]) + (clusters.size[i] > 1 ? BOX / 2 : 0);
const isSeen = top => top > -HIGH && top < canvas.clientHeight;

// A number in at most four letters.
function short(number) {
  if (number < 1000) return String(number);
  return number < 1e6 ? `${Math.floor(number / 1e3)}k` : `${Math.floor(number / 1e6)}M`;
}

function drawLabels() {
  pen.fillStyle = paint.ground;
  pen.fillRect(0, 0, LEFT - 6, canvas.clientHeight);
  pen.fillStyle = paint.ink;
  pen.font = LABEL_FONT;
  pen.textAlign = 'left';
  for (let hart = 0; hart < run.lanes; hart++) pen.fillText(fitted(hartLabel(hart)), 4, hartTop(hart) + 19);
  for (const [lane, process] of laneOwners.entries()) {
    if (isSeen(laneTop(lane))) pen.fillText(fitted(laneLabel(process)), 4, laneTop(lane) + 19);
  }
}

// The line of each process.
function drawLines() {
  for (const [lane, process] of laneOwners.entries()) {
    if (!isSeen(laneTop(lane))) continue;
    pen.fillStyle = process === NOBODY ? paint.line : colorOf(process);
    pen.fillRect(Math.max(LEFT, xOf(0)), laneTop(lane) + MIDDLE - 1, Math.min(wide(), run.count * view.scale), 3);
  }
}

// The shares of the processes in thin stretches that fall together.
function drawShares(x, y, shares) {
  let whole = 0, top = y + 2;
  for (const records of shares.values()) whole += records;
  for (const [process, records] of [...shares].sort((one, two) => one[0] - two[0])) {
    pen.fillStyle = colorOf(process);
    pen.fillRect(x, top, THIN, 24 * records / whole);
    top += 24 * records / whole;
  }
}

// Strokes over what ran on a hart that isn't known.
function drawHatching(x, y, width) {
  pen.save();
  pen.beginPath();
  pen.rect(x, y, width, 24);
  pen.clip();
  pen.strokeStyle = paint.ground;
  pen.lineWidth = 2;
  pen.beginPath();
  for (let at = x - x % 9 - 27; at < x + width; at += 9) {
    pen.moveTo(at, y + 24);
    pen.lineTo(at + 24, y);
  }
  pen.stroke();
  pen.restore();
}

// What ran on a hart, as far as one sees.
function drawHart(hart) {
  const {process, first, behind} = stretches[hart], y = hartTop(hart), last = atOf(LEFT + wide());
  let cell = -1, shares = new Map();
  for (let i = firstFrom(behind, view.from); i < first.length && first[i] < last; i++) {
    const x = Math.max(LEFT, xOf(first[i])), width = xOf(behind[i]) - x, here = Math.floor((x - LEFT) / THIN);
    if (shares.size && (here !== cell || width >= THIN)) {
      drawShares(LEFT + cell * THIN, y, shares);
      shares = new Map();
    }
    cell = here;
    if (width < THIN) {
      shares.set(process[i], (shares.get(process[i]) || 0) + behind[i] - first[i]);
      continue;
    }
    const seen = Math.min(width, LEFT + wide() - x);
    pen.fillStyle = colorOf(process[i]);
    pen.fillRect(x, y + 2, seen, 24);
    if (hart === run.unknown) drawHatching(x, y + 2, seen);
    pen.fillStyle = '#222';
    if (width > 16) pen.fillText(String(process[i]), x + 3, y + 19, width - 4);
  }
  if (shares.size) drawShares(LEFT + cell * THIN, y, shares);
}

// An arrow from a mark down or up to who hears of it.
function drawArrow(i, kind, to) {
  const x = clusterX(i), from = laneTop(clusters.lane[i]) + MIDDLE, end = laneTop(to) + MIDDLE;
  if (from === end || !isSeen(laneTop(to)) && !isSeen(laneTop(clusters.lane[i]))) return;
  const back = end > from ? -9 : 9;
  pen.strokeStyle = pen.fillStyle = paint[KINDS[kind]];
  pen.lineWidth = 1.5;
  pen.beginPath();
  pen.moveTo(x, from);
  pen.lineTo(x, end + back);
  pen.stroke();
  pen.beginPath();
  pen.moveTo(x, end);
  pen.lineTo(x - 4, end + back);
  pen.lineTo(x + 4, end + back);
  pen.fill();
}

// A mark, or the number of those that fall together, in the color of the weightiest kind among them.
function drawCluster(i) {
  const x = clusterX(i), y = laneTop(clusters.lane[i]) + MIDDLE, kinds = clusters.kinds[i];
  if (!isSeen(y)) return;
  pen.fillStyle = paint[KINDS[31 - Math.clz32(kinds & -kinds)]];
  pen.beginPath();
  if (clusters.size[i] > 1) {
    pen.roundRect(x - BOX / 2, y - 7, BOX, 15, 4);
    pen.fill();
    pen.fillStyle = paint['on-mark'];
    pen.font = '10px sans-serif';
    pen.textAlign = 'center';
    pen.fillText(short(clusters.size[i]), x, y + 4, BOX - 2);
  } else {
    if (kinds === 1 << MESSAGE) pen.arc(x, y, 5, 0, 7); else pen.rect(x - 5, y - 5, 10, 10);
    pen.fill();
  }
}

function drawChosen() {
  if (view.chosen < 0) return;
  pen.fillStyle = paint.chosen;
  pen.fillRect(xOf(view.chosen) - 0.5, 0, 1.5, canvas.clientHeight);
}

// Where the loop of an answer begins: all behind it can come again and again.
function drawLoop() {
  if (run.loop === null || !run.stepCount) return;
  const x = xOf(recordFrom(run.loop));
  pen.fillStyle = paint.loop;
  pen.fillRect(x - 1, 0, 2, canvas.clientHeight);
  pen.textAlign = 'left';
  pen.font = LABEL_FONT;
  pen.fillText('the loop begins', x + 4, 12);
}

function draw() {
  const ratio = window.devicePixelRatio || 1;
  canvas.width = canvas.clientWidth * ratio;
  canvas.height = canvas.clientHeight * ratio;
  pen.setTransform(ratio, 0, 0, ratio, 0, 0);
  if (view.clustered !== view.scale) cluster(NEAR / view.scale);
  view.clustered = view.scale;
  drawLines();
  pen.font = LABEL_FONT;
  pen.textAlign = 'left';
  for (let hart = 0; hart < run.lanes; hart++) if (isSeen(hartTop(hart))) drawHart(hart);
  const from = clusterFrom(view.from - NEAR / view.scale), last = atOf(LEFT + wide() + NEAR);
  const isNear = i => i < clusters.count && marks.at[clusters.first[i]] <= last;
  for (let i = firstFrom(arrows.cluster, from, arrows.count); i < arrows.count && isNear(arrows.cluster[i]); i++) {
    drawArrow(arrows.cluster[i], arrows.kind[i], arrows.to[i]);
  }
  for (let i = from; isNear(i); i++) drawCluster(i);
  drawLoop();
  drawChosen();
  drawLabels();
  tellSeen();
}

// Which part of the run one sees.
function tellSeen() {
  const first = Math.floor(view.from), last = Math.min(run.count, Math.ceil(atOf(LEFT + wide())));
  const from = eventAt(first), to = eventAt(last - 1);
  document.getElementById('seen').textContent = (from < 0 || to < 0 ? '' : `events ${grouped(from)} to ${grouped(to)}, `)
    + `records ${grouped(first + 1)} to ${grouped(last)}`;
  const room = run.count - wide() / view.scale;
  document.getElementById('place').value = room > 0 ? 10000 * view.from / room : 0;
}

// Moves and scales what one sees, within the run.
function look(from, scale) {
  view.scale = Math.min(MOST_WIDE, Math.max(least(), scale));
  view.from = Math.max(0, Math.min(from, run.count - wide() / view.scale));
  window.requestAnimationFrame(draw);
}

// Scales around what is chosen, which is brought into sight, or around the middle if nothing is.
function scaleAtChosen(times) {
  const x = view.chosen < 0 ? LEFT + wide() / 2 : xOf(view.chosen);
  if (x < LEFT || x > LEFT + wide()) look(view.chosen - wide() / view.scale / 2, view.scale);
  scaleAt(view.chosen < 0 ? x : xOf(view.chosen), times);
}

// Scales around a place of the canvas.
const scaleAt = (x, times) => {
  const at = atOf(x), scale = Math.min(MOST_WIDE, Math.max(least(), view.scale * times));
  look(at - (x - LEFT) / scale, scale);
};
