// Which marks and stretches fall together at a scale: those are drawn as one.
const NEAR = 28, THIN = 6;

// Whose lane each is; the last may be that of destructions of which nobody knows whose they were.
const laneOwners = marks.from.includes(NOBODY) ? [...run.processes, NOBODY] : run.processes;

// The lanes of the two ends of each mark; NOBODY hears in no lane.
const laneNumbers = new Int16Array(Math.max(0, ...run.processes) + 1);
run.processes.forEach((process, lane) => laneNumbers[process] = lane);
const fromLanes = marks.from.map(process => process === NOBODY ? run.processes.length : laneNumbers[process]);
const toLanes = marks.to.map(process => process === NOBODY ? NOBODY : laneNumbers[process]);

// One column for each trait of a cluster: its first and last mark, its lane, how many, and which kinds; and of arrows
// the cluster where each begins, the lane where it ends, and its kind.
const clusters = {count: 0, first: new Uint32Array(marks.count), last: new Uint32Array(marks.count),
  lane: new Int16Array(marks.count), size: new Uint32Array(marks.count), kinds: new Uint8Array(marks.count)};
const arrows = {count: 0, cluster: new Uint32Array(marks.count), to: new Int16Array(marks.count),
  kind: new Uint8Array(marks.count)};

// Puts together the marks of a lane that begin within so many records.
function cluster(reach) {
  const lanes = laneOwners.length, open = new Int32Array(lanes).fill(-1);
  const drawn = new Int32Array(lanes * lanes).fill(-1);
  clusters.count = arrows.count = 0;
  for (let i = 0; i < marks.count; i++) {
    const lane = fromLanes[i], to = toLanes[i];
    let into = open[lane];
    if (into < 0 || marks.at[i] - marks.at[clusters.first[into]] >= reach) {
      into = open[lane] = clusters.count++;
      clusters.first[into] = i;
      clusters.lane[into] = lane;
      clusters.size[into] = clusters.kinds[into] = 0;
    }
    clusters.last[into] = i;
    clusters.size[into]++;
    clusters.kinds[into] |= 1 << marks.kind[i];
    if (to !== NOBODY && drawn[lane * lanes + to] !== into) {
      drawn[lane * lanes + to] = into;
      arrows.cluster[arrows.count] = into;
      arrows.to[arrows.count] = to;
      arrows.kind[arrows.count++] = marks.kind[i];
    }
  }
}

// The first cluster whose first mark stands at this record or behind it.
const clusterFrom = at => firstFrom(clusters.first, firstFrom(marks.at, at), clusters.count);

// How many marks of each kind are in a cluster, in words.
function kindsOf(i) {
  const counts = new Uint32Array(KINDS.length), lane = clusters.lane[i];
  for (let j = clusters.first[i]; j <= clusters.last[i]; j++) if (fromLanes[j] === lane) counts[marks.kind[j]]++;
  return [...counts].map((number, kind) => number && count(number, WORDS[kind])).filter(told => told).join(', ');
}

// What ran on each hart, in columns: the process, the first record, and the one behind the last. A lane behind those of
// the harts has what ran on one that isn't known.
const stretches = Array.from({length: run.lanes}, () => ({process: [], first: [], behind: []}));
for (let i = 0; i < run.stretches.length; i += 4) {
  const [hart, process, first, behind] = run.stretches.slice(i, i + 4), columns = stretches[hart];
  columns.process.push(process);
  columns.first.push(first);
  columns.behind.push(behind);
}
