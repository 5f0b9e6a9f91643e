// Where each entry stands from left to right. Two orders are known: that of the entries of one desk, which is
// the order of their lines, and that of the entries of one session, which is its own numbers. An entry stands
// behind whatever comes before it in either.

function linked(entries, keyOf) {
  const last = new Map();
  const before = new Map();
  for (const entry of entries) {
    const key = keyOf(entry);
    if (last.has(key)) before.set(entry, last.get(key));
    last.set(key, entry);
  }
  return before;
}

function placeEntries(entries) {
  const ofDesk = linked(entries, (entry) => entry.desk);
  const bySeq = [...entries].sort((one, other) =>
    one.actor - other.actor || one.data.seq - other.data.seq);
  const ofSession = linked(bySeq, (entry) => entry.actor);
  const after = new Map(entries.map((entry) => [entry, []]));
  const waiting = new Map(entries.map((entry) => [entry, 0]));
  for (const before of [ofDesk, ofSession]) {
    for (const [entry, earlier] of before) {
      after.get(earlier).push(entry);
      waiting.set(entry, waiting.get(entry) + 1);
    }
  }
  return columnsBy(entries, after, waiting);
}

// Each entry one column behind the last of those before it. What only a circle could place, which no journal
// has that the program printed, goes behind all else in the order of the lines.
function columnsBy(entries, after, waiting) {
  const ready = entries.filter((entry) => waiting.get(entry) === 0);
  for (const entry of ready) entry.column = 0;
  let count = 0;
  for (let at = 0; at < ready.length; at += 1) {
    const entry = ready[at];
    count = Math.max(count, entry.column + 1);
    for (const later of after.get(entry)) {
      later.column = Math.max(later.column ?? 0, entry.column + 1);
      waiting.set(later, waiting.get(later) - 1);
      if (waiting.get(later) === 0) ready.push(later);
    }
  }
  for (const entry of entries) {
    if (waiting.get(entry) > 0) entry.column = count++;
  }
  return count;
}
