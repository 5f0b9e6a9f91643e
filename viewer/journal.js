// Reads what `step` or `run` printed: entries, statements, requests, kills and waits.

const EVENTS = new Set([
  'begin', 'queued', 'refused', 'served', 'taken', 'spent', 'withdrawn', 'kill_sent',
  'waited', 'wait_spent', 'end', 'gone', 'close',
]);

const LIMITS = new Set(['RowLimit', 'TooManyRows', 'TimedOut', 'WaitSpent', 'OutOfMemory']);

const isCount = (value) => Number.isInteger(value) && value >= 1;

// A number of more digits than a JavaScript number holds, as it is written.
class LongNumber {
  constructor(digits) {
    this.digits = digits;
  }

  toString() {
    return this.digits;
  }
}

const LONG = 'a long number';

// The value of a line of JSON, in which long numbers keep all their digits.
function parseExactly(raw) {
  const kept = raw.replace(/"(?:[^"\\]|\\.)*"|-?\d{16,}/g, (part) =>
    part.startsWith('"') ? part : `{"${LONG}":"${part}"}`);
  return JSON.parse(kept, (_, value) =>
    value !== null && typeof value === 'object' && LONG in value ? new LongNumber(value[LONG]) : value);
}

// What one line is, or why it is none of a journal.
function lineOf(raw) {
  let data;
  try {
    data = parseExactly(raw);
  } catch {
    return { kind: 'none', why: 'is no line of JSON' };
  }
  if (data === null || typeof data !== 'object' || Array.isArray(data)) {
    return { kind: 'none', why: 'is no object' };
  }
  if (data.done === true) return { kind: 'done' };
  if (Array.isArray(data.row)) return { kind: 'row', data };
  if (typeof data.fault === 'string') return { kind: 'fault', data };
  const hasPlace = [data.actor, data.desk, data.seq, data.turn].every(isCount);
  if (!hasPlace || !EVENTS.has(data.event)) return { kind: 'none', why: 'is no line of a journal' };
  return { kind: 'entry', data };
}

function entryOf(data, raw, line) {
  return { line, raw, data, rows: [], actor: data.actor, desk: data.desk, event: data.event };
}

const expectedRows = (entry) =>
  entry?.data.outcome?.kind === 'rows' ? Number(entry.data.outcome.count) || 0 : 0;

// All lines up to the first that is none of a journal. `problem` says what is wrong, and where.
function readLines(text) {
  const lines = text.split('\n');
  if (lines[lines.length - 1] === '') lines.pop();
  const read = { entries: [], fault: null, problem: null, isDone: false, lines: lines.length };
  for (const [index, raw] of lines.entries()) {
    const number = index + 1;
    if (read.isDone || read.fault) {
      read.problem = { line: number, why: 'stands behind the last line of a journal' };
      return read;
    }
    const why = takeLine(read, lineOf(raw), raw, number);
    if (why) {
      read.problem = { line: number, why };
      return read;
    }
  }
  if (lines.length === 0) {
    read.problem = { line: 0, why: 'is all there is: the file is empty' };
  } else if (!read.isDone && !read.fault) {
    read.problem = { line: lines.length, why: 'is the last one there: the journal is cut short' };
  }
  return read;
}

// Takes one line; gives why it can't be.
function takeLine(read, line, raw, number) {
  const last = read.entries[read.entries.length - 1];
  const isOwed = last !== undefined && last.rows.length < expectedRows(last);
  switch (line.kind) {
    case 'row':
      if (!isOwed) return 'is a row that belongs to no statement';
      last.rows.push(line.data.row);
      return null;
    case 'entry':
      if (isOwed) return 'stands where a row has to';
      read.entries.push(entryOf(line.data, raw, number));
      return null;
    case 'done':
      if (isOwed) return 'stands where a row has to';
      read.isDone = true;
      return null;
    case 'fault':
      if (read.entries.length > 0) return 'tells a fault in the midst of a journal';
      read.fault = line.data;
      return null;
    default:
      return line.why;
  }
}

// How a statement ended, as the bars tell it.
function endingOf(end) {
  if (!end) return 'open';
  const outcome = end.data.outcome ?? {};
  if (outcome.kind === 'rows') return 'rows';
  if (['plan', 'analyzed', 'shown', 'trace'].includes(outcome.kind)) return 'shown';
  if (outcome.kind !== 'refused') return 'done';
  if (outcome.why === 'Interrupted') return 'interrupted';
  return LIMITS.has(outcome.why) ? 'limit' : 'refused';
}

const stepsOf = (entry) => Number(entry.data.steps ?? entry.data.report?.steps ?? entry.data.at);

// Goes through the entries of one desk in their order.
class Desk {
  constructor(model) {
    this.model = model;
    this.open = null;
    this.last = null;
    this.requests = new Map();
  }

  take(entry) {
    const act = this[entry.event];
    if (act) act.call(this, entry);
  }

  begin(entry) {
    this.open = {
      desk: entry.desk, number: entry.data.statement, text: String(entry.data.text ?? ''),
      begin: entry, end: null, served: [], progress: [], ending: 'open',
    };
    this.last = this.open;
    this.model.statements.push(this.open);
  }

  end(entry) {
    if (!this.open) return;
    this.open.end = entry;
    this.open.ending = endingOf(entry);
    this.open = null;
  }

  queued(entry) {
    const request = { queued: entry, served: null, closed: null };
    this.requests.set(entry.actor, request);
    this.model.requests.push(request);
    this.note(entry);
  }

  served(entry) {
    const request = this.requests.get(entry.data.asker);
    if (request) request.served = entry;
    this.open?.served.push(entry);
    this.note(entry);
  }

  closeRequest(entry) {
    const request = this.requests.get(entry.actor);
    if (request) request.closed = entry;
    this.requests.delete(entry.actor);
  }

  taken(entry) { this.closeRequest(entry); }
  spent(entry) { this.closeRequest(entry); }
  withdrawn(entry) { this.closeRequest(entry); }

  kill_sent(entry) { this.model.kills.push({ sent: entry, hit: this.open }); }
  refused(entry) { this.model.refusals.push({ entry }); }

  waited(entry) {
    this.model.waits.push({ entry, on: this.open ?? this.last });
    this.note(entry);
  }

  wait_spent(entry) {
    this.waited(entry);
  }

  // What the journal shows of the steps that were published.
  note(entry) {
    const steps = stepsOf(entry);
    if (this.open && Number.isFinite(steps)) this.open.progress.push({ entry, steps });
  }
}

// The whole picture of a journal.
function readJournal(text) {
  const read = readLines(text);
  const model = { ...read, statements: [], requests: [], kills: [], refusals: [], waits: [] };
  const desks = new Map();
  for (const entry of read.entries) {
    if (!desks.has(entry.desk)) desks.set(entry.desk, new Desk(model));
    desks.get(entry.desk).take(entry);
  }
  const sessions = new Set(read.entries.flatMap((entry) => [entry.actor, entry.desk]));
  model.sessions = [...sessions].sort((one, other) => one - other);
  return model;
}
