// Draws the part of the picture that is in sight.

const SVG = 'http://www.w3.org/2000/svg';
const LANE = 92;
const BAR = { top: 22, height: 30 };
const PROGRESS = { top: 58, height: 24 };
const MARKS = { rows: '▤', shown: '◆', done: '●', interrupted: '✕', limit: '◷', refused: '!', open: '…' };

const ENDINGS = {
  rows: 'rows', shown: 'a document', done: 'done', interrupted: 'interrupted',
  limit: 'a limit was met', refused: 'refused', open: 'not ended in this file',
};

function svg(tag, attributes = {}, ...children) {
  const element = document.createElementNS(SVG, tag);
  for (const [name, value] of Object.entries(attributes)) element.setAttribute(name, value);
  element.append(...children);
  return element;
}

class Picture {
  constructor(model, columns) {
    this.model = model;
    this.columns = columns;
    this.width = 90;
    this.hiddenSessions = new Set();
    this.hiddenKinds = new Set();
    this.arrange();
  }

  // Which lane each session has, without those that are filtered out.
  arrange() {
    const shown = this.model.sessions.filter((session) => !this.hiddenSessions.has(session));
    this.lanes = new Map(shown.map((session, index) => [session, index]));
    this.height = Math.max(1, shown.length) * LANE;
  }

  totalWidth() {
    return (this.columns + 1) * this.width;
  }

  x(entry) {
    return (entry.column + 0.5) * this.width;
  }

  middle(session) {
    return this.lanes.get(session) * LANE + BAR.top + BAR.height / 2;
  }

  // The edge of a session's bars that looks towards another's lane.
  edge(session, other) {
    const isBelow = this.lanes.get(other) > this.lanes.get(session);
    return this.lanes.get(session) * LANE + BAR.top + (isBelow ? BAR.height : 0);
  }

  // Where an entry stands: its own session's bars, on the side of the desk that it is at.
  ownPoint(entry) {
    const isHome = entry.actor === entry.desk;
    return { x: this.x(entry), y: isHome ? this.middle(entry.actor) : this.edge(entry.actor, entry.desk) };
  }

  // The same moment at the desk.
  deskPoint(entry, asker, x = this.x(entry)) {
    return { x, y: this.edge(entry.desk, asker) };
  }

  shows(kind, ...sessions) {
    return !this.hiddenKinds.has(kind) && sessions.every((session) => this.lanes.has(session));
  }

  // All that can be seen from `left` to `right`.
  draw(left, right) {
    const inSight = (from, to) => to >= left && from <= right;
    const parts = [this.lines(left, right)];
    for (const statement of this.model.statements) this.drawStatement(statement, inSight, parts);
    for (const wait of this.model.waits) this.drawWait(wait, inSight, parts);
    for (const request of this.model.requests) this.drawRequest(request, inSight, parts);
    for (const kill of this.model.kills) this.drawKill(kill, inSight, parts);
    for (const refusal of this.model.refusals) this.drawRefusal(refusal, inSight, parts);
    for (const entry of this.model.entries) this.drawPoint(entry, inSight, parts);
    return parts;
  }

  lines(left, right) {
    const group = svg('g', { class: 'lines' });
    for (const [session, lane] of this.lanes) {
      const y = this.middle(session);
      group.append(
        svg('rect', { class: lane % 2 ? 'lane odd' : 'lane', x: left, y: lane * LANE, width: right - left, height: LANE }),
        svg('line', { class: 'axis', x1: left, x2: right, y1: y, y2: y }),
      );
    }
    return group;
  }

  drawStatement(statement, inSight, parts) {
    if (!this.shows('statement', statement.desk)) return;
    const from = this.x(statement.begin);
    const to = statement.end ? this.x(statement.end) : this.totalWidth();
    if (!inSight(from, to)) return;
    parts.push(this.bar(statement, from, to), ...this.progress(statement, from, to));
    for (const served of statement.served) parts.push(this.tick(served));
  }

  bar(statement, from, to) {
    const top = this.lanes.get(statement.desk) * LANE + BAR.top;
    const width = Math.max(10, to - from);
    const group = focusable(statement.end ?? statement.begin, `bar ${statement.ending}`, describeStatement(statement));
    const room = Math.floor((width - 12) / 7.4);
    const label = `${MARKS[statement.ending]} ${statement.number}: ${statement.text}`;
    group.append(svg('rect', { x: from, y: top, width, height: BAR.height, rx: 5 }));
    if (room > 2) {
      const cut = label.length > room ? `${label.slice(0, room - 1)}…` : label;
      group.append(svg('text', { x: from + 7, y: top + 20 }, cut));
    }
    return group;
  }

  // How many steps the journal shows to have been published, from 0 to all of the statement's.
  progress(statement, from, to) {
    const ended = statement.end ? [{ entry: statement.end, steps: stepsOf(statement.end) }] : [];
    const points = [...statement.progress, ...ended].filter(({ steps }) => Number.isFinite(steps));
    const most = Math.max(0, ...points.map(({ steps }) => steps));
    if (most === 0) return [];
    const floor = this.lanes.get(statement.desk) * LANE + PROGRESS.top + PROGRESS.height;
    const at = ({ entry, steps }) => `${this.x(entry)},${floor - (steps / most) * PROGRESS.height}`;
    const path = [`${from},${floor}`, ...points.map(at)].join(' ');
    return [
      svg('polyline', { class: 'progress', points: path }),
      svg('text', { class: 'steps', x: Math.min(to, this.totalWidth()) - 2, y: floor + 9 }, `${most} steps`),
    ];
  }

  tick(entry) {
    const group = focusable(entry, 'tick', describeEntry(entry));
    const asker = this.lanes.has(entry.data.asker) ? entry.data.asker : entry.desk;
    group.append(svg('rect', { x: this.x(entry) - 3, y: this.edge(entry.desk, asker) - 6, width: 6, height: 12, rx: 2 }));
    return group;
  }

  arrow(kind, from, to, mark = 'arrow') {
    const bend = Math.max(12, Math.abs(to.x - from.x) / 2);
    const path = `M${from.x},${from.y} C${from.x + bend},${from.y} ${to.x - bend},${to.y} ${to.x},${to.y}`;
    return svg('path', { class: `link ${kind}`, d: path, 'marker-end': `url(#${mark})` });
  }

  drawRequest({ queued, served, closed }, inSight, parts) {
    if (!this.shows('request', queued.actor, queued.desk)) return;
    const last = closed ?? served ?? queued;
    if (!inSight(this.x(queued), this.x(last))) return;
    const asked = this.ownPoint(queued);
    if (served) {
      const answered = this.deskPoint(served, queued.actor);
      parts.push(this.arrow('asks', asked, answered));
      if (closed?.event === 'taken') parts.push(this.arrow('answers', answered, this.ownPoint(closed)));
    } else {
      const end = this.deskPoint(queued, queued.actor, closed ? this.x(closed) : asked.x + this.width / 2);
      parts.push(closed ? this.arrow(closed.event, asked, end, 'cross') : this.arrow('asks', asked, end));
    }
  }

  drawKill({ sent, hit }, inSight, parts) {
    if (!this.shows('kill', sent.actor, sent.desk)) return;
    const to = hit?.end ? this.x(hit.end) : this.x(sent) + this.width;
    if (!inSight(this.x(sent), to)) return;
    parts.push(this.arrow('kills', this.ownPoint(sent), this.deskPoint(sent, sent.actor, to), 'blow'));
  }

  drawRefusal({ entry }, inSight, parts) {
    if (!this.shows('refusal', entry.actor, entry.desk)) return;
    const to = this.deskPoint(entry, entry.actor, this.x(entry) + this.width / 3);
    if (inSight(this.x(entry), to.x)) parts.push(this.arrow('refused', this.ownPoint(entry), to, 'cross'));
  }

  drawWait({ entry, on }, inSight, parts) {
    if (!this.shows('wait', entry.actor, entry.desk) || !inSight(this.x(entry) - this.width, this.x(entry))) return;
    const from = this.ownPoint(entry);
    const to = this.deskPoint(entry, entry.actor);
    const name = on ? `waits for statement ${on.number}` : 'waits';
    parts.push(svg('line', { class: `link waits ${entry.event}`, x1: from.x, y1: from.y, x2: to.x, y2: to.y, 'aria-label': name }));
  }

  // Whatever no bar and no tick stands for.
  drawPoint(entry, inSight, parts) {
    if (['begin', 'end', 'served'].includes(entry.event)) return;
    if (!this.shows(kindOf(entry), entry.actor) || !inSight(this.x(entry), this.x(entry))) return;
    const group = focusable(entry, `point ${entry.event}`, describeEntry(entry));
    const { x, y } = this.ownPoint(entry);
    const shape = entry.event === 'close'
      ? svg('rect', { x: x - 2, y: y - BAR.height / 2, width: 4, height: BAR.height })
      : svg('circle', { cx: x, cy: y, r: 5 });
    group.append(shape);
    parts.push(group);
  }
}

function kindOf(entry) {
  switch (entry.event) {
    case 'queued': case 'taken': case 'spent': case 'withdrawn': return 'request';
    case 'kill_sent': return 'kill';
    case 'waited': case 'wait_spent': return 'wait';
    case 'refused': return 'refusal';
    default: return 'statement';
  }
}

function focusable(entry, kind, label) {
  const group = svg('g', { class: kind, tabindex: -1, role: 'button', 'aria-label': label, 'data-line': entry.line });
  group.entry = entry;
  return group;
}

function describeStatement(statement) {
  const steps = statement.end ? `, ${statement.end.data.steps} steps` : '';
  return `Session ${statement.desk}, statement ${statement.number}: ${statement.text}. ${ENDINGS[statement.ending]}${steps}`;
}

function describeEntry(entry) {
  return `Line ${entry.line}: ${entry.event} by session ${entry.actor} at desk ${entry.desk}, turn ${entry.data.turn}`;
}
