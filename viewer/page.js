// The page: reads the journal that stands in it, and lets one look at it.

const KINDS = [
  ['statement', 'statements'], ['request', 'requests'], ['kill', 'kills'],
  ['wait', 'waits'], ['refusal', 'refused requests'],
];

const byId = (id) => document.getElementById(id);

function sentences(model) {
  const said = [];
  if (model.fault) {
    const line = model.fault.line === undefined ? '' : `, row ${model.fault.line}`;
    said.push(`The script could not be read: ${model.fault.fault} at byte ${model.fault.place}${line}.`);
  }
  if (model.problem) {
    said.push(`Line ${model.problem.line} ${model.problem.why}. What stands before it is shown.`);
  }
  return said;
}

function summary(model) {
  const count = (number, one, many) => `${number} ${number === 1 ? one : many}`;
  return [
    count(model.sessions.length, 'session', 'sessions'),
    count(model.statements.length, 'statement', 'statements'),
    count(model.requests.length, 'request', 'requests'),
    count(model.kills.length, 'kill', 'kills'),
    count(model.waits.length, 'wait', 'waits'),
  ].join(', ');
}

class Page {
  constructor(model) {
    this.model = model;
    this.picture = new Picture(model, placeEntries(model.entries));
    this.scroll = byId('scroll');
    this.canvas = byId('picture');
    this.panel = byId('panel');
    this.current = null;
    this.isDue = false;
  }

  start() {
    byId('summary').textContent = summary(this.model);
    byId('problem').replaceChildren(...sentences(this.model).map((text) => make('p', { textContent: text })));
    byId('filters').append(
      this.filter('Sessions', this.model.sessions.map((one) => [one, `session ${one}`]), this.picture.hiddenSessions),
      this.filter('Kinds', KINDS, this.picture.hiddenKinds),
    );
    byId('wider').addEventListener('click', () => this.zoom(1.5));
    byId('closer').addEventListener('click', () => this.zoom(1 / 1.5));
    this.scroll.addEventListener('scroll', () => this.later());
    window.addEventListener('resize', () => this.later());
    this.canvas.addEventListener('focusin', (event) => this.look(event.target.closest('[data-line]')));
    this.canvas.addEventListener('pointerover', (event) => this.look(event.target.closest('[data-line]')));
    this.canvas.addEventListener('click', (event) => event.target.closest('[data-line]')?.focus());
    this.scroll.addEventListener('keydown', (event) => this.key(event));
    this.resize();
    this.goToLine(Number(location.hash.slice(1)));
  }

  // A page that is opened as page.html#7 shows what stands in line 7.
  goToLine(line) {
    const entry = this.model.entries.find((one) => one.line === line);
    if (!entry) return;
    showEntry(this.panel, entry);
    this.go(entry);
  }

  filter(title, members, hidden) {
    const boxes = members.map(([value, name]) => {
      const box = make('input', { type: 'checkbox', checked: true });
      box.addEventListener('change', () => {
        if (box.checked) hidden.delete(value);
        else hidden.add(value);
        this.picture.arrange();
        this.resize();
      });
      return make('label', {}, box, ` ${name}`);
    });
    return make('fieldset', {}, make('legend', { textContent: title }), ...boxes);
  }

  // The column in the middle stays there.
  zoom(factor) {
    const half = this.scroll.clientWidth / 2;
    const column = (this.scroll.scrollLeft + half) / this.picture.width;
    this.picture.width = Math.min(400, Math.max(6, this.picture.width * factor));
    this.resize();
    this.scroll.scrollLeft = column * this.picture.width - half;
  }

  resize() {
    byId('space').style.width = `${this.picture.totalWidth()}px`;
    byId('space').style.height = `${this.picture.height}px`;
    const names = [...this.picture.lanes.keys()].map((session) => make('li', { textContent: `Session ${session}` }));
    byId('names').replaceChildren(...names);
    this.draw();
  }

  later() {
    if (this.isDue) return;
    this.isDue = true;
    requestAnimationFrame(() => {
      this.isDue = false;
      this.draw();
    });
  }

  draw() {
    const left = this.scroll.scrollLeft;
    const width = this.scroll.clientWidth;
    const focused = document.activeElement?.entry;
    this.canvas.setAttribute('viewBox', `${left} 0 ${width} ${this.picture.height}`);
    this.canvas.setAttribute('width', width);
    this.canvas.setAttribute('height', this.picture.height);
    byId('drawn').replaceChildren(...this.picture.draw(left - 50, left + width + 50));
    const stops = this.stops();
    const kept = stops.find((stop) => stop.entry === (focused ?? this.current)) ?? stops[0];
    kept?.setAttribute('tabindex', 0);
    if (focused && kept?.entry === focused) kept.focus({ preventScroll: true });
  }

  stops() {
    return [...this.canvas.querySelectorAll('[data-line]')];
  }

  look(stop) {
    if (!stop || stop.entry === this.current) return;
    this.current = stop.entry;
    for (const other of this.stops()) other.setAttribute('tabindex', other === stop ? 0 : -1);
    showEntry(this.panel, stop.entry);
  }

  // Arrows go along a lane and from lane to lane.
  key(event) {
    const steps = { ArrowRight: [1, 0], ArrowLeft: [-1, 0], ArrowDown: [0, 1], ArrowUp: [0, -1] };
    const step = steps[event.key];
    const from = document.activeElement?.entry;
    if (!step || !from) return;
    event.preventDefault();
    const to = step[0] ? this.beside(from, step[0]) : this.across(from, step[1]);
    if (to) this.go(to);
  }

  seen(entry) {
    return entry.event !== 'begin' && this.picture.shows(kindOf(entry), entry.actor);
  }

  beside(from, direction) {
    const lane = this.model.entries.filter((entry) => entry.actor === from.actor && this.seen(entry))
      .sort((one, other) => one.column - other.column);
    return lane[lane.indexOf(from) + direction];
  }

  across(from, direction) {
    const sessions = [...this.picture.lanes.keys()];
    const session = sessions[sessions.indexOf(from.actor) + direction];
    const distance = (entry) => Math.abs(entry.column - from.column);
    return this.model.entries.filter((entry) => entry.actor === session && this.seen(entry))
      .sort((one, other) => distance(one) - distance(other))[0];
  }

  go(entry) {
    const x = this.picture.x(entry);
    const { scrollLeft, clientWidth } = this.scroll;
    if (x < scrollLeft + 40 || x > scrollLeft + clientWidth - 40) this.scroll.scrollLeft = x - clientWidth / 2;
    this.draw();
    const stop = this.stops().find((one) => one.entry === entry);
    if (stop) stop.focus({ preventScroll: true });
  }
}

new Page(readJournal(byId('journal').textContent)).start();
