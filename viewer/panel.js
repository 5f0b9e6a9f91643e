// The panel that tells an entry as it stands, a document as a tree, and rows as a table.

const ROWS_AT_ONCE = 100;

function make(tag, properties = {}, ...children) {
  const element = Object.assign(document.createElement(tag), properties);
  element.append(...children);
  return element;
}

function showEntry(panel, entry) {
  const outcome = entry.data.outcome;
  const parts = [
    make('h2', { textContent: describeEntry(entry) }),
    make('pre', { className: 'entry', textContent: entry.raw }),
  ];
  if (outcome && 'document' in outcome) parts.push(documentTree(outcome.document));
  if (outcome?.kind === 'rows') parts.push(rowsTable(outcome, entry.rows));
  panel.replaceChildren(...parts);
}

// A table's name with what it was reckoned to give, and what it gave.
function tableNote(table) {
  const counted = 'r_rows' in table
    ? `, counted: ${table.r_rows ?? 'nothing'} a time, ${table.r_loops} times, ${table.r_filtered ?? 'no'} % passed`
    : '';
  return `${table.table_name} by ${table.access_type}, reckoned: ${table.rows} rows${counted}`;
}

const isLeaf = (value) => value === null || typeof value !== 'object' || value instanceof LongNumber;

function noteOf(key, value) {
  if (isLeaf(value)) return `${key}: ${value instanceof LongNumber ? value : JSON.stringify(value)}`;
  if (key === 'table' && 'table_name' in value) return tableNote(value);
  return Array.isArray(value) ? `${key} (${value.length})` : key;
}

function branch(key, value) {
  if (isLeaf(value)) return make('div', { className: 'leaf', textContent: noteOf(key, value) });
  const children = Object.entries(value).map(([name, part]) => branch(name, part));
  return make('details', { open: true }, make('summary', { textContent: noteOf(key, value) }), ...children);
}

function documentTree(document) {
  const tree = make('section', { className: 'tree' }, make('h3', { textContent: 'Document' }));
  tree.append(document === null ? make('p', { textContent: 'There is none.' }) : branch('document', document));
  return tree;
}

function cellOf(value) {
  if (value === null) return make('td', { className: 'null', textContent: 'NULL' });
  const isNumber = typeof value === 'number' || value instanceof LongNumber;
  return make('td', { className: isNumber ? 'number' : 'text', textContent: String(value) });
}

const rowCells = (row) => make('tr', {}, ...row.map(cellOf));

function rowsTable(outcome, rows) {
  const heads = (outcome.columns ?? []).map((name) => make('th', { scope: 'col', textContent: name }));
  const body = make('tbody');
  const more = make('button', { type: 'button' });
  let shown = 0;
  const showMore = () => {
    body.append(...rows.slice(shown, shown + ROWS_AT_ONCE).map(rowCells));
    shown = Math.min(rows.length, shown + ROWS_AT_ONCE);
    more.textContent = `Show more (${rows.length - shown} left)`;
    more.hidden = shown === rows.length;
  };
  more.addEventListener('click', showMore);
  showMore();
  const table = make('table', {}, make('thead', {}, make('tr', {}, ...heads)), body);
  return make('section', { className: 'rows' }, make('h3', { textContent: `${rows.length} rows` }), table, more);
}
