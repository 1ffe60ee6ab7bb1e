// Elements, and texts with what changed marked.

/** Makes an element with a class and what is in it. */
export function el(tag, name = '', inside = '') {
  const made = document.createElement(tag);
  if (name) made.className = name;
  made.append(...[inside].flat());
  return made;
}

// A text as its octets, characters and delimiters.
const pieces = (text) => text.match(/%[0-9a-f]{2}|[^]/giu) ?? [];
// Longer texts are compared from both ends alone.
const MOST_PIECES = 600;

// How long the longest common sequence of each two suffixes is.
function lengths(from, to) {
  const rows = Array.from({ length: from.length + 1 }, () => new Uint16Array(to.length + 1));
  for (let i = from.length - 1; i >= 0; i--)
    for (let j = to.length - 1; j >= 0; j--)
      rows[i][j] = from[i] === to[j] ? rows[i + 1][j + 1] + 1
        : Math.max(rows[i + 1][j], rows[i][j + 1]);
  return rows;
}

/** Returns a text in which what another does not have is in elements of a tag. */
export function marked(from, to, tag) {
  const before = pieces(from), after = pieces(to), made = [];
  let start = 0, end = 0;
  while (start < Math.min(before.length, after.length) && before[start] === after[start]) start++;
  const rest = Math.min(before.length, after.length) - start;
  while (end < rest && before.at(-1 - end) === after.at(-1 - end)) end++;
  const old = before.slice(start, before.length - end);
  const fresh = after.slice(start, after.length - end);
  made.push(after.slice(0, start).join(''));
  let changed = '';
  const flush = () => {
    if (changed) made.push(el(tag, '', changed));
    changed = '';
  };
  if (old.length > MOST_PIECES || fresh.length > MOST_PIECES) changed = fresh.join('');
  else {
    const common = lengths(old, fresh);
    for (let i = 0, j = 0; j < fresh.length; ) {
      if (i < old.length && old[i] === fresh[j]) {
        flush();
        made.push(fresh[j++]);
        i++;
      } else if (i < old.length && common[i + 1][j] >= common[i][j + 1]) i++;
      else changed += fresh[j++];
    }
  }
  flush();
  made.push(after.slice(after.length - end).join(''));
  return made;
}

/** Returns a text with what a former one lacks marked, and a button that takes it over. If they are
 * the same text, a note says so in place of the button. */
export function result(from, value, take, label, same) {
  const text = String(value), code = el('span', 'code', marked(from, text, 'ins'));
  if (text === from && same) return [code, el('span', 'note', same)];
  const button = el('button', '', label);
  button.type = 'button';
  button.addEventListener('click', () => take(text));
  return [code, button];
}

/** Returns which components of two values differ, and how. */
export function changes(names, from, to) {
  const changed = names.filter((name) => from[name] !== to[name]);
  if (changed.length === 0) return [];
  const list = el('dl', 'rows');
  for (const name of changed) {
    const dt = el('dt', '', name), dd = el('dd', 'code');
    dt.prepend(el('span', `swatch ${name}`));
    dd.append(...marked(to[name] ?? '', from[name] ?? '', 'del'), ' → ');
    dd.append(...(to[name] === null ? [el('span', 'note', 'left out')]
      : marked(from[name] ?? '', to[name], 'ins')));
    list.append(dt, dd);
  }
  return [list];
}
