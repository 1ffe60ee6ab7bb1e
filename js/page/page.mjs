// What the page shows: of the link, of a second one, and of a base.
import { Iri, IriRef, Uri, UriRef, decode } from '../src/api.mjs';
import { changes, el, result } from './draw.mjs';

const $ = (id) => document.getElementById(id);
const NAMES = new Map([
  [Uri, 'URI'], [UriRef, 'URI reference'], [Iri, 'IRI'], [IriRef, 'IRI reference'],
]);
const COMPONENTS = ['scheme', 'userinfo', 'host', 'port', 'path', 'query', 'fragment'];
const HOSTS = {
  REG_NAME: 'a registered name', IPV4: 'an IPv4 address', IPV6: 'an IPv6 address',
  IPV_FUTURE: 'an address of a later version',
};
const EXAMPLES = {
  'to normalise': 'http://user@Example.com:80/a/./b/../%7Efoo?q=1&r=%c3%bc#top',
  IRI: 'http://bücher.example/straße?größe=1',
  'a space': 'http://example.com/a b|c?x=50%',
  'an address': 'http://[2001:DB8::7]:8080/',
  'no address': 'http://[2001:db8::7::1]/',
  relative: '../img/cat.png',
  mail: 'mailto:someone@example.com?subject=hello%20you',
};
const DEFAULTS = {
  link: EXAMPLES['to normalise'],
  other: 'http://user@example.com/a/~foo?q=1&r=%C3%BC#bottom',
  base: 'http://user@Example.com:80/docs/guide/',
};

const attempt = (make) => {
  try {
    return { value: make() };
  } catch (why) {
    return { why };
  }
};
// The value of a text of the kind that has the fewest texts.
const narrow = (text) => [Uri, Iri, UriRef, IriRef].map((it) => it.tryParse(text)).find(Boolean);
const article = (name) => (name.startsWith('I') ? `an ${name}` : `a ${name}`);

const CHARACTERS = {
  9: 'a tab', 10: 'a line feed', 13: 'a carriage return', 32: 'a space', 0xa0: 'a no-break space',
  0x200b: 'a zero-width space', 0x200e: 'a left-to-right mark', 0x200f: 'a right-to-left mark',
  0xfeff: 'a byte order mark',
};
function characterAt(text, index) {
  const code = text.codePointAt(index);
  if (code === undefined) return 'the text ends too early';
  const number = `U+${code.toString(16).toUpperCase().padStart(4, '0')}`;
  if (code >= 0xd800 && code < 0xe000) return `half of a character (${number})`;
  const name = CHARACTERS[code] ?? `“${String.fromCodePoint(code)}”`;
  return code < 32 && !CHARACTERS[code] ? `a control character (${number})` : `${name} (${number})`;
}

// What is marked of a text that is rejected.
function wrongPart({ code, index, input }) {
  if (code === 'INVALID_IPV6_ADDR') return /^[^\]]*/.exec(input.slice(index))[0];
  if (code === 'INVALID_PCT_ENCODED_OCTET') return input.slice(index, index + 3);
  return index < input.length ? String.fromCodePoint(input.codePointAt(index)) : '';
}

const reason = ({ message }) => message.replace(/ at index \d+$/, '');
function sentence(why) {
  const what = reason(why), where = `at index ${why.index}`;
  const hasName = why.code === 'UNEXPECTED_CHAR' || why.code === 'NOT_UTF8';
  const named = hasName ? `: ${characterAt(why.input, why.index)}` : '';
  return `${what[0].toUpperCase()}${what.slice(1)} ${where}${named}.`;
}

function showLink(text, value, why) {
  const out = $('colours');
  out.replaceChildren();
  let at = 0;
  for (const name of value ? COMPONENTS : []) {
    const [start, end] = value.span(name) ?? [at, at];
    out.append(el('span', 'delimiter', text.slice(at, start)));
    if (end > start) out.append(el('span', `part ${name}`, text.slice(start, end)));
    at = end;
  }
  if (why) {
    const wrong = wrongPart(why);
    out.append(text.slice(0, why.index), el('span', wrong ? 'wrong' : 'wrong end', wrong));
    at = why.index + wrong.length;
  }
  // A line break at the end makes a line only if something is after it.
  out.append(el('span', value ? 'delimiter' : 'after', text.slice(at)), '\u200b');
  $('field').classList.toggle('bad', Boolean(why));
  $('link').setAttribute('aria-invalid', String(Boolean(why)));
}

function showVerdict(text, value, why) {
  const verdict = $('verdict');
  verdict.className = why ? 'verdict bad-text' : 'verdict good';
  verdict.textContent = why ? `Not a link. ${sentence(why)}`
    : text === '' ? 'The empty text is a reference to the same page.'
      : `This is ${article(NAMES.get(value.constructor))}.`;
  $('kinds').replaceChildren(...[...NAMES].map(([Class, name]) => {
    const isOne = Class.canParse(text);
    return el('li', isOne ? 'yes' : 'no', `${isOne ? '✓' : '✗ not'} ${article(name)}`);
  }));
}

function showMended(text, why) {
  const out = $('mended');
  out.hidden = !why;
  out.replaceChildren();
  if (!why) return null;
  const { value } = attempt(() => narrow(String(IriRef.mend(text))));
  if (value) out.append(el('strong', '', 'Mended '), ...result(text, value, take, 'Use this link'));
  else out.append('What is wrong is before the path, where nothing can be encoded.');
  return value ?? null;
}

function notesOf(value, name) {
  const given = value[name], notes = given === '' ? ['empty'] : [];
  if (name === 'host') {
    notes.push(HOSTS[value.hostKind]);
    if (value.hostAddress) notes.push(`octets ${value.hostAddress.join(' ')}`);
    const ascii = attempt(() => value.asciiHost);
    if (ascii.why) notes.push(`DNS has no such name: ${reason(ascii.why)}`);
    else if (ascii.value !== given) notes.push(`in DNS ${ascii.value}`);
  }
  if (name === 'port' && value.port === String(value.defaultPort))
    notes.push(`the default of ${value.scheme.toLowerCase()}`);
  if (given.includes('%')) {
    const decoded = attempt(() => decode(given, name));
    notes.push(decoded.why ? `octets that are not UTF-8` : `decoded ${decoded.value}`);
  }
  return notes.join(' · ');
}

function showComponents(value, isMended) {
  $('components-label').textContent = `Components${isMended ? ' of the mended link' : ''}`;
  $('normal-label').textContent = `Normal form${isMended ? ' of the mended link' : ''}`;
  const rows = (value ? COMPONENTS : []).filter((name) => value[name] !== null);
  $('components').replaceChildren(...rows.flatMap((name) => {
    const dt = el('dt', '', name), dd = el('dd');
    dt.prepend(el('span', `swatch ${name}`));
    dd.append(el('span', 'code', value[name]), el('span', 'note', notesOf(value, name)));
    if (name === 'query' && value.query.includes('=')) dd.append(pairs(value));
    return [dt, dd];
  }));
  if (!value) $('components').append(el('dt', '', '—'), el('dd', 'note', 'There is no link.'));
}

function pairs(value) {
  const table = el('table', 'pairs');
  table.setAttribute('aria-label', 'Pairs of the query, decoded');
  for (const [name, text] of value.queryPairs()) {
    const row = el('tr'), head = el('th', '', name);
    head.scope = 'row';
    row.append(head, el('td', '', text));
    table.append(row);
  }
  return table;
}

function showNormal(value, options) {
  const out = $('normal');
  out.replaceChildren();
  if (!value) return;
  const { value: normal } = attempt(() => value.normalize(options));
  const same = 'It is its own normal form.';
  out.append(el('p', 'result', result(String(value), normal, take, 'Use it', same)));
  out.append(...changes(COMPONENTS, value, normal));
  if (value instanceof Iri || value instanceof IriRef) {
    const { value: uri } = attempt(() => value.toUri());
    out.append(el('strong', '', 'As a URI'));
    out.append(el('p', 'result', result(String(value), uri, take, 'Use it')));
  }
}

function showOrder(value, options) {
  const out = $('order'), text = $('other').value;
  out.replaceChildren();
  if (text === '' || !value) return;
  const { value: other, why } = attempt(() => IriRef.parse(text));
  const say = (name, said) => out.append(el('p', `verdict ${name}`, said));
  if (why) return say('bad-text', `The second one is not a link. ${sentence(why)}`);
  const [left, right] = [IriRef.parse(value), other].map((it) => it.normalize(options));
  if (IriRef.equivalent(value, other, options)) {
    say('good', 'Yes: both have one normal form.');
    out.append(el('p', 'code', String(left)));
    return undefined;
  }
  const first = COMPONENTS.find((name) => left[name] !== right[name]);
  say('bad-text', `No: the normal forms first differ in the ${first}.`);
  const list = el('dl', 'rows');
  for (const [name, it] of [['the link above', left], ['this link', right]]) {
    const isAbsent = it[first] === null;
    list.append(el('dt', '', name));
    list.append(el('dd', isAbsent ? 'note' : 'code', isAbsent ? `has no ${first}` : it[first]));
  }
  out.append(list);
  return undefined;
}

function showTarget(value) {
  const out = $('target'), text = $('base').value;
  out.replaceChildren();
  if (text === '' || !value) return;
  const base = attempt(() => (Uri.tryParse(text) ?? Iri.parse(text)));
  const wrong = (said) => out.append(el('p', 'verdict bad-text', said));
  if (base.why) {
    wrong(UriRef.canParse(text) ? 'The base has no scheme.' : `Not a base. ${sentence(base.why)}`);
    return;
  }
  const { value: target, why } = attempt(() => Iri.parse(base.value).resolve(value));
  if (why) {
    wrong(reason(why));
    return;
  }
  const { value: back } = attempt(() => Iri.parse(base.value).relativize(target));
  const list = el('dl', 'stack');
  const row = (name, dd) => list.append(el('dt', '', name), dd);
  const same = String(target) === String(value) && 'the link itself';
  row('Target', el('dd', '', result(String(target), target, take, 'Use it', same)));
  if (back) row('Reference back',
    el('dd', '', result(String(back), back, take, 'Use it')));
  out.append(list);
}

// Shows all of what is in the fields, and soon keeps it in the address of the page.
function show() {
  const text = $('link').value, options = { schemeRules: $('rules').checked };
  const { why } = attempt(() => IriRef.parse(text)), value = why ? null : narrow(text);
  showLink(text, value, why);
  showVerdict(text, value, why);
  const shown = value ?? showMended(text, why);
  if (value) showMended(text, null);
  showComponents(shown, shown !== null && shown !== value);
  showNormal(shown, options);
  showOrder(shown, options);
  showTarget(shown);
  const state = new URLSearchParams({ link: text, other: $('other').value, base: $('base').value });
  if (options.schemeRules) state.set('rules', 'yes');
  $('share').href = `#${state}`;
  clearTimeout(waiting);
  waiting = setTimeout(keep, PAUSE);
}

// Browsers allow no more than some changes of the address a second.
const PAUSE = 250;
let waiting;
function keep() {
  const address = $('share').getAttribute('href');
  if (address !== location.hash) history.replaceState(null, '', address);
}

function take(text) {
  $('link').value = text;
  $('link').focus();
  show();
}

function read() {
  const state = new URLSearchParams(location.hash.slice(1));
  for (const [name, text] of Object.entries(DEFAULTS)) $(name).value = state.get(name) ?? text;
  $('rules').checked = state.has('rules');
  show();
}

const examples = Object.entries(EXAMPLES).map(([name, text]) => {
  const button = el('button', '', name);
  button.type = 'button';
  button.addEventListener('click', () => take(text));
  return button;
});
$('examples').append('Try', ...examples);
for (const id of ['link', 'other', 'base', 'rules']) $(id).addEventListener('input', show);
$('link').addEventListener('keydown', (event) => {
  // A link has one line. What is pasted stays as it is.
  if (event.key === 'Enter') event.preventDefault();
});
addEventListener('hashchange', read);
addEventListener('pagehide', keep);
read();
document.documentElement.dataset.ready = 'yes';
