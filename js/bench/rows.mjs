// What is timed, in Node and in a browser: calls of this package, of `URL` and of uri-js.

const BASE = 'http://example.com/a/b/c?q';
const REFERENCES = [
  '../d/e?x=1', 'g', './h/../i', '?y', '#s', '//other.example/k', '/root/x',
];

/** Returns the rows: a name, a run over all texts, and the name of the row beside which it is looked
 * at, if there is one. `uriJs` may be absent. */
export function rowsOf({ Uri, batch }, uriJs, urls) {
  const each = (call) => () => {
    let made;
    for (const url of urls) made = call(url);
    return made;
  };
  const base = Uri.parse(BASE), references = urls.map((it, n) => REFERENCES[n % REFERENCES.length]);
  const eachReference = (call) => () => {
    let made;
    for (const it of references) made = call(it);
    return made;
  };
  const lines = new TextEncoder().encode(`${urls.join('\n')}\n`);
  const rows = [
    ['Uri.parse', each((it) => Uri.parse(it)), 'new URL'],
    ['new URL', each((it) => new URL(it))],
    ['uri-js parse', uriJs && each((it) => uriJs.parse(it))],
    ['Uri.canParse', each((it) => Uri.canParse(it)), 'URL.canParse'],
    ['URL.canParse', URL.canParse && each((it) => URL.canParse(it))],
    ['Uri.parse, normalize', each((it) => Uri.parse(it).normalize()), 'new URL'],
    ['uri-js normalize', uriJs && each((it) => uriJs.normalize(it))],
    ['Uri: base.resolve', eachReference((it) => base.resolve(it)), 'new URL(reference, base)'],
    ['new URL(reference, base)', eachReference((it) => new URL(it, BASE))],
    ['uri-js resolve', uriJs && eachReference((it) => uriJs.resolve(BASE, it))],
    ['batch.normalize', () => batch.normalize(urls), 'new URL'],
    ['batch.normalizeLines', () => batch.normalizeLines(lines), 'new URL'],
  ];
  return rows.filter(([, run]) => run);
}

const median = (values) => values.sort((a, b) => a - b)[values.length >> 1];

/** Returns of each row the least nanoseconds a text of rounds, in which the rows take turns, and the
 * median of the rounds' ratios to the row beside it. */
export function timesOf(rows, count, rounds, now) {
  const took = new Map(rows.map(([name]) => [name, []]));
  for (let i = 0; i < 50; i++) for (const [, run] of rows) run();
  for (let i = 0; i < rounds; i++)
    for (const [name, run] of rows) {
      const began = now();
      for (let k = 0; k < 5; k++) run();
      took.get(name).push(((now() - began) * 1e6) / (5 * count));
    }
  return rows.map(([name, , beside]) => {
    const times = took.get(name), others = took.get(beside);
    const ratio = others ? median(times.map((it, i) => it / others[i])) : null;
    return { name, least: Math.min(...times), beside, ratio };
  });
}
