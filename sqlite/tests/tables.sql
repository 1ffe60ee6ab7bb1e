.mode list
.nullvalue NULL
PRAGMA trusted_schema = OFF;
-- An index on an expression keys by meaning.
CREATE TABLE links (
    id INTEGER PRIMARY KEY, url TEXT CHECK (uri_is('uri', url)), seen INT DEFAULT 1
);
CREATE UNIQUE INDEX links_by_meaning ON links (uri_normal(url));
INSERT INTO links (url) VALUES ('HTTP://Example.com:80/%7Efoo');
INSERT INTO links (url) VALUES ('http://example.com/~foo');
INSERT INTO links (url) VALUES ('not a URI');
INSERT INTO links (url) VALUES ('http://EXAMPLE.com/a/../~foo')
    ON CONFLICT (uri_normal(url)) DO UPDATE SET seen = seen + 1;
SELECT * FROM links;
EXPLAIN QUERY PLAN
SELECT id FROM links WHERE uri_normal(url) = uri_normal('http://example.com:/~foo');
SELECT id FROM links WHERE uri_normal(url) = uri_normal('http://example.com:/~foo');
-- Generated columns, and a partial index over texts, of which some are not URIs.
CREATE TABLE pages (
    url TEXT, host TEXT GENERATED ALWAYS AS (uri_host(url)) VIRTUAL,
    form TEXT GENERATED ALWAYS AS (uri_normal(url)) STORED UNIQUE
);
INSERT INTO pages (url) VALUES ('HTTP://A/%7e');
INSERT INTO pages (url) VALUES ('http://a/~');
SELECT * FROM pages;
CREATE TABLE texts (t TEXT);
CREATE UNIQUE INDEX texts_by_meaning ON texts (uri_normal(t)) WHERE uri_is('uri', t);
INSERT INTO texts VALUES ('no URI'), ('no URI'), (NULL), ('HTTP://a');
INSERT INTO texts VALUES ('http://A:80');
SELECT count(*) FROM texts;
CREATE VIEW forms AS SELECT CASE WHEN uri_is('uri', t) THEN uri_normal(t) END AS form FROM texts;
SELECT * FROM forms;
-- A collation: URIs by meaning, and after them other texts by their bytes.
CREATE TABLE spelt (t TEXT COLLATE URI);
INSERT INTO spelt VALUES ('http://b'), ('HTTP://A:80'), ('http://a'), ('a b'), ('A b'),
    ('é:'), (''), ('http://a/%c3%a9');
SELECT t, count(*) FROM spelt GROUP BY t ORDER BY t;
SELECT t FROM spelt WHERE t = 'http://%61';
SELECT count(*) FROM spelt WHERE t COLLATE IRI = 'http://A/é';
SELECT count(*) FROM spelt WHERE t COLLATE URI_SCHEME_RULES = 'http://a/';
-- Pairs of each row.
CREATE TABLE queries (url TEXT);
INSERT INTO queries VALUES ('x:?a=1&b=2'), ('x:?b=3'), ('x:y'), (NULL);
SELECT url, n, value FROM queries, uri_query(queries.url) WHERE name = 'b' ORDER BY url;
-- The arguments are columns: with so many conditions SQLite compares them itself.
SELECT n, name, value, text, kind FROM uri_query('x:?a=1&b=2', 'uri')
WHERE n > 0 AND n > -1 AND n > -2 AND n > -3 AND n > -4 AND n > -5 AND n > -6 AND n > -7
    AND n > -8 AND n > -9 AND n > -10 AND n > -11 AND n > -12 AND n > -13 AND n > -14 AND n > -15
    AND n > -16 AND n > -17;
SELECT n, text, kind FROM uri_query WHERE text = 'x:?a' AND text > 'x';
PRAGMA integrity_check;
