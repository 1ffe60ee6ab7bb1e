-- Run by `run postgres`: the time of each statement after an \echo, over the file URLS.
SET client_min_messages = warning;
SET synchronous_commit = off; SET work_mem = '256MB'; SET maintenance_work_mem = '512MB';
SET max_parallel_workers_per_gather = 0; SET max_parallel_maintenance_workers = 0; SET jit = off;
CREATE EXTENSION IF NOT EXISTS fluent_uri;
DROP TABLE IF EXISTS staging, bytes, lowered, meant, typed CASCADE;
CREATE UNLOGGED TABLE staging (u text COLLATE "C", v text COLLATE "C");
\copy staging FROM PROGRAM 'cat "$URLS"' (FORMAT csv, DELIMITER E'\t', QUOTE E'\b')
VACUUM ANALYZE staging;
CREATE UNLOGGED TABLE bytes (u text COLLATE "C" UNIQUE);
CREATE UNLOGGED TABLE lowered (u text COLLATE "C"); CREATE UNIQUE INDEX ON lowered (lower(u));
CREATE UNLOGGED TABLE meant (u uri UNIQUE);
\echo insert bytes
INSERT INTO bytes SELECT u FROM staging ON CONFLICT DO NOTHING;
\echo insert lower
INSERT INTO lowered SELECT u FROM staging ON CONFLICT DO NOTHING;
\echo insert uri
INSERT INTO meant SELECT u::uri FROM staging ON CONFLICT DO NOTHING;
VACUUM ANALYZE bytes; VACUUM ANALYZE lowered; VACUUM ANALYZE meant;
CREATE UNLOGGED TABLE typed AS SELECT u AS t, v AS s, u::uri AS u, v::uri AS v FROM staging;
VACUUM ANALYZE typed;
SELECT 'MB of table and index', relname, pg_table_size(oid) >> 20, pg_indexes_size(oid) >> 20
FROM pg_class WHERE relname IN ('bytes', 'lowered', 'meant') ORDER BY relname;
SET enable_hashjoin = off; SET enable_mergejoin = off; SET enable_memoize = off;
\echo lookup bytes
SELECT 'found', count(*) FROM typed a WHERE EXISTS (SELECT 1 FROM bytes b WHERE b.u = a.s);
\echo lookup lower
SELECT 'found', count(*) FROM typed a
WHERE EXISTS (SELECT 1 FROM lowered b WHERE lower(b.u) = lower(a.s));
\echo lookup uri
SELECT 'found', count(*) FROM typed a WHERE EXISTS (SELECT 1 FROM meant b WHERE b.u = a.v);
RESET enable_hashjoin; RESET enable_mergejoin;
\echo group bytes
SELECT 'rows', count(*) FROM (SELECT t FROM typed GROUP BY t) AS a;
\echo group lower
SELECT 'rows', count(*) FROM (SELECT lower(t) FROM typed GROUP BY lower(t)) AS a;
\echo group uri
SELECT 'rows', count(*) FROM (SELECT u FROM typed GROUP BY u) AS a;
\echo sort bytes
SELECT count(*) FROM (SELECT t FROM typed ORDER BY t OFFSET 0) AS a;
\echo sort uri
SELECT count(*) FROM (SELECT u FROM typed ORDER BY u OFFSET 0) AS a;
\echo scan length
SELECT sum(length(t)) FROM typed;
\echo scan cast
SELECT count(uri(t)) FROM typed;
\echo scan uri_host
SELECT sum(length(uri_host(u))) FROM typed;
