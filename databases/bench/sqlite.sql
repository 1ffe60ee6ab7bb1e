-- Run by `run sqlite`: the time of each statement after a .print, over the file urls.tsv.
.bail on
PRAGMA journal_mode = OFF; PRAGMA synchronous = OFF; PRAGMA cache_size = -1000000;
PRAGMA temp_store = MEMORY;
CREATE TABLE staging (u TEXT, v TEXT);
.mode tabs
.import urls.tsv staging
CREATE TABLE bytes (u TEXT); CREATE UNIQUE INDEX bytes_u ON bytes (u);
CREATE TABLE lowered (u TEXT); CREATE UNIQUE INDEX lowered_u ON lowered (lower(u));
CREATE TABLE meant (u TEXT); CREATE UNIQUE INDEX meant_u ON meant (uri_normal(u));
.timer on
.print insert bytes
INSERT INTO bytes SELECT u FROM staging WHERE true ON CONFLICT DO NOTHING;
.print insert lower
INSERT INTO lowered SELECT u FROM staging WHERE true ON CONFLICT DO NOTHING;
.print insert uri_normal
INSERT INTO meant SELECT u FROM staging WHERE true ON CONFLICT DO NOTHING;
.print lookup bytes
SELECT 'found', count(*) FROM staging s WHERE EXISTS (SELECT 1 FROM bytes b WHERE b.u = s.v);
.print lookup lower
SELECT 'found', count(*) FROM staging s
WHERE EXISTS (SELECT 1 FROM lowered l WHERE lower(l.u) = lower(s.v));
.print lookup uri_normal
SELECT 'found', count(*) FROM staging s
WHERE EXISTS (SELECT 1 FROM meant m WHERE uri_normal(m.u) = uri_normal(s.v));
.print group bytes
SELECT 'rows', count(*) FROM (SELECT u FROM staging GROUP BY u);
.print group lower
SELECT 'rows', count(*) FROM (SELECT lower(u) FROM staging GROUP BY lower(u));
.print group uri_normal
SELECT 'rows', count(*) FROM (SELECT uri_normal(u) FROM staging GROUP BY uri_normal(u));
.print scan length
SELECT sum(length(u)) FROM staging;
.print scan uri_normal
SELECT sum(length(uri_normal(u))) FROM staging;
.print scan uri_host
SELECT sum(length(uri_host(u))) FROM staging;
