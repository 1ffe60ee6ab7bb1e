-- Compares the extension with the rows of fuzz_rows, the file ROWS. In a database of SQL_ASCII all
-- of them are texts, in one of another encoding those that are UTF-8 and that it can write. Each count
-- but the last row's is 0.
\set ON_ERROR_STOP on
\pset format unaligned
\pset tuples_only on
CREATE TEMP TABLE rows (n int, hex text, uri text, uri_form text, iri text, iri_form text);
\copy rows FROM PROGRAM 'cat "$ROWS"'
-- The encoding that the library sees.
CREATE FUNCTION pg_temp.seen() RETURNS name LANGUAGE sql AS $$
    SELECT CASE WHEN getdatabaseencoding() = 'SQL_ASCII' THEN 'SQL_ASCII' ELSE 'UTF8' END $$;
CREATE FUNCTION pg_temp.text_or_null(bytea) RETURNS text LANGUAGE plpgsql AS $$
BEGIN
    RETURN convert_from($1, pg_temp.seen());
EXCEPTION WHEN character_not_in_repertoire OR untranslatable_character THEN RETURN NULL;
END $$;
CREATE FUNCTION pg_temp.is_utf8(bytea) RETURNS boolean LANGUAGE plpgsql AS $$
BEGIN
    RETURN convert_from($1, 'UTF8') IS NOT NULL;
EXCEPTION
    WHEN character_not_in_repertoire THEN RETURN false;
    WHEN untranslatable_character THEN RETURN true;
END $$;
CREATE FUNCTION pg_temp.hex(text) RETURNS text LANGUAGE sql AS
    $$ SELECT encode(convert_to($1, pg_temp.seen()), 'hex') $$;
-- The normal form of an IRI, or 'none' where the server cannot write the characters of its octets.
CREATE FUNCTION pg_temp.hex_of_form(iri) RETURNS text LANGUAGE plpgsql AS $$
BEGIN
    RETURN pg_temp.hex(uri_normalize($1)::text);
EXCEPTION WHEN untranslatable_character THEN RETURN 'none';
END $$;
CREATE TEMP TABLE texts AS SELECT *, pg_temp.text_or_null(decode(hex, 'hex')) AS t FROM rows;
DELETE FROM texts WHERE t IS NULL;
CREATE TEMP TABLE vals AS SELECT *, uri_or_null(t) AS u, iri_or_null(t) AS i FROM texts;
CREATE INDEX ON vals (n);
-- Each error, with its index.
SELECT count(*) FROM vals
WHERE coalesce(uri_error(t), 'ok') <> uri OR coalesce(uri_error(t, 'iri'), 'ok') <> iri
    OR uri_is('uri', t) <> (uri = 'ok') OR uri_is('iri', t) <> (iri = 'ok')
    OR (u IS NULL) <> (uri <> 'ok') OR (i IS NULL) <> (iri <> 'ok')
    OR (uri_error_position(t) = 0) <> (uri = 'ok');
-- The library and the server agree on what is UTF-8.
SELECT count(*) FROM vals
WHERE (uri_error(t, 'iri-ref') LIKE 'not UTF-8 at %') IS TRUE
    = pg_temp.is_utf8(decode(hex, 'hex'));
-- Each text and normal form.
SELECT count(*) FROM vals
WHERE u::text <> t OR i::text <> t OR pg_temp.hex(uri_normalize(u)::text) <> uri_form
    OR pg_temp.hex_of_form(i) NOT IN (iri_form,
        CASE WHEN getdatabaseencoding() IN ('UTF8', 'SQL_ASCII') OR iri_form = hex THEN iri_form
             ELSE 'none' END)
    OR encode(uri_send(u), 'hex') <> hex OR encode(iri_send(i), 'hex') <> hex;
-- Equal values have equal forms and hashes, and the order is that of the forms.
SELECT count(*) FROM (SELECT * FROM vals WHERE u IS NOT NULL AND n % 37 = 0) AS a,
    (SELECT * FROM vals WHERE u IS NOT NULL AND n % 41 = 0) AS b
WHERE (a.u = b.u) <> (a.uri_form = b.uri_form)
    OR (a.u < b.u) <> (a.uri_form COLLATE "C" < b.uri_form)
    OR uri_cmp(a.u, b.u) <> -uri_cmp(b.u, a.u) OR a.u = b.u AND uri_hash(a.u) <> uri_hash(b.u);
SELECT count(*) FROM (
    SELECT uri_form AS form, lag(uri_form) OVER () AS before
    FROM (SELECT uri_form COLLATE "C" FROM vals WHERE u IS NOT NULL ORDER BY u OFFSET 0) AS a
) AS b WHERE before > form;
-- The input function raises exactly the errors.
DO $$
DECLARE row record; made uri; good int = 0; bad int = 0;
BEGIN
    FOR row IN SELECT t, uri FROM texts LOOP
        BEGIN
            EXECUTE format('SELECT %L::uri', row.t) INTO made;
            good = good + (row.uri = 'ok')::int;
        EXCEPTION WHEN invalid_text_representation THEN bad = bad + (row.uri <> 'ok')::int;
        END;
    END LOOP;
    IF good + bad <> (SELECT count(*) FROM texts) THEN RAISE 'input: % and %', good, bad; END IF;
END $$;
-- A reference leads to its target, except that the target's dot segments are removed.
SELECT count(*) FROM vals AS a JOIN vals AS b ON b.n IN (a.n + 1, a.n + 17)
WHERE position('#' in a.i::text) = 0 AND a.iri = 'ok' AND b.iri = 'ok'
    AND uri_resolve(a.i, uri_relativize(a.i, b.i)) <> b.i;
-- A component decodes, and what is encoded decodes to the same.
SELECT count(*) FROM vals
WHERE uri_decode_bytea('path', uri_path(i)) IS NULL AND i IS NOT NULL
    OR uri_decode_bytea('query', uri_encode('data', t)) <> decode(hex, 'hex')
    OR uri_decode_bytea('path', uri_encode('path', decode(hex, 'hex'))) <> decode(hex, 'hex')
    OR to_uri(i)::iri <> i;
SELECT count(*) FROM vals
WHERE i IS NOT NULL
    AND (concat('', uri_scheme(i), ':', '//' || uri_authority(i), uri_path(i), '?' || uri_query(i),
                '#' || uri_fragment(i)) <> t
         OR NOT starts_with(uri_authority(i), concat(uri_userinfo(i) || '@', uri_host(i))));
SELECT count(*) FROM vals, uri_query_pairs(i) WHERE name || value IS NULL;
-- Each value resolves any reference, or says why not.
DO $$
DECLARE row record; made iri;
BEGIN
    FOR row IN
        SELECT a.i, b.t FROM vals AS a JOIN texts AS b ON b.n = a.n + 1 WHERE a.iri = 'ok'
    LOOP
        BEGIN
            made = uri_resolve(row.i, row.t);
        EXCEPTION WHEN invalid_text_representation OR invalid_parameter_value THEN NULL;
        END;
    END LOOP;
END $$;
-- The rows that were tried, and those that are URIs and IRIs.
SELECT count(*), count(u), count(i) FROM vals;
