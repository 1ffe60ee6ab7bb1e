-- The same in a database of any encoding. What a character is hangs on that.
SELECT getdatabaseencoding() IN ('UTF8', 'SQL_ASCII') AS has_all \gset
-- A character that only some have, and what is there for U+FFFD.
SELECT CASE WHEN :'has_all' THEN convert_from('\xe282ac', 'UTF8') ELSE '?' END AS euro,
       CASE WHEN :'has_all' THEN convert_from('\xefbfbd', 'UTF8') ELSE '?' END AS bad \gset

-- A character is the bytes of its UTF-8.
SELECT uri_encode('path', 'é'), uri_encode('data', '\xe9'::bytea), uri_decode('path', '%C3%A9'),
       uri_decode_bytea('path', 'é') = '\xc3a9' AS bytes;
SELECT uri_mend('x:Ã©'), uri_mend('x:Ã©', 'iri'), uri_mend_link('/é'), to_uri('x:é'::iri),
       uri_resolve('http://a/é'::iri, 'ü'), uri_relativize('x:/é/ä'::iri, 'x:/é/ü');
SELECT uri_is('uri', 'x:é') AS uri, uri_is('iri', 'x:é') AS iri, uri_error('x:é', 'uri'),
       uri_error('x:éü b', 'iri');
SELECT uri_error_position('x:éü b', 'iri') = length('x:éü') + 1 AS position;
DO $$
DECLARE said text;
BEGIN
    PERFORM 'http://ééé/ü/ x'::iri;
EXCEPTION WHEN invalid_text_representation THEN
    GET STACKED DIAGNOSTICS said = PG_EXCEPTION_DETAIL;
    RAISE NOTICE '% %', SQLERRM,
        said = format('Not an IRI: unexpected character at character %s (index 17).',
                      length('http://ééé/ü/') + 1);
END $$;

-- A value has its text, and compares by a normal form with characters that the server may lack.
CREATE TABLE told_iris (i iri UNIQUE);
INSERT INTO told_iris VALUES ('http://a/é'), ('http://a/%E2%82%AC'), ('http://a/%C3%BC?é'), ('x:é');
INSERT INTO told_iris VALUES ('HTTP://A/%c3%a9') ON CONFLICT DO NOTHING;
INSERT INTO told_iris VALUES ('HTTP://A/%e2%82%ac') ON CONFLICT DO NOTHING;
SELECT i, i::text = 'http://a/' || 'é' AS same, uri_path(i), uri_query(i) FROM told_iris ORDER BY i;
SELECT encode(convert_to(min(i)::text, 'UTF8'), 'hex') AS least FROM told_iris;
SELECT i FROM told_iris WHERE i = 'HTTP://a:80/%c3%a9';

-- A normal form that the server cannot write is an error.
CREATE FUNCTION normal(iri, VARIADIC option text[]) RETURNS text LANGUAGE plpgsql AS $$
BEGIN
    RETURN CASE WHEN option = '{}' THEN uri_normalize($1) ELSE uri_normalize($1, option[1]) END;
EXCEPTION WHEN untranslatable_character THEN
    RETURN '?';
END $$;
SELECT right(normal('x:%E2%82%AC', VARIADIC '{}'), 1) = right(:'euro', 1) AS without,
       right(normal('x:%E2%82%AC', 'scheme-rules'), 1) = right(:'euro', 1) AS with_rules,
       normal('x:%C3%A9', VARIADIC '{}') AS can;

-- In a pair `?` is there for it, so that one row does not end a scan.
SELECT name, replace(replace(value, :'euro', '<euro>'), :'bad', '<bad>') AS value
FROM uri_query_pairs('http://a?x=%C3%A9&y=%E2%82%AC1%E2%82%AC&z=é'::iri);
SELECT value = :'bad' || :'bad' || 'é' AS replaced
FROM uri_query_pairs('http://a?bad=%ff%00%C3%A9'::uri);
-- A pair of many bytes that are no text takes time by its length alone.
SET statement_timeout = '30s';
SELECT value = repeat(:'bad', 600000) AS replaced
FROM uri_query_pairs(('x:?a=' || repeat('%00', 600000))::uri);
SELECT value = repeat(:'bad', 600000) AS replaced
FROM uri_query_pairs(('x:?a=' || repeat('%ff', 600000))::uri);
SELECT value = repeat(:'bad' || 'a' || :'bad', 200000) AS replaced
FROM uri_query_pairs(('x:?a=' || repeat('%00a%ff', 200000))::uri);
SELECT value = repeat(:'euro' || 'é', 200000) AS replaced
FROM uri_query_pairs(('x:?a=' || repeat('%E2%82%AC%C3%A9', 200000))::uri);
RESET statement_timeout;

-- A long text is converted piece by piece.
SELECT ('x:' || repeat('aé', 30000))::iri::text = 'x:' || repeat('aé', 30000) AS same,
       uri_encode('path', repeat('aé', 30000)) = repeat('a%C3%A9', 30000) AS encoded;
