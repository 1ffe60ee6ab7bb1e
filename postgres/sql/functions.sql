SELECT uri_scheme(u), uri_authority(u), uri_userinfo(u), uri_host(u), uri_port(u), uri_path(u),
       uri_query(u), uri_fragment(u)
FROM (VALUES ('HTTP://user@Example.com:8080/a/./b/%7Efoo?x=1#top'::uri),
             ('mailto:a@b'), ('http://a:'), ('http://a:65535'), ('http://a:65536'),
             ('http://a:99999999999999999999'), ('http://[::1]:1/?#'), ('x:')) AS known (u);
SELECT uri_host('http://é.example/ü?ö#ä') AS host, uri_path('http://é.example/ü?ö#ä') AS path;
SELECT uri_normalize('HTTP://Example.com:80/a/./b/../%7Efoo'::uri);
SELECT uri_normalize(uri_normalize('HTTP://Example.com:80/a/./b/../%7Efoo'::uri));

-- The rules of schemes (RFC 3986, section 6.2.3; RFC 8089, section 2).
SELECT uri_normalize(u) AS without, uri_normalize(u, 'scheme-rules') AS with_rules
FROM unnest(ARRAY['http://example.com', 'http://example.com/', 'http://example.com:/',
                  'HTTP://Example.com:80?q', 'file://localhost/etc/fstab', 'x://a', 'mailto:a@b',
                  'urn:']::uri[]) AS given (u);
SELECT uri_normalize('http://é.example'::iri, 'scheme-rules');
SELECT uri_normalize('http://a'::uri, 'scheme-rules') = 'http://a/'::uri AS under_rules,
       'http://a'::uri = 'http://a/'::uri AS without,
       uri_normalize('http://a'::uri, NULL) IS NULL AS of_null;
SELECT uri_normalize('http://a'::uri, 'SCHEME-RULES');
SELECT uri_normalize('http://a'::uri, 'prefer-relative-path');
SELECT uri_relativize('http://a/b'::uri, 'http://a/c'::uri, 'scheme-rules');

-- RFC 3986, section 5.4.
SELECT reference, uri_resolve('http://a/b/c/d;p?q'::uri, reference)
FROM unnest(ARRAY['g:h', 'g', './g', 'g/', '/g', '//g', '?y', 'g?y', '#s', '', '.', '..', '../g',
                  '../../../g', 'g;x=1/../y', 'http:g']) AS given (reference);
SELECT uri_resolve('http://a/é/'::iri, 'ü');
SELECT uri_resolve('http://a/'::uri, 'ü');
SELECT uri_resolve('http://a/'::uri, 'a b');
SELECT uri_resolve('http://a/#f'::uri, 'b');
SELECT uri_resolve('mailto:a@b'::uri, 'b');
SELECT uri_resolve('mailto:a@b'::uri, 'b', 'basic'),
       uri_resolve('x:/a'::iri, '%2e%2e/b', 'basic');
SELECT uri_resolve('x:/a'::uri, './/b', 'basic');
SELECT uri_relativize('http://a/b/c/d'::uri, 'http://a/b/e'::uri),
       uri_relativize('http://a/b/c/d'::uri, 'x:y'::uri),
       uri_relativize('http://a/é/c'::iri, 'http://a/é/ü'::iri);
SELECT uri_relativize('http://a/b/c/d/'::uri, 'http://a/x'::uri) AS shorter,
       uri_relativize('http://a/b/c/d/'::uri, 'http://a/x'::uri, 'prefer-relative-path')
           AS relative;
SELECT to_uri('http://é.example/ü?ö#ä');

-- Texts of any kind.
SELECT kind, uri_is(kind, 'http://a/é') AS full, uri_is(kind, '../é') AS ref,
       uri_is(kind, '../a') AS ascii
FROM unnest(ARRAY['uri', 'uri-ref', 'iri', 'iri-ref']) AS kinds (kind);
SELECT uri_error('http://a b'), uri_error('http://a'), uri_error('http://é b', 'iri'),
       uri_error_position('http://a b'), uri_error_position('http://a');
SELECT uri_is('url', 'http://a');

-- Links that are no references (docs/CONCEPTS.md).
SELECT uri_mend('http://h/a b?x=[1]'), uri_mend('/50%', 'uri-ref'), uri_mend('1:2', 'uri-ref'),
       uri_mend('/é', 'uri-ref') AS uri, uri_mend('/é', 'iri-ref') AS iri;
SELECT uri_mend_link(E' http://h/a\n b '), uri_mend_link('/a b'), uri_mend_link('x:é ', 'iri');
SELECT uri_resolve('http://h/a/b'::uri, uri_mend_link(' ../c d '));
SELECT uri_mend('http://a b/');
SELECT uri_mend_link('  http://good.com\@evil.com/');
SELECT uri_mend('a b');
SELECT uri_mend('a b', 'url');

-- Encoding and decoding.
SELECT uri_encode('data', 'a b/é'), uri_encode('path', 'a b/é'),
       uri_encode('data', '\x00ff'::bytea), uri_decode('path', 'a%20b/%C3%A9'),
       uri_decode_bytea('query', 'a%00%ff+');
SELECT uri_decode('path', '%ff');
SELECT uri_decode('path', 'a%00');
SELECT uri_decode('path', 'a b');
SELECT uri_decode('port', '80');
SELECT uri_encode('nothing', 'a');
SELECT uri_encode('port', 'a');

-- The pairs of a query.
SELECT * FROM uri_query_pairs('http://a?name=ferret&page=2%263&&x&=y&z=1=2&+=%2B'::uri);
SELECT * FROM uri_query_pairs('http://a?'::uri);
SELECT * FROM uri_query_pairs('http://a'::uri);
SELECT * FROM uri_query_pairs('http://a?é=ü'::iri);
SELECT u, n, value
FROM (VALUES ('x:?a=1&b=2'::uri), ('x:?b=3'), ('x:y')) AS known (u), uri_query_pairs(u)
WHERE name = 'b' ORDER BY u;
SELECT uri_version() ~ '^\d+\.\d+\.\d+$' AS version, uri_normal_version() > 0 AS forms;
