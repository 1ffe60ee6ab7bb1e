.mode list
.nullvalue NULL
SELECT uri_version() GLOB '[0-9]*.[0-9]*.[0-9]*', typeof(uri_normal_version());
SELECT uri_normal('HTTP://Example.com:80/a/./b/%7Efoo'), uri_normal('HTTP://a/%c3%a9', 'iri');
SELECT uri_scheme(u), uri_authority(u), uri_userinfo(u), uri_host(u), uri_port(u), uri_path(u),
       uri_query(u), uri_fragment(u)
FROM (SELECT 'HTTP://user@Example.com:8080/a/./b/%7Efoo?x=1#top' AS u
      UNION ALL SELECT 'mailto:a@b' UNION ALL SELECT 'http://a:' UNION ALL SELECT 'http://a:65536'
      UNION ALL SELECT 'http://[::1]:065535/?#');
SELECT typeof(uri_port('http://a:80'));
SELECT uri_host('//é/', 'iri-ref'), uri_path('../a', 'uri-ref');
-- NULL gives NULL.
SELECT uri_normal(NULL), uri_normal('x:', NULL), uri_is('uri', NULL), uri_is(NULL, 'x:'),
       uri_host(NULL), uri_mend(NULL), uri_mend_link('a', NULL),
       uri_resolve(NULL, 'a'), uri_resolve('x:/', NULL), uri_error(NULL), uri_decode('path', NULL);
-- A text that is not of the kind is an error, and uri_is and uri_error report it.
SELECT uri_host('http://a b');
SELECT uri_normal('../a');
SELECT uri_normal('é:', 'iri');
SELECT uri_is('uri', 'http://a b'), uri_is('uri-ref', '../a'), uri_is('uri-ref', ''),
       uri_is('iri', 'x:é');
SELECT uri_error('http://a b'), uri_error('http://a'), uri_error('http://é b', 'iri'),
       uri_error_position('http://é b', 'iri'), uri_error_position('http://a');
SELECT uri_is('url', 'x:');
SELECT uri_is('URI', 'x:');
SELECT uri_normal('x:', 'url');
-- Numbers are their texts. A BLOB is not a text.
SELECT uri_is('uri', 5), uri_is('uri-ref', 5), uri_is('uri', x'783a'), uri_normal(5, 'uri-ref');
SELECT uri_normal(x'783a');
-- NUL, and bytes that are not UTF-8.
SELECT uri_is('uri', 'http://a' || char(0)), uri_error('http://a' || char(0) || 'b');
SELECT uri_error(CAST(x'687474703a2f2fff' AS TEXT), 'iri');
SELECT uri_normal(CAST(x'783aed' AS TEXT), 'iri');
-- Two texts.
SELECT uri_resolve('http://a/b/c/d;p?q', '../g'), uri_resolve_normal('HTTP://a/b/', './%7e'),
       uri_resolve('http://a/é/', 'ü', 'iri'), uri_relativize('http://a/b/c', 'http://a/b/d?e');
SELECT uri_resolve('http://a#f', 'b');
SELECT uri_resolve('mailto:a', 'b');
SELECT uri_resolve('mailto:a', 'b', 'uri', 'basic'), uri_resolve('x:/a', '%2e%2e/b', 'iri', 'basic');
SELECT uri_resolve('x:/a', './/b', 'uri', 'basic');
SELECT uri_resolve_normal('x:/a', 'b', 'uri', 'basic');
SELECT uri_resolve('http://a', 'b c');
SELECT uri_resolve('a', 'b');
SELECT uri_relativize('http://a', 'b');
SELECT uri_resolve('a', 'b', 'uri-ref');
SELECT uri_relativize('http://a/b/c/d/', 'http://a/x'),
       uri_relativize('http://a/b/c/d/', 'http://a/x', 'uri', 'prefer-relative-path');
SELECT uri_relativize('http://a/b/c/d/', 'http://a/x', 'uri', 'shortest');
SELECT iri_to_uri('http://é.example/ü'), iri_to_uri('../ü', 'iri-ref');
-- Components. What is not a text becomes a BLOB, and round trips.
SELECT uri_encode('data', 'a b/é'), uri_encode('path', 'a b/é'), uri_encode('query', x'00ff'),
       uri_decode('path', 'a%20b/%C3%A9'), typeof(uri_decode('path', '%ff')),
       hex(uri_decode('path', 'a%00'));
SELECT uri_encode('path', uri_decode('path', '%FF%00a%C3%A9'));
SELECT uri_decode('path', 'a b');
SELECT uri_decode('port', '80');
SELECT uri_decode('nothing', '80');
-- Links that are no references (docs/CONCEPTS.md).
SELECT uri_mend('http://h/a b?x=[1]'), uri_mend('/50%', 'uri-ref'), uri_mend('1:2', 'uri-ref'),
       uri_mend('/é', 'uri-ref'), uri_mend('/é', 'iri-ref'), uri_mend('http://h/a');
SELECT uri_mend_link(' http://h/a' || char(10) || ' b '), uri_mend_link('/a b'),
       uri_mend_link('x:é ', 'iri');
SELECT uri_mend('http://a b/');
SELECT uri_mend_link(' http://good.com\@evil.com/');
SELECT uri_mend('a b');
-- The table of a query's pairs.
SELECT * FROM uri_query('http://a?name=ferret&page=2%263&&x&=y&z=1=2&+=%2B');
SELECT n, name, typeof(value), hex(value) FROM uri_query('http://a?bad=%ff%00');
SELECT * FROM uri_query('http://a?');
SELECT * FROM uri_query('http://a');
SELECT * FROM uri_query(NULL);
SELECT * FROM uri_query('?a=b', 'uri-ref');
SELECT * FROM uri_query('?é=ü', 'iri-ref');
SELECT * FROM uri_query('a b');
SELECT * FROM uri_query('x:', 'url');
SELECT count(*) FROM uri_query;
-- The rules of schemes (RFC 3986, section 6.2.3).
SELECT uri_normal('http://a'), uri_normal('http://a', 'uri', 'scheme-rules'),
       uri_resolve_normal('http://a/b', '//a', 'uri', 'scheme-rules');
SELECT uri_normal('http://a', 'uri', 'prefer-relative-path');
-- Limits.
.limit length 1000
SELECT length(uri_normal('http://a/' || replace(hex(zeroblob(450)), '0', 'a')));
SELECT length(iri_to_uri('x:' || replace(hex(zeroblob(200)), '0', 'é')));
