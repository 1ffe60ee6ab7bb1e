-- In a server with deny.so: each call gives its result, or the error out_of_memory.
CREATE EXTENSION IF NOT EXISTS fluent_uri;
DO $$
DECLARE made uri; other text; good int = 0; denied int = 0;
BEGIN
    FOR n IN 1..5000 LOOP
        BEGIN
            made = ('HTTP://A:80/%7e/./' || n)::uri;
            IF made <> ('http://a/~/' || n)::uri THEN RAISE 'other %', made; END IF;
            made = uri_resolve(made, '../' || n || '/%7E');
            IF made <> ('http://a/%7e/../' || n || '/~')::uri THEN RAISE 'other %', made; END IF;
            other = uri_relativize('http://a/b/c', 'http://a/b/%41') || to_uri('http://a/é')
                || uri_encode('data', 'a b') || uri_decode('path', '%41')
                || uri_mend('c d', 'uri-ref') || n;
            IF other <> '%41http://a/%C3%A9a%20bAc%20d' || n THEN RAISE 'other %', other; END IF;
            good = good + 1;
        EXCEPTION WHEN out_of_memory THEN denied = denied + 1;
        END;
    END LOOP;
    IF denied = 0 THEN RAISE 'nothing is denied'; END IF;
    RAISE NOTICE 'all are done or denied';
END $$;
