-- Looks each line of the file SPELLINGS up: a URL, and another spelling of it.
CREATE TEMP TABLE asked (url text, other text);
\copy asked FROM PROGRAM 'cat "$SPELLINGS"' (FORMAT csv, DELIMITER E'\t', QUOTE E'\b')
SELECT format('EXPLAIN (VERBOSE, COSTS OFF) SELECT u FROM links WHERE u = %L', other) AS example
FROM asked LIMIT 1 \gset
:example;
DO $$
DECLARE row record; line text; scans int; rows int; here int = 0; there int = 0;
BEGIN
    FOR row IN SELECT * FROM asked LOOP
        EXECUTE format('SELECT count(*) FROM links WHERE u = %L', row.other) INTO rows;
        IF rows <> 1 THEN RAISE '% rows for %', rows, row.other; END IF;
        scans = 0;
        FOR line IN EXECUTE
            format('EXPLAIN (VERBOSE, COSTS OFF) SELECT u FROM links WHERE u = %L', row.other)
        LOOP
            IF line ~ 'Scan.* on ' THEN
                scans = scans + 1;
                IF line ~ 'Foreign Scan' THEN there = there + 1; ELSE here = here + 1; END IF;
            END IF;
            IF line ~ 'Remote SQL' AND line !~ 'WHERE .*OPERATOR.*=' THEN
                RAISE 'the other server would send all: %', line;
            END IF;
        END LOOP;
        IF scans <> 1 THEN RAISE '% scans for %', scans, row.other; END IF;
        -- Each is the one that was inserted.
        EXECUTE format('SELECT count(*) FROM links WHERE u = %L', row.url) INTO rows;
        IF rows <> 1 THEN RAISE '% rows for %', rows, row.url; END IF;
    END LOOP;
    IF here = 0 OR there = 0 THEN RAISE 'here %, there %', here, there; END IF;
END $$;
