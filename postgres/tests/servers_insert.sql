-- Inserts the lines of the file URLS, as docs/DATABASES.md has it, and prints how often it had to begin
-- a partition again.
CREATE TEMP TABLE given (u text);
\copy given FROM PROGRAM 'cat "$URLS"' (FORMAT csv, DELIMITER E'\t', QUOTE E'\b')
CREATE TEMP TABLE new AS SELECT DISTINCT ON (u) u FROM (SELECT u::uri FROM given) AS a ORDER BY u;
ANALYZE new;
DO $$
DECLARE done bool; again int = 0;
BEGIN
    FOR part IN 0..2 LOOP
        LOOP
            BEGIN
                INSERT INTO links SELECT u FROM new
                    WHERE satisfies_hash_partition('links'::regclass, 3, part, u)
                    ORDER BY u ON CONFLICT DO NOTHING;
                done = true;
            EXCEPTION WHEN serialization_failure THEN done = false;
            END;
            COMMIT;
            EXIT WHEN done;
            again = again + 1;
        END LOOP;
    END LOOP;
    RAISE NOTICE '% again', again;
END $$;
