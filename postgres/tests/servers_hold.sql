-- On server 0: inserts one of the URLs of the file URLS into the partition here, and commits when a
-- client of another server waits for that. So the client fails, and has to begin again.
CREATE TEMP TABLE given (u text);
\copy given FROM PROGRAM 'cat "$URLS"' (FORMAT csv, DELIMITER E'\t', QUOTE E'\b')
BEGIN;
INSERT INTO links SELECT u FROM (SELECT u::uri FROM given) AS a
    WHERE satisfies_hash_partition('links'::regclass, 3, 0, u) LIMIT 1;
DO $$
BEGIN
    FOR n IN 1..1200 LOOP
        IF EXISTS (SELECT FROM pg_locks JOIN pg_stat_activity USING (pid)
                   WHERE NOT granted AND application_name = 'postgres_fdw') THEN
            RETURN;
        END IF;
        PERFORM pg_stat_clear_snapshot(), pg_sleep(0.1);
    END LOOP;
    RAISE 'no client waits';
END $$;
COMMIT;
