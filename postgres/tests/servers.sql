-- Sets a server up: links_N is here on server N, and foreign on the others.
CREATE EXTENSION fluent_uri;
CREATE EXTENSION postgres_fdw;
CREATE TABLE links (u uri NOT NULL) PARTITION BY HASH (u);
SELECT format('CREATE TABLE links_%s PARTITION OF links (UNIQUE (u))
               FOR VALUES WITH (MODULUS 3, REMAINDER %1$s)', :self) \gexec
SELECT format('CREATE SERVER server%s FOREIGN DATA WRAPPER postgres_fdw OPTIONS
               (host ''127.0.0.1'', port ''%s'', dbname ''postgres'', extensions ''fluent_uri'',
                batch_size ''1000'', async_capable ''true'')', n, :first + n),
       format('CREATE USER MAPPING FOR CURRENT_USER SERVER server%s
               OPTIONS (user ''postgres'', password %L)', n, :'password'),
       format('CREATE FOREIGN TABLE links_%s PARTITION OF links
               FOR VALUES WITH (MODULUS 3, REMAINDER %1$s) SERVER server%1$s', n)
FROM generate_series(0, 2) AS others (n) WHERE n <> :self \gexec
