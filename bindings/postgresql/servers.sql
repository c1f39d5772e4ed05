-- One table over two servers: each has a part of it, folds that part for itself, and checks the kernels for itself. Run it on the first
-- server, with the folder of the sockets, the two ports and the role: psql -v sockets=.. -v first=.. -v second=.. -v role=..
\connect "host=":sockets" port=":second" user=":role" dbname=postgres"
CREATE EXTENSION IF NOT EXISTS rvvbox;
CREATE TABLE part AS SELECT 1 AS shard, ((x::int8 * 7919) % 100003)::int4 AS v FROM generate_series(:rows + 1, 2 * :rows) AS x;
ANALYZE part;
\connect "host=":sockets" port=":first" user=":role" dbname=postgres"
CREATE EXTENSION IF NOT EXISTS rvvbox;
CREATE EXTENSION IF NOT EXISTS postgres_fdw;
CREATE TABLE part AS SELECT 0 AS shard, ((x::int8 * 7919) % 100003)::int4 AS v FROM generate_series(1, :rows) AS x;
ANALYZE part;
-- `extensions` lets the functions of rvvbox go to the servers, `async_capable` has them work at the same time.
CREATE SERVER zero FOREIGN DATA WRAPPER postgres_fdw OPTIONS (host :'sockets', port :'first', dbname 'postgres', extensions 'rvvbox', async_capable 'true');
CREATE SERVER one FOREIGN DATA WRAPPER postgres_fdw OPTIONS (host :'sockets', port :'second', dbname 'postgres', extensions 'rvvbox', async_capable 'true');
CREATE USER MAPPING FOR CURRENT_USER SERVER zero OPTIONS (user :'role');
CREATE USER MAPPING FOR CURRENT_USER SERVER one OPTIONS (user :'role');
CREATE TABLE parts(shard int, v int4) PARTITION BY LIST (shard);
CREATE FOREIGN TABLE parts_zero PARTITION OF parts FOR VALUES IN (0) SERVER zero OPTIONS (table_name 'part');
CREATE FOREIGN TABLE parts_one PARTITION OF parts FOR VALUES IN (1) SERVER one OPTIONS (table_name 'part');
ANALYZE parts_zero;
ANALYZE parts_one;
