-- What each function answers. servers.py runs this by pg_regress, and says in $RVV_KERNELS where the images are.
\getenv kernels RVV_KERNELS
CREATE EXTENSION rvvbox;
INSERT INTO rvvbox_kernel SELECT name, pg_read_binary_file(:'kernels' || '/' || name || '.elf') FROM unnest(ARRAY['axpy_16', 'axpy_8192', 'fold', 'merge', 'spin']) AS name;
SELECT name, rvvbox_explain(image) IS NULL AS accepted FROM rvvbox_kernel ORDER BY name;
SELECT image AS axpy FROM rvvbox_kernel WHERE name = 'axpy_16' \gset
SELECT image AS fold FROM rvvbox_kernel WHERE name = 'fold' \gset
SELECT image AS merge FROM rvvbox_kernel WHERE name = 'merge' \gset
SELECT image AS spin FROM rvvbox_kernel WHERE name = 'spin' \gset
\set state '\\x000000000000000050c30000'
-- runs
SELECT substr(rvvbox_run(:'axpy', ARRAY[NULL, '\x0100000002000000', '\x0a0000000b000000']::bytea[], ARRAY[2, 3]), 1, 8);
SELECT length(rvvbox_run(:'axpy', ARRAY[]::bytea[], ARRAY[16, -1])), rvvbox_bound(:'spin', 1000) > 1000 AS bound;
-- maps
SELECT rvvbox_map(:'axpy', ARRAY[3], ARRAY[1, 2, 3], ARRAY[10, 20, 30]), rvvbox_map(:'axpy', ARRAY[3], '{}', '{}');
SELECT count(*) FROM generate_series(1, 70) AS n WHERE rvvbox_map(:'axpy', ARRAY[-2], array_fill(5, ARRAY[n]), array_fill(7, ARRAY[n])) <> array_fill(-3, ARRAY[n]);
-- folds, in one process and by parallel workers
CREATE TABLE t AS SELECT ((x::int8 * 7919) % 100003)::int4 AS v, (x % 3)::int4 AS g FROM generate_series(1, 200000) AS x;
INSERT INTO t VALUES (NULL, 0);
ANALYZE t;
SELECT substr(rvvbox_fold(:'fold', :'merge', :'state', v), 1, 8) AS folded FROM t \gset
SELECT to_hex(sum(v) & 4294967295) AS sum, to_hex(count(*)) AS many, :'folded' AS folded FROM t WHERE v < 50000;
SET max_parallel_workers_per_gather = 4;
SET parallel_setup_cost = 0;
SET parallel_tuple_cost = 0;
SET min_parallel_table_scan_size = 0;
EXPLAIN (COSTS OFF) SELECT rvvbox_fold('\x01', '\x02', '\x03', v) FROM t;
SELECT substr(rvvbox_fold(:'fold', :'merge', :'state', v), 1, 8) = :'folded' AS equal FROM t;
SELECT g, substr(rvvbox_fold(:'fold', :'merge', :'state', v), 5, 4) FROM t GROUP BY g ORDER BY g;
RESET max_parallel_workers_per_gather;
SELECT rvvbox_fold(:'fold', :'merge', :'state', v) FROM t WHERE v < 0;
SELECT substr(rvvbox_fold(:'fold', :'merge', :'state', NULL), 1, 12) FROM t;
-- images that are refused
SELECT overlay(image PLACING '\x03' FROM position('\x525656424f58'::bytea IN image) + 8) AS wrong FROM rvvbox_kernel WHERE name = 'merge' \gset
\set VERBOSITY default
SELECT rvvbox_explain('\x');
SELECT rvvbox_run('\x', '{}', '{}');
INSERT INTO rvvbox_kernel VALUES ('text', 'no image');
SELECT rvvbox_run(:'wrong', '{}', '{}');
SELECT rvvbox_run(pg_read_binary_file(:'kernels' || '/wrong.elf'), '{}', '{}');
SELECT rvvbox_run(pg_read_binary_file(:'kernels' || '/bare.elf'), '{}', '{}');
-- runs that are refused
SELECT rvvbox_run(:'axpy', '{}', ARRAY[17, 1]);
SELECT rvvbox_run(:'axpy', ARRAY[NULL, decode(repeat('00', 65), 'hex')]::bytea[], ARRAY[1, 1]);
SELECT rvvbox_run(:'axpy', '{}', ARRAY[1]);
SELECT rvvbox_run(:'axpy', '{}', ARRAY[1, 2, 3]);
SELECT rvvbox_run(:'axpy', '{}', ARRAY[1, NULL]);
SELECT rvvbox_run(:'axpy', '{}', ARRAY[1, 4294967296]);
SELECT rvvbox_run(:'axpy', ARRAY[NULL, NULL, NULL, NULL]::bytea[], ARRAY[1, 2]);
SELECT rvvbox_bound(:'axpy', 1);
SET rvvbox.max_steps = 100;
SELECT rvvbox_run(:'spin', '{}', ARRAY[1000]);
RESET rvvbox.max_steps;
SELECT rvvbox_map(:'spin', '{}', ARRAY[1]);
SELECT rvvbox_map(:'axpy', ARRAY[3], ARRAY[1], ARRAY[1, 2]);
SELECT rvvbox_map(:'axpy', ARRAY[3], ARRAY[1], ARRAY[NULL]::int4[]);
SELECT rvvbox_fold(:'spin', :'merge', :'state', v) FROM t;
SELECT rvvbox_fold(:'fold', :'spin', :'state', v) FROM t;
SELECT rvvbox_fold(:'fold', :'merge', decode(repeat('00', 65), 'hex'), v) FROM t;
SET rvvbox.slice = 0;
SET rvvbox.unknown = 1;
