-- By figures.py: how many rows a statement reads, what it is, and behind its result its processor time.
SELECT rvv_load('axpy_16', readfile('axpy_16.elf')), rvv_load('fold', readfile('fold.elf'));
CREATE TABLE t AS WITH RECURSIVE c(x) AS (SELECT 1 UNION ALL SELECT x + 1 FROM c WHERE x < 1000000) SELECT (x * 7919) % 100003 AS v FROM c;
CREATE TABLE b AS WITH RECURSIVE c(x) AS (SELECT 1 UNION ALL SELECT x + 1 FROM c WHERE x < 100000) SELECT randomblob(64) AS a, randomblob(64) AS b FROM c;
.timer on
SELECT 1000000, '`count(v)`', count(v) FROM t;
SELECT 1000000, '`rvv_fold`', hex(substr(rvv_fold('fold', x'000000000000000050C30000', v), 5, 4)) FROM t;
SELECT 1000000, '`sum(v)` and `count(*)` of those it sums', sum(v) & 0xffffffff, count(*) FROM t WHERE v < 50000;
SELECT 100000, '`length` of two blobs', sum(length(a) + length(b)) FROM b;
SELECT 100000, '`rvv_call` on their 16 words', sum(length(rvv_call('axpy_16', NULL, a, b, 16, 3))) FROM b;
