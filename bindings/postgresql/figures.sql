CREATE EXTENSION IF NOT EXISTS rvvbox;
CREATE FUNCTION plain_map(int4[], int4[], int4) RETURNS int4[] AS :'plain' LANGUAGE C IMMUTABLE STRICT PARALLEL SAFE COST 1000;
CREATE FUNCTION plain_step(int8, int4, int4) RETURNS int8 AS :'plain' LANGUAGE C IMMUTABLE STRICT PARALLEL SAFE;
CREATE FUNCTION plain_combine(int8, int8) RETURNS int8 AS :'plain' LANGUAGE C IMMUTABLE STRICT PARALLEL SAFE;
CREATE AGGREGATE plain_fold(int4, int4) (SFUNC = plain_step, STYPE = int8, INITCOND = '0', COMBINEFUNC = plain_combine, PARALLEL = SAFE);
CREATE FUNCTION pl_step(s int8, l int4, v int4) RETURNS int8 LANGUAGE plpgsql IMMUTABLE STRICT PARALLEL SAFE AS $$
BEGIN RETURN CASE WHEN v < l THEN ((s & 4294967295) + v & 4294967295) | ((s >> 32) + 1) << 32 ELSE s END; END $$;
CREATE AGGREGATE pl_fold(int4, int4) (SFUNC = pl_step, STYPE = int8, INITCOND = '0', COMBINEFUNC = plain_combine, PARALLEL = SAFE);
CREATE FUNCTION pl_map(a int4[], b int4[], k int4) RETURNS int4[] LANGUAGE plpgsql IMMUTABLE STRICT PARALLEL SAFE AS $$
DECLARE r int4[] := a; BEGIN FOR i IN 1..array_length(a, 1) LOOP r[i] := a[i] * k + b[i]; END LOOP; RETURN r; END $$;
CREATE TABLE t AS SELECT ((x::int8 * 7919) % 100003)::int4 AS v FROM generate_series(1, 4000000) AS x;
CREATE TABLE c AS SELECT array_agg(v) AS a, array_agg(3 * v) AS b FROM (SELECT v, (row_number() OVER ()) / 8192 AS g FROM t) AS q GROUP BY g;
VACUUM ANALYZE t;
VACUUM ANALYZE c;
