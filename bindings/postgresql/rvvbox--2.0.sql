-- Every function takes the image of a kernel, which a backend checks once. README.md tells what each does.

CREATE FUNCTION rvvbox_explain(image bytea) RETURNS text
AS 'MODULE_PATHNAME', 'rvvbox_explain_sql' LANGUAGE C IMMUTABLE STRICT PARALLEL SAFE COST 10000;

CREATE FUNCTION rvvbox_bound(image bytea, VARIADIC numbers int8[]) RETURNS int8
AS 'MODULE_PATHNAME', 'rvvbox_bound_sql' LANGUAGE C IMMUTABLE STRICT PARALLEL SAFE;

CREATE FUNCTION rvvbox_run(image bytea, buffers bytea[], numbers int8[]) RETURNS bytea
AS 'MODULE_PATHNAME', 'rvvbox_run_sql' LANGUAGE C IMMUTABLE STRICT PARALLEL SAFE COST 1000;

CREATE FUNCTION rvvbox_map(image bytea, numbers int8[], a int4[]) RETURNS int4[]
AS 'MODULE_PATHNAME', 'rvvbox_map_sql' LANGUAGE C IMMUTABLE STRICT PARALLEL SAFE COST 1000;

CREATE FUNCTION rvvbox_map(image bytea, numbers int8[], a int4[], b int4[]) RETURNS int4[]
AS 'MODULE_PATHNAME', 'rvvbox_map_sql' LANGUAGE C IMMUTABLE STRICT PARALLEL SAFE COST 1000;

CREATE FUNCTION rvvbox_map(image bytea, numbers int8[], a int4[], b int4[], c int4[]) RETURNS int4[]
AS 'MODULE_PATHNAME', 'rvvbox_map_sql' LANGUAGE C IMMUTABLE STRICT PARALLEL SAFE COST 1000;

CREATE FUNCTION rvvbox_fold_step(internal, bytea, bytea, bytea, int4) RETURNS internal
AS 'MODULE_PATHNAME' LANGUAGE C IMMUTABLE PARALLEL SAFE;

CREATE FUNCTION rvvbox_fold_combine(internal, internal) RETURNS internal
AS 'MODULE_PATHNAME' LANGUAGE C IMMUTABLE PARALLEL SAFE;

CREATE FUNCTION rvvbox_fold_serial(internal) RETURNS bytea
AS 'MODULE_PATHNAME' LANGUAGE C IMMUTABLE STRICT PARALLEL SAFE;

CREATE FUNCTION rvvbox_fold_deserial(bytea, internal) RETURNS internal
AS 'MODULE_PATHNAME' LANGUAGE C IMMUTABLE STRICT PARALLEL SAFE;

CREATE FUNCTION rvvbox_fold_final(internal) RETURNS bytea
AS 'MODULE_PATHNAME' LANGUAGE C IMMUTABLE PARALLEL SAFE;

CREATE AGGREGATE rvvbox_fold(fold bytea, merge bytea, state bytea, value int4) (
    SFUNC = rvvbox_fold_step, STYPE = internal, SSPACE = 16384, FINALFUNC = rvvbox_fold_final,
    COMBINEFUNC = rvvbox_fold_combine, SERIALFUNC = rvvbox_fold_serial, DESERIALFUNC = rvvbox_fold_deserial, PARALLEL = SAFE);

-- Kernels by name. No image comes in that the check refuses.
CREATE TABLE rvvbox_kernel (
    name text PRIMARY KEY,
    image bytea NOT NULL CHECK (rvvbox_explain(image) IS NULL)
);
SELECT pg_catalog.pg_extension_config_dump('rvvbox_kernel', '');
