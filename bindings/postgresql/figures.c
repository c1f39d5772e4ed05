/* What figures.py compares with: the map and the fold of the kernels in plain C. */
#include "postgres.h"

#include "catalog/pg_type.h"
#include "fmgr.h"
#include "utils/array.h"

PG_MODULE_MAGIC;

PG_FUNCTION_INFO_V1(plain_map);
PG_FUNCTION_INFO_V1(plain_step);
PG_FUNCTION_INFO_V1(plain_combine);

Datum plain_map(PG_FUNCTION_ARGS) {
    ArrayType *a = PG_GETARG_ARRAYTYPE_P(0), *b = PG_GETARG_ARRAYTYPE_P(1);
    const int32 *x = (int32 *)ARR_DATA_PTR(a), *y = (int32 *)ARR_DATA_PTR(b);
    int count = ArrayGetNItems(ARR_NDIM(a), ARR_DIMS(a));
    uint32 k = (uint32)PG_GETARG_INT32(2);
    Size size = ARR_OVERHEAD_NONULLS(1) + 4 * (Size)count;
    ArrayType *made = palloc0(size);
    int32 *out = (int32 *)((char *)made + ARR_OVERHEAD_NONULLS(1));
    SET_VARSIZE(made, size);
    made->ndim = 1;
    made->elemtype = INT4OID;
    ARR_DIMS(made)[0] = count;
    ARR_LBOUND(made)[0] = 1;
    for (int i = 0; i < count; i++) out[i] = (int32)((uint32)x[i] * k + (uint32)y[i]);
    PG_RETURN_ARRAYTYPE_P(made);
}

/* The low half is the sum of those below the limit, the high half is how many they are. */
Datum plain_step(PG_FUNCTION_ARGS) {
    int64 state = PG_GETARG_INT64(0);
    int32 limit = PG_GETARG_INT32(1), value = PG_GETARG_INT32(2);
    if (value < limit) state = (int64)(uint32)((uint32)state + (uint32)value) | ((state >> 32) + 1) << 32;
    PG_RETURN_INT64(state);
}

Datum plain_combine(PG_FUNCTION_ARGS) {
    int64 a = PG_GETARG_INT64(0), b = PG_GETARG_INT64(1);
    PG_RETURN_INT64((int64)(uint32)((uint32)a + (uint32)b) | ((a >> 32) + (b >> 32)) << 32);
}
