/* C's <assert.h> as with NDEBUG: what a kernel may do is proved, and what it means by an assertion is not. */
#undef assert
#define assert(condition) ((void)0)
