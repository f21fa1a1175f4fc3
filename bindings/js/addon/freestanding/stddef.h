/* For the toolchain's own compiler, which comes without headers. */
typedef __SIZE_TYPE__ size_t;
#define NULL ((void *)0)
