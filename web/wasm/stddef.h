/* What spcwave.h takes of it, where there is no C library. */
typedef __SIZE_TYPE__ size_t;
