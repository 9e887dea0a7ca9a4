/* What the library's header needs of a C compiler without a C library. */
typedef __SIZE_TYPE__ size_t;
