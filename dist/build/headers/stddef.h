/* The kit's clang comes without headers; entry.c needs no more than this. */
typedef __SIZE_TYPE__ size_t;
