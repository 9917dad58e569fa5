/* What C code of this project takes from stddef.h, for the kit's clang, which has no headers. */
#ifndef X86_STDDEF_H
#define X86_STDDEF_H
typedef __SIZE_TYPE__ size_t;
#define NULL ((void *)0)
#endif
