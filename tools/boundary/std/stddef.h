/* What the header and the checks take of stddef.h: the kit's compiler comes without it. */
#ifndef BOUNDARY_STDDEF_H
#define BOUNDARY_STDDEF_H
typedef __SIZE_TYPE__ size_t;
#define offsetof(type, field) __builtin_offsetof(type, field)
#endif
