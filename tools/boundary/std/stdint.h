/* What the header takes of stdint.h: the kit's compiler comes without it. */
#ifndef BOUNDARY_STDINT_H
#define BOUNDARY_STDINT_H
typedef __UINT8_TYPE__ uint8_t;
typedef __INT16_TYPE__ int16_t;
typedef __UINT16_TYPE__ uint16_t;
typedef __UINT32_TYPE__ uint32_t;
#endif
