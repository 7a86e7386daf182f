/* For the kit's compiler, which has no headers: x86-64 Linux only. */
#ifndef KIT_STDINT_H
#define KIT_STDINT_H
typedef unsigned char uint8_t;
typedef unsigned short uint16_t;
typedef unsigned int uint32_t;
typedef unsigned long uint64_t;
#define UINT64_MAX (~0ul)
#endif
