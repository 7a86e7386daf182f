/* For the kit's compiler, which has no headers: x86-64 Linux only. */
#ifndef KIT_STDDEF_H
#define KIT_STDDEF_H
typedef unsigned long size_t;
#define NULL ((void *)0)
#define offsetof(type, member) __builtin_offsetof(type, member)
#endif
