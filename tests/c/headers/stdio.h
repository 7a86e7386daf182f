/* For the kit's compiler, which has no headers: x86-64 Linux only. */
#ifndef KIT_STDIO_H
#define KIT_STDIO_H
int printf(const char *form, ...) __attribute__((format(printf, 1, 2)));
#endif
