/* For the kit's compiler, which has no headers: x86-64 Linux only. */
#ifndef KIT_STDBOOL_H
#define KIT_STDBOOL_H
#define bool _Bool
#define true 1
#define false 0
#endif
