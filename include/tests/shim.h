/* What shim.c adds to a program that it is preloaded to. */
#ifndef SHIM_H
#define SHIM_H

/* From now on refuses the allocation of this number, counted from 1, or none for 0; and counts from 0 again. */
void shim_refuse(long number);

/* How many allocations there were since then. */
long shim_count(void);

/* How many blocks of memory are not freed. */
long shim_live(void);

#endif
