/* Included before c/vchan_page.c. It counts the loads, and how often the proved library is entered. */
#include "../../c/vchan_end.h"

extern unsigned long loads, entered;

#define __atomic_load_n(word, order) (__atomic_fetch_add(&loads, 1, __ATOMIC_RELAXED), __atomic_load_n(word, order))
#define vchan_end_begin(end, call, len, step) (__atomic_fetch_add(&entered, 1, __ATOMIC_RELAXED), vchan_end_begin(end, call, len, step))
#define vchan_end_took(end, value, look, step) (__atomic_fetch_add(&entered, 1, __ATOMIC_RELAXED), vchan_end_took(end, value, look, step))
