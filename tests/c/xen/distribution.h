/*
 * What stands in for the distribution's libxenvchan and its event channels: a shared library of its own, so that
 * c/libxenvchan_io.c finds the functions behind its own. Pages are memory that forked processes share.
 */
#ifndef DISTRIBUTION_H
#define DISTRIBUTION_H

#include "libxenvchan.h"
#include <stdbool.h>

/* How often the distribution's own close was called. */
extern int closed;

/* Makes every notify, or every wait, fail. */
extern bool notify_fails, wait_fails;

/* Called by each notify, unless it is NULL. */
extern void (*at_notify)(void);

/* Whether a signal waits for this end. */
bool is_signalled(const struct libxenvchan *end);

#endif
