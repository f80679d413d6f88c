/*
 * Stands in for the grants, the event channels and the xenstore of Xen, so that the system's own
 * libxenvchan makes both ends of a page in one process, with no hypervisor. If a program is linked with
 * stand_ins.c before the library, the library calls these functions.
 */
#ifndef STAND_INS_H
#define STAND_INS_H

#include <libxenvchan.h>
#include <stdbool.h>
#include <stddef.h>
#include <stdint.h>

#define PAGE_SIZE 4096
#define GREATEST_ORDER 20
#define GREATEST_RING ((size_t)1 << GREATEST_ORDER)
#define HEAD_SIZE offsetof(struct vchan_interface, grants)

enum who { SERVER, CLIENT };

extern union page {
	struct vchan_interface header;
	uint8_t bytes[PAGE_SIZE];
} page;

/* The pages of the grant list, in the order of the list. */
extern uint8_t granted[2 * GREATEST_RING];

/* How many signals were given. */
extern uint64_t signals_given;

/* Has to be called first. A wait for a signal that isn't there waits, 20 seconds at most, or fails with EAGAIN. */
void begin_stand_ins(bool waits);

/* Which end the library is about to make. */
void make_next(enum who who);

void give_signal(enum who to);

/* Whether there was one. */
bool take_signal(enum who of);

/* Waits as the library's own wait does. */
bool wait_for_signal(enum who of);

/* Ends the program where the library calls another function than one that stands in: behind a page of order
 * 12 and 12, one write and one wait. */
void check_reached(void);

#endif
