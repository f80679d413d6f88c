/* A parser of qrexec written by hand, as one would write it in C, with the answers of qrexec_next. The tests hold the
 * proved reader against it, and bench/qrexec measures both. */
#ifndef BY_HAND_H
#define BY_HAND_H

#include "../../../c/qrexec.h"

uint32_t by_hand(struct qrexec_reader *reader, const uint8_t *bytes, size_t len, struct qrexec_found *found);

#endif
