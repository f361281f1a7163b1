/*
 * A packet as 01 lays it out, written by hand: what tests hold the library's writers against. Hosts write with the library.
 */
#ifndef HOST_LAYOUT_H
#define HOST_LAYOUT_H

#include "packets.h"

/* Header, pairs, then the parts, each where the last ended. `to` has room for all of it. */
span lay_out(uint8_t *to, rc_packet header, const span *parts);

#endif
