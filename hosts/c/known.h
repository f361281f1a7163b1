/* What others have computed: BIP-341's wallet test vectors. Signers, aggregator and verifier share the tweak's code here, so none of them
 * tests it. */
#ifndef HOST_KNOWN_H
#define HOST_KNOWN_H

/* 1 where the tweaked keys come out as BIP-341 prints them, without a root and with one. */
int known_tweaks(void);

#endif
