/* Answers of the library, in words. */
#ifndef HOST_WORDS_H
#define HOST_WORDS_H

#include "packets.h"

/* out is what the call wrote. */
void answer_words(char *to, size_t room, const rc_answer *a, span out);
/* Ids of 4 bytes each, with blanks between them; "none" where there is none. */
void list_words(char *to, size_t room, span ids);

#endif
