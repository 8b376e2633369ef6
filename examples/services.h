/* The services that a module may call. What each does is in docs/FORMATS.md, "A call". */
#ifndef SERVICES_H
#define SERVICES_H

long k_note(long word);                               /* makes a note of the word; the 17th ends the call */
_Noreturn void k_abort(long word);                    /* gives the call up with this word */
long k_out(long word);                                /* puts the word into the queue: 1, or 0 where it is full */
long k_in(void);                                      /* takes the oldest word out of the queue, or 0 */

#endif
