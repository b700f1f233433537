/* jwserve.h: what jwserve and its clients say to one another, in records of a Unix socket (SOCK_SEQPACKET).

   A client sends records of a letter and what belongs to it. Each is answered once, in order, by `=` and a number: 0 or
   more where it was done, and else the negated errno; after the number may stand a blank and a text.

   o r, o w   opens the port, to watch or to type; one at a time types
   w BYTES    writes them to the line; the answer is how many
   p BYTES    sends a packet, under SLIP
   m WORD     one word of stty(1)
   d 0, d 1   N_TTY, SLIP
   x, n       exclusive use: nobody else opens the port; and no more
   f          drops what was not read
   h          hangs the port up
   c          the counts and the account, as the answer's text

   All but `o` and `c` are for who types; a watcher is answered -EPERM.

   What the server sends beside answers:

   r BYTES    what the line brought, as a read of the port gives it
   p BYTES    a packet that came, under SLIP
   s NUMBER   a signal that the line raised
   h          the port was hung up; each client has it open anew
   l NUMBER   so many records are missing here, which the client was too slow for */
#ifndef JWSERVE_H
#define JWSERVE_H

enum { JWSERVE_RECORD = 4096 }; /* a record has at most so many bytes behind its letter */

#endif
