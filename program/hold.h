/* What the pages hold, in files for a test to compare with. */
#ifndef HOLD_H
#define HOLD_H

/* From here on there are files in this folder; NULL: none. */
void hold_in(const char *folder);

/* Writes held-07h.bin, and held-08h.bin if there is something: header and blocks of the page as it is now. */
void hold_pages(void);

#endif
