/* The name of a file that nobody has named. */
#ifndef NAMING_H
#define NAMING_H

/* A new file in the folder, SERIAL-PAGE-TIME.bin by the report's drive, page and time. Dies without memory. */
const char *own_name(const char *folder);

#endif
