/* The month's sheet as a file: the 104 bytes of struct bumbazeel_sheet and nothing else. A program enters one run into one sheet. */
#ifndef SHEET_FILE_H
#define SHEET_FILE_H

#include "bumbazeel.h"

#include <stdbool.h>
#include <stdint.h>

/* What is entered of a finished run. */
struct finished {
    uint8_t ending;
    uint64_t blocks, commands, failed;
};

/* Looks at the sheet before its run is begun: it is intact or not there yet, its directory can be locked, and a file can be made there. Dies if
 * not so. From here on, whatever ends the program says whether the run is entered, and leaves no temporary file. `quiet`: no note is said. */
void sheet_open(const char *name, bool quiet);

/* Dies if OUTPUT, a file's name or "-", is the sheet that is open, or the temporary file beside it. */
void sheet_keep_from(const char *output);

/* Enters the run into the sheet that is open, as it stands now. Dies if that cannot be done, and says how to enter it by hand; the sheet is as it
 * was then, unless the line says that the run is entered. */
void sheet_enter(const struct finished *run);

/* The same for a sheet that nobody has opened, of a run that is entered by hand. */
void sheet_enter_by_hand(const char *name, const struct finished *run);

/* Reads what is opened as a sheet. Why it is none, or is damaged, until this is asked again; NULL: it is an intact one. */
const char *sheet_read(int opened, struct bumbazeel_sheet *sheet);

#endif
