/* A request to stop: any signal that ends a program and can be caught. The work asks at places where it can leave nothing behind. */
#ifndef STOP_H
#define STOP_H

/* From here on a signal asks for a stop, and a closed pipe or a file that may not grow is an error and no signal. When the program has
 * been asked, its end, whichever it is, comes by that signal, so that a shell's loop stops too. */
void stop_listen(void);

/* Ends the program if a stop was asked for. */
void stop_here(void);

/* The signal that asked for a stop; 0 if none did. */
int stop_asked(void);

/* The stop is what was meant to end the program: its end does not come by the signal. */
void stop_obeyed(void);

#endif
