/* The program's commands: each takes the words after its name and answers the exit status. */
#ifndef COMMANDS_H
#define COMMANDS_H

int collect_command(char **words);
int check_command(char **words);
int list_command(char **words);
int serve_command(char **words);
int sheet_command(char **words);
int status_command(char **words);
int words_command(char **words);

#endif
