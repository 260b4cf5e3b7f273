/* The commands that can be typed. */
#ifndef COMMAND_H
#define COMMAND_H

/* Mounts the store as after power-up, and formats only if nothing can be lost by it. */
void command_begin(void);

/* Does what a line asks for, and answers it. */
void command_run(const char *line);

#endif
