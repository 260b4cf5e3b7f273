/* A line that a person types or a test sends. */
#ifndef LINE_H
#define LINE_H

/* Room for the longest put, its value in hex, and its final zero. */
enum { LINE_BYTES = 576 };

/*
 * Prompts, echoes, and reads a line up to its end, which is CR, LF or both. Backspace and delete take back a character,
 * control U and control C the whole line. 0: the line was too long, and is not there.
 */
int line_read(char *line);

#endif
