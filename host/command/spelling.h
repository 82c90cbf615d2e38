/* Names as they are shown: on one line, with nothing hidden in them, and no two alike. */
#ifndef COMMAND_SPELLING_H
#define COMMAND_SPELLING_H

/* The text with '\\' for a backslash and '\xHH' for each byte of whatever is neither a printable character of ASCII nor
 * a letter of French and its neighbours in one piece: control characters of any kind, marks of direction, other blanks,
 * accents that stand alone, other alphabets, bytes that are no UTF-8. NULL where there is no memory. */
char *spelt(const char *text);

#endif
