/* The listing of a sheet. */
#ifndef LIST_H
#define LIST_H

/* Writes the listing line of each state of a file, in the sheet's order, and tells every failure. 0 is success. */
int list(const char *input, const char *output);

#endif
