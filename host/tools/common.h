/* What the tools share with files: a sheet read and checked, an input opened, an output written, with a message on
 * every failure. A path of "-", or none, is standard input or output. A file that is written has its old bytes until it
 * has all of the new ones. */
#ifndef COMMON_H
#define COMMON_H

#include <stdbool.h>
#include <stdint.h>
#include <stdio.h>

#include "record.h"

/* Whether a path is that of standard input or output. */
bool is_standard(const char *path);

/* Opens an input, or an output, one at a time; tells a failure and gives null. */
FILE *open_input(const char *path);
FILE *open_output(const char *path);

/* Ends an output and puts it in the place of the old file; tells that something could not be written, and then the old
 * file stays. 0 is success. */
int close_output(FILE *file, const char *path);

/* Ends an output that is not to be: the old file stays. What went to no regular file is there. */
void drop_output(FILE *file);

/* How messages call an input and an output. */
const char *input_name(const char *path);
const char *output_name(const char *path);

/* Tells that a file could not be read or written, by errno. Gives REFUSED. */
int refuse_file(const char *name);

/* Writes bytes to an output. 0 is success. */
int write_output(const char *path, const void *bytes, size_t n);

/* The folder of the shipped sample sheets: that of the installation which the program stands in, else the source's. */
const char *samples_folder(void);

/* Reads at most SHEET_MOST + 1 bytes, enough for eas_check to judge a longer file by. 0 is success. */
int load_bytes(const char *path, uint8_t sheet[SHEET_MOST + 1], size_t *n);

/* The same, and checks that they are a sheet. A refused one is told with the record at fault. */
int load_sheet(const char *path, uint8_t sheet[SHEET_MOST + 1], size_t *n);

/* Why a sheet is refused with this number, with the record at fault; its bytes are no sheet's any more. */
enum { REFUSAL_ROOM = 320 };
void tell_refusal(char reason[REFUSAL_ROOM], uint8_t *sheet, size_t n, uint32_t number);

/* The same as load_sheet; where the output is the input's own file, only once no other program changes it in this way,
 * and until this one ends none does. */
int load_to_change(const char *input, const char *output, uint8_t sheet[SHEET_MOST + 1], size_t *n);

#endif
