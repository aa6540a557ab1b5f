/* What a customer's own program showed for the states of a sheet, judged state by state. */
#ifndef CHECKLIST_SHOWN_H
#define CHECKLIST_SHOWN_H

#include <stdbool.h>

/* Prints the judgement of a file of names, values and units; gives whether each line is right. */
bool judge_file(const char *path, const char *sheet_path);

#endif
