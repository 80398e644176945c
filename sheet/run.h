/* A case from its bytes to what is printed of it, apart from the files and arguments of a program. */
#ifndef SHEET_RUN_H
#define SHEET_RUN_H

#include <stddef.h>
#include <stdio.h>

/* What is printed: the sheet, the sheet to fill in, the table for a spreadsheet, or the hexadecimal text. */
enum output { SHEET, BLANK, CSV, TEXT };

struct options {
    enum output output;
    int from_text; /* the bytes are a hexadecimal text, and no words */
};

/* The exit statuses. */
enum status { WORKED = 0, REFUSED = 1, UNREADABLE = 2 };

/* Prints on `out` what the options ask for and gives WORKED; or prints nothing there and one line on `err`, with the
 * name of the file where it is not NULL. */
int sheet_run(const char *name, const unsigned char *bytes, size_t length, struct options options, FILE *out,
              FILE *err);

/* One line on `err`: the program, the file where it has a name, and the message. Gives the status. */
int tell(FILE *err, const char *name, const char *message, enum status status);

#endif
