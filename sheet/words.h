/* A case in words: its lines read into records. */
#ifndef SHEET_WORDS_H
#define SHEET_WORDS_H

#include "frames.h"
#include "scanner.h"

/* Reads all lines into records that are empty. What cannot be read is told by the scanner: the first such place. */
void read_words(struct records *records, struct scanner *scanner);

/* The person's own word for a field of a record, found by reading its line again; empty where there is none. */
struct span own_word(const struct record *record, size_t field);

#endif
