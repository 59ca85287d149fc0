/* libxml2's validators of RELAX NG and of XSD, in this process. */
#ifndef LIBXML_H
#define LIBXML_H

#include "rows.h"

struct language;
extern const struct language *const RELAX_NG, *const XSD;

const char *libxml_version(void);

/* A row as a validator gets it: the document parsed, the schema as text and compiled. */
struct validator;

/* Null where the row cannot be measured, and then *why says so in a word: `-` for a model that the
   language cannot say, `refused` for a schema that libxml2 does not take, `wrong` for an answer
   other than valid for complete and invalid for open and dead. */
struct validator *new_validator(const struct language *language, const struct row *row,
                                const char **why);
void free_validator(struct validator *v);

/* To be timed: so many validations, with the schema compiled beforehand, or compiled each time. */
void validate(void *validator, long times);
void compile_and_validate(void *validator, long times);

#endif
