/* A row for XML validators: its model as a schema, its children as a document of empty elements
   below one element `row`. */
#ifndef SCHEMA_H
#define SCHEMA_H

#include "model.h"

/* Each gives false where the language has no words for the model, or would need very many. */
typedef bool write_schema(const struct model *model, struct text *schema);
write_schema write_relax_ng, write_xsd;

void write_document(struct bytes children, struct text *document);

#endif
