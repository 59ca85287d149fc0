#include "libxml.h"
#include "schema.h"

#include <libxml/parser.h>
#include <libxml/relaxng.h>
#include <libxml/xmlschemas.h>
#include <stdlib.h>

/* ---- the two languages ---- */

/* What libxml2 makes of a schema's text: null, null if it refuses it. */
struct compiled {
    void *schema, *context;
};

struct language {
    write_schema *write;
    struct compiled (*compile)(struct bytes text);
    int (*validate)(struct compiled c, xmlDocPtr document); /* 0: valid, above 0: invalid */
    void (*forget)(struct compiled c);
};

static struct compiled compile_relax_ng(struct bytes text)
{
    xmlRelaxNGParserCtxtPtr parser =
        xmlRelaxNGNewMemParserCtxt((const char *)text.at, (int)text.len);
    xmlRelaxNGPtr schema = xmlRelaxNGParse(parser);
    xmlRelaxNGFreeParserCtxt(parser);
    return (struct compiled){schema, schema == NULL ? NULL : xmlRelaxNGNewValidCtxt(schema)};
}

static int validate_relax_ng(struct compiled c, xmlDocPtr document)
{
    return xmlRelaxNGValidateDoc(c.context, document);
}

static void forget_relax_ng(struct compiled c)
{
    xmlRelaxNGFreeValidCtxt(c.context);
    xmlRelaxNGFree(c.schema);
}

static struct compiled compile_xsd(struct bytes text)
{
    xmlSchemaParserCtxtPtr parser =
        xmlSchemaNewMemParserCtxt((const char *)text.at, (int)text.len);
    xmlSchemaPtr schema = xmlSchemaParse(parser);
    xmlSchemaFreeParserCtxt(parser);
    return (struct compiled){schema, schema == NULL ? NULL : xmlSchemaNewValidCtxt(schema)};
}

static int validate_xsd(struct compiled c, xmlDocPtr document)
{
    return xmlSchemaValidateDoc(c.context, document);
}

static void forget_xsd(struct compiled c)
{
    xmlSchemaFreeValidCtxt(c.context);
    xmlSchemaFree(c.schema);
}

static const struct language RELAX_NG_HERE = {
    write_relax_ng, compile_relax_ng, validate_relax_ng, forget_relax_ng,
};
static const struct language XSD_HERE = {
    write_xsd, compile_xsd, validate_xsd, forget_xsd,
};
const struct language *const RELAX_NG = &RELAX_NG_HERE, *const XSD = &XSD_HERE;

const char *libxml_version(void) { return LIBXML_DOTTED_VERSION; }

/* ---- rows ---- */

struct validator {
    const struct language *language;
    struct text schema_text;
    struct compiled compiled;
    xmlDocPtr document;
};

#if LIBXML_VERSION >= 21200
typedef const xmlError *error_pointer;
#else
typedef xmlErrorPtr error_pointer;
#endif

static void say_nothing(void *user, error_pointer error)
{
    (void)user;
    (void)error;
}

/* Fills the validator; gives null, or why the row cannot be measured. */
static const char *prepare(struct validator *v, const struct row *row)
{
    static struct text document;
    static struct model model;
    read_model(&model, written(&row->model));
    if (!v->language->write(&model, &v->schema_text))
        return "-";
    v->compiled = v->language->compile(written(&v->schema_text));
    if (v->compiled.schema == NULL)
        return "refused";
    write_document(written(&row->children), &document);
    v->document = xmlReadMemory((const char *)document.byte, (int)document.len, NULL, NULL, 0);
    int answer = v->language->validate(v->compiled, v->document);
    return (row->answer == 0 ? answer == 0 : answer > 0) ? NULL : "wrong";
}

struct validator *new_validator(const struct language *language, const struct row *row,
                                const char **why)
{
    struct validator *v = calloc(1, sizeof *v);
    if (v == NULL)
        abort();
    xmlSetStructuredErrorFunc(NULL, say_nothing);
    v->language = language;
    *why = prepare(v, row);
    if (*why == NULL)
        return v;
    free_validator(v);
    return NULL;
}

void free_validator(struct validator *v)
{
    v->language->forget(v->compiled);
    xmlFreeDoc(v->document);
    free(v);
}

static volatile int sink; /* keeps the calls */

void validate(void *validator, long times)
{
    struct validator *v = validator;
    while (times-- > 0)
        sink = v->language->validate(v->compiled, v->document);
}

void compile_and_validate(void *validator, long times)
{
    struct validator *v = validator;
    while (times-- > 0) {
        struct compiled c = v->language->compile(written(&v->schema_text));
        sink = v->language->validate(c, v->document);
        v->language->forget(c);
    }
}
