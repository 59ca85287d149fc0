#include "schema.h"

#include <stdio.h>

/* RELAX NG has no counts, only copies of an element: so many of them, in a schema so long. */
enum { MOST_COPIES = 100, MOST_BYTES = TEXT_ROOM / 2 };

/* ---- tags ---- */

static void open_tag(struct text *to, const char *tag, const char *attributes)
{
    put(to, "<");
    put(to, tag);
    put(to, attributes);
    put(to, ">");
}

static void close_tag(struct text *to, const char *tag)
{
    put(to, "</");
    put(to, tag);
    put(to, ">");
}

/* ---- marks ---- */

/* Neither language has a word for `!`. */
static bool has_nonempty(const struct model *model)
{
    for (int i = 0; i < model->parts; i++)
        if (model->part[i].nonempty)
            return true;
    return false;
}

/* ---- RELAX NG ---- */

static void relax_ng_element(struct text *to, struct bytes name, unsigned times)
{
    while (times-- > 0) {
        put(to, "<element name='");
        put_bytes(to, name);
        put(to, "'><empty/></element>");
    }
}

/* m elements, and inside each other n - m that may be missing; for no upper end the last of the m
   may stand again and again. */
static bool relax_ng_atom(struct text *to, const struct part *atom)
{
    const char *again = atom->max != NO_END ? "" : atom->min == 0 ? "zeroOrMore" : "oneOrMore";
    unsigned copies = atom->max == NO_END && atom->min > 0 ? atom->min - 1 : atom->min;
    unsigned more = atom->max == NO_END ? 0 : atom->max - atom->min;
    if (copies > MOST_COPIES || more > MOST_COPIES || to->len > MOST_BYTES)
        return false;
    bool several = copies + (*again != '\0') + (more > 0) > 1;
    put(to, several ? "<group>" : "");
    relax_ng_element(to, atom->name, copies);
    if (*again != '\0') {
        open_tag(to, again, "");
        relax_ng_element(to, atom->name, 1);
        close_tag(to, again);
    }
    for (unsigned i = 0; i < more; i++) {
        open_tag(to, "optional", "");
        relax_ng_element(to, atom->name, 1);
    }
    put_times(to, "</optional>", more);
    put(to, several ? "</group>" : "");
    return true;
}

static bool relax_ng_part(struct text *to, const struct part *part);

static bool relax_ng_group(struct text *to, const struct part *group)
{
    const char *tag = group->sign == '|' ? "choice" : group->sign == '&' ? "interleave" : "group";
    if (group->first == NULL) {
        put(to, "<empty/>");
        return true;
    }
    open_tag(to, tag, "");
    for (const struct part *p = group->first; p != NULL; p = p->next)
        if (!relax_ng_part(to, p))
            return false;
    close_tag(to, tag);
    return true;
}

static bool relax_ng_part(struct text *to, const struct part *part)
{
    put(to, part->optional ? "<optional>" : "");
    if (!(part->sign == 0 ? relax_ng_atom(to, part) : relax_ng_group(to, part)))
        return false;
    put(to, part->optional ? "</optional>" : "");
    return true;
}

bool write_relax_ng(const struct model *model, struct text *schema)
{
    begin(schema, "<element name='row' xmlns='http://relaxng.org/ns/structure/1.0'>");
    if (has_nonempty(model) || !relax_ng_part(schema, model->part))
        return false;
    put(schema, "</element>");
    return true;
}

/* ---- XSD ---- */

static const char *xsd_mark(bool optional) { return optional ? " minOccurs='0'" : ""; }

static void xsd_element(struct text *to, struct bytes name, unsigned min, unsigned max)
{
    char count[40];
    put(to, "<xs:element type='none' name='");
    put_bytes(to, name);
    snprintf(count, sizeof count, "' minOccurs='%u' maxOccurs='", min);
    put(to, count);
    snprintf(count, sizeof count, max == NO_END ? "unbounded'/>" : "%u'/>", max);
    put(to, count);
}

/* `a[2..3]?` is a sequence that may be missing; otherwise a mark goes into the count. */
static void xsd_atom(struct text *to, const struct part *atom)
{
    if (!atom->optional || atom->min <= 1) {
        xsd_element(to, atom->name, atom->optional ? 0 : atom->min, atom->max);
        return;
    }
    open_tag(to, "xs:sequence", xsd_mark(true));
    xsd_element(to, atom->name, atom->min, atom->max);
    close_tag(to, "xs:sequence");
}

/* Interleaving only as the whole model, and only of names that stand at most once. */
static bool xsd_all(struct text *to, const struct part *group)
{
    open_tag(to, "xs:all", xsd_mark(group->optional));
    for (const struct part *p = group->first; p != NULL; p = p->next) {
        if (p->sign != 0 || p->max != 1)
            return false;
        xsd_atom(to, p);
    }
    close_tag(to, "xs:all");
    return true;
}

static bool xsd_group(struct text *to, const struct part *group)
{
    const char *tag = group->sign == '|' ? "xs:choice" : "xs:sequence";
    if (group->sign == '&')
        return false;
    open_tag(to, tag, xsd_mark(group->optional));
    for (const struct part *p = group->first; p != NULL; p = p->next) {
        if (p->sign == 0)
            xsd_atom(to, p);
        else if (!xsd_group(to, p))
            return false;
    }
    close_tag(to, tag);
    return true;
}

static bool xsd_whole(struct text *to, const struct part *whole)
{
    if (whole->sign == '&')
        return xsd_all(to, whole);
    if (whole->sign != 0)
        return xsd_group(to, whole);
    open_tag(to, "xs:sequence", "");
    xsd_atom(to, whole);
    close_tag(to, "xs:sequence");
    return true;
}

bool write_xsd(const struct model *model, struct text *schema)
{
    begin(schema, "<xs:schema xmlns:xs='http://www.w3.org/2001/XMLSchema'>"
                  "<xs:complexType name='none'/><xs:element name='row'><xs:complexType>");
    if (has_nonempty(model) || !xsd_whole(schema, model->part))
        return false;
    put(schema, "</xs:complexType></xs:element></xs:schema>");
    return true;
}

/* ---- the document ---- */

void write_document(struct bytes children, struct text *document)
{
    begin(document, "<row>");
    put(document, children.len == 0 ? "" : "<");
    for (size_t i = 0; i < children.len; i++)
        put(document, children.at[i] == '\t' ? "/><" : (char[]){(char)children.at[i], 0});
    put(document, children.len == 0 ? "" : "/>");
    put(document, "</row>");
}
