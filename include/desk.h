/* The desk: judges a row of children by a model, lists the names that may come next, finds the
   first child that is foreign or one too many, and writes a model in the one way that there is for
   it. Link with libdesk.a (tools/desk-library).

   A model text is one member: `(axis,target,(crawl&gather)?,hold[0..2])`. A member may have a mark
   behind it, `?` or `!`: with `?` it also holds the empty row, with `!` it does not, so that
   `(a?,b?)!` holds a, b and a b. A children text is names parted by tabs; no bytes mean no
   children, and then the pointer may be null. A name begins with a letter, A to Z or a to z, or an
   underscore and goes on with letters, digits, `-`, `_`, `.` and `:`; it has at most 32 characters,
   and case counts. Texts are bytes with a length, not ended by a zero. They are not written, and
   nothing is kept from call to call.

   desk_judge writes nothing.

   Answer      When
        0      complete: the row is in the model
        1      open: it is not, but some longer row that begins with it is
        2      dead: neither; a name that the model lacks makes the row dead
   The model text is refused:
       10      empty, or over 4,096 bytes
       11      no model begins so, or the text stops short
       12      a name over 32 characters
       13      n is 0, n below m, or a number over 60,000 in a count [m..n] or [m..*]
       14      over 16 groups around an atom, counted after flattening (below)
       15      over 64 atoms
       16      over 128 nodes
       17      a name written before
       18      a `!` whose member has no atom
       19      over 64 round brackets open at once
   The model text is good and the children text is refused:
       30      over 65,535 bytes
       35      a child is no name of 1 to 32 characters
       36      over 4,096 children

   10 comes first; of 11 to 19 the one at the smallest place of the text wins, then the smallest
   number. The place of 14 is the end of the text, so it comes last. Of 30, 35 and 36 the smallest
   number wins.

   Flattening goes from the inside out: `()` is dropped from every group, and marks a choice that
   has no mark with `?`; a group of one gives way to its member, and its mark, if it has one, takes
   the place of the member's; a group without a mark inside a group of the same sign joins it. A
   group left without members is `()`, and so is `()?`. So there is no group around a in
   `((((a))))`, one in `((a,b),c)`, and there are two in `((a,b)?,c)`, `((a,b)!,c)` and
   `((a|b|())|c)`. Atoms and nodes are counted as written.

   desk_next lists the names that may come next behind the children: those whose addition would
   leave the row complete or open. It writes their numbers into the row that it is lent, from the
   first place on, each once, rising. Names are numbered from 1 as they are written in the model
   text. Places behind the last number stay as they were. From a dead row there are none; behind
   4,096 children names are listed as well. row_len counts places: 64 are always enough, and where
   it is 0 the pointer may be null.

   Answer             When
   below DESK_REFUSED how many names are listed, at most 64
   DESK_REFUSED + n   nothing is written: n is a refusal from 10 to 36 above, else
                  46  the lent row is shorter than the list

   desk_first_fault finds the first child that is foreign, its name not in the model, or one too
   many of its name: up to and with it the name stands more often than the upper count of its atom
   allows, n for a[m..n] and 1 for a; a[m..*] allows any number. Order, signs and marks play no
   part: a row with such a child is dead, but not every dead row has one. It writes nothing.

   Answer             When
   0 to 4,095         the place of that child; the first child is at place 0
   DESK_NO_FAULT      there is none
   DESK_REFUSED + n   n is a refusal from 10 to 36 above, wherever such a child is

   desk_canonical writes the model's canonical text into the buffer that it is lent. It is a model
   text with the same names and the same rows, and is its own canonical text. Bytes behind it stay
   as they were. 4,096 bytes are always enough, and where buffer_len is 0 the pointer may be null.
   The buffer must not overlap the model text.

   Answer             When
   below DESK_REFUSED how long the text is, at least 1
   DESK_REFUSED + n   nothing is written: n is a refusal from 10 to 19 above, else
                  51  the text is longer than the buffer

   The model is flattened as above, and on the way, from the inside out: `[1..1]` is left out,
   `[0..1]` is written `?`, `[0..n]` is written `[1..n]?`, and `[0..n]!` is written `[1..n]`; a
   member of a choice is written without the empty row: one that holds it gets `!` or loses its `?`,
   and the choice gets `?` if it has no mark; and a mark that changes nothing is dropped, `?` from a
   group that holds the empty row without it, `!` from a member that does not, before it is asked
   whether the group joins another. Then the members of every `|` and `&` are put in the order of
   their smallest names: byte order, a name before one that it begins. A model without names is
   `()`. So `((a?,b?)?,c)` is written `(a?,b?,c)`, `((c[0..1]|b)|a)` is written `(a|b|c)?`,
   `((a?,b?)|c)` is written `((a?,b?)!|c)?`, and `((a?,b?)|c)!` is written `((a?,b?)!|c)`. */
#ifndef DESK_H
#define DESK_H

#include <stddef.h>
#include <stdint.h>

#ifdef __cplusplus
extern "C" {
#endif

#define DESK_REFUSED UINT32_C(2147483648)
#define DESK_NO_FAULT UINT32_C(65535)

uint32_t desk_judge(const uint8_t *model, size_t model_len,
                    const uint8_t *children, size_t children_len);

uint32_t desk_next(const uint8_t *model, size_t model_len,
                   const uint8_t *children, size_t children_len, uint16_t *row, size_t row_len);

uint32_t desk_first_fault(const uint8_t *model, size_t model_len,
                          const uint8_t *children, size_t children_len);

uint32_t desk_canonical(const uint8_t *model, size_t model_len,
                        uint8_t *buffer, size_t buffer_len);

#ifdef __cplusplus
}
#endif

#endif
