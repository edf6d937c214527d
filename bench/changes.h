/* The text of changes (docs/CHANGE_FORMAT.md). */
#ifndef CHANGES_H
#define CHANGES_H

#include <stddef.h>
#include <stdint.h>

typedef struct {
    uint64_t counter;
    uint32_t node;
} Id;

/* No id: the parent of a character at the text's start. */
extern const Id START;

typedef struct {
    char *bytes;
    size_t length;
    size_t room;
    /* How many changes it has. */
    uint32_t changes;
} Changes;

Changes no_changes(void);
void let_go(Changes *changes);

/* The first line of a change. */
void begin_change(Changes *changes, uint32_t node, uint32_t count);
void insert_line(Changes *changes, Id id, Id parent, uint32_t code);
void removal_line(Changes *changes, Id id, Id removed);
/* A mark from before one character to before another; the key and the value as they are written, as "strong -". */
void mark_line(Changes *changes, Id id, const char *key_and_value, Id from, Id to);

/* A whole change of characters, each behind the one before it and the first behind its parent. It answers the last one's id. */
Id type_change(Changes *changes, Id first, Id parent, uint32_t count);
/* The same change of the second form, the characters as one run: 2 to 256. */
Id run_change(Changes *changes, Id first, Id parent, uint32_t count);

/* How a change of characters is written: type_change or run_change. */
typedef Id Typing(Changes *changes, Id first, Id parent, uint32_t count);

/* `count` characters, in changes of 256. */
Id type_text_by(Typing *typing, Changes *changes, Id first, uint32_t count);
Id type_text(Changes *changes, Id first, uint32_t count);

#endif
