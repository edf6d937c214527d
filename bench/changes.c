#include "changes.h"

#include <stdarg.h>
#include <stdio.h>
#include <stdlib.h>

const Id START = {0, 0};

Changes no_changes(void) {
    Changes changes = {NULL, 0, 0, 0};
    return changes;
}

void let_go(Changes *changes) {
    free(changes->bytes);
    *changes = no_changes();
}

static void add(Changes *changes, const char *format, ...) {
    if (changes->room - changes->length < 2048) {
        changes->room = 2 * changes->room + 65536;
        changes->bytes = realloc(changes->bytes, changes->room);
        if (!changes->bytes) {
            exit(1);
        }
    }
    va_list arguments;
    va_start(arguments, format);
    changes->length += (size_t)vsnprintf(changes->bytes + changes->length, 2048, format, arguments);
    va_end(arguments);
}

void begin_change(Changes *changes, uint32_t node, uint32_t count) {
    changes->changes++;
    add(changes, "change %u %u\n", node, count);
}

static void add_parent(Changes *changes, Id parent) {
    if (parent.node == 0) {
        add(changes, "-");
    } else {
        add(changes, "%llu@%u", (unsigned long long)parent.counter, parent.node);
    }
}

void insert_line(Changes *changes, Id id, Id parent, uint32_t code) {
    add(changes, "i %llu@%u ", (unsigned long long)id.counter, id.node);
    add_parent(changes, parent);
    add(changes, " %x\n", code);
}

void removal_line(Changes *changes, Id id, Id removed) {
    add(changes, "d %llu@%u %llu@%u\n", (unsigned long long)id.counter, id.node, (unsigned long long)removed.counter, removed.node);
}

void mark_line(Changes *changes, Id id, const char *key_and_value, Id from, Id to) {
    add(changes, "m %llu@%u %s <%llu@%u <%llu@%u\n", (unsigned long long)id.counter, id.node, key_and_value,
        (unsigned long long)from.counter, from.node, (unsigned long long)to.counter, to.node);
}

Id type_change(Changes *changes, Id first, Id parent, uint32_t count) {
    begin_change(changes, first.node, count);
    Id id = first;
    for (uint32_t at = 0; at < count; at++) {
        insert_line(changes, id, parent, 'a' + at % 26);
        parent = id;
        id.counter++;
    }
    return parent;
}

Id run_change(Changes *changes, Id first, Id parent, uint32_t count) {
    changes->changes++;
    add(changes, "change2 %u 1\nr %llu@%u ", first.node, (unsigned long long)first.counter, first.node);
    add_parent(changes, parent);
    add(changes, " %u", count);
    for (uint32_t at = 0; at < count; at++) {
        add(changes, " %x", 'a' + at % 26);
    }
    add(changes, "\n");
    first.counter += count - 1;
    return first;
}

Id type_text_by(Typing *typing, Changes *changes, Id first, uint32_t count) {
    Id last = START;
    for (uint32_t done = 0; done < count; done += 256) {
        uint32_t next = count - done < 256 ? count - done : 256;
        last = typing(changes, first, last, next);
        first.counter += next;
    }
    return last;
}

Id type_text(Changes *changes, Id first, uint32_t count) {
    return type_text_by(type_change, changes, first, count);
}
