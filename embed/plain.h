/* A reader of ELF's sections in plain C, for damage.c: what each call returns and stores, errors too. */
#ifndef PLAIN_H
#define PLAIN_H
#include "scroll_ffi.h"
#include <string.h>

static uint64_t number(const uint8_t *at, int size, int order) {
    uint64_t value = 0;
    for (int i = 0; i < size; i++)
        value = value << 8 | at[order == 2 ? i : size - 1 - i];
    return value;
}

/* What an error holds before a call that stores none. */
static const scroll_error NONE = {7, 7, 7, 7};

/* Stores an error, and returns its code. */
static int fail(scroll_error *to, int code, uint64_t offset, uint64_t value) {
    *to = (scroll_error){code, 0, offset, value};
    return code;
}

/* Returns the error of a value of `size` bytes at an offset, or 0. */
static int room(size_t len, uint64_t offset, uint64_t size, scroll_error *error) {
    return offset > len ? fail(error, SCROLL_BAD_OFFSET, offset, 0) : len - offset < size ? fail(error, SCROLL_TRUNCATED, offset, 0) : 0;
}

static int plain_open(const uint8_t *file, size_t len, scroll_elf_sections *to, scroll_error *error) {
    if (len < 64)
        return fail(error, SCROLL_TRUNCATED, 0, 0);
    if (memcmp(file, "\177ELF", 4) != 0)
        return fail(error, SCROLL_BAD_MAGIC, 0, number(file, 4, 2));
    if (file[4] != 2)
        return fail(error, SCROLL_BAD_CLASS, 4, file[4]);
    if (file[5] != 1 && file[5] != 2)
        return fail(error, SCROLL_BAD_ORDER, 5, file[5]);
    if (file[6] != 1)
        return fail(error, SCROLL_BAD_VERSION, 6, file[6]);
    unsigned size = number(file + 58, 2, file[5]), count = number(file + 60, 2, file[5]), names = number(file + 62, 2, file[5]);
    *to = (scroll_elf_sections){file[5], count, number(file + 40, 8, file[5]), 0, 0};
    if (count == 0)
        return to->next != 0 ? fail(error, SCROLL_LONG_TABLE, 60, 0) : 0;
    if (size != 64)
        return fail(error, SCROLL_BAD_ENTRY_SIZE, 58, size);
    if (names >= count)
        return fail(error, SCROLL_BAD_NAMES, 62, names);
    uint64_t place = to->next + 64 * names;
    int fault = place < to->next ? fail(error, SCROLL_BAD_OFFSET, to->next, 0) : room(len, place, 64, error);
    if (fault != 0)
        return fault;
    const uint8_t *entry = file + place;
    to->names_offset = number(entry + 24, 8, file[5]);
    to->names_size = number(entry + 32, 8, file[5]);
    return room(len, to->names_offset, to->names_size, error);
}

static int plain_next(const uint8_t *file, size_t len, scroll_elf_sections *from, scroll_elf_section *to, scroll_error *error) {
    scroll_elf_sections at = *from;
    int order = (int)at.order, fault;
    if (at.left == 0)
        return 0;
    from->left = 0;
    if (order != 1 && order != 2)
        return fail(error, SCROLL_BAD_ORDER, 0, at.order);
    if ((fault = room(len, at.names_offset, at.names_size, error)) != 0 || (fault = room(len, at.next, 64, error)) != 0)
        return fault;
    const uint8_t *e = file + at.next, *names = file + at.names_offset;
    from->left = at.left - 1;
    from->next = at.next + 64;
    *to = (scroll_elf_section){0, 0, number(e, 4, order), number(e + 4, 4, order), number(e + 8, 8, order), number(e + 16, 8, order),
        number(e + 24, 8, order), number(e + 32, 8, order), number(e + 40, 4, order), number(e + 44, 4, order), number(e + 48, 8, order), number(e + 56, 8, order)};
    if (to->name > at.names_size)
        return fail(error, SCROLL_BAD_OFFSET, at.names_offset, 0);
    const uint8_t *zero = at.names_size == to->name ? NULL : memchr(names + to->name, 0, at.names_size - to->name);
    if (zero == NULL)
        return fail(error, SCROLL_BAD_INPUT, at.names_offset, 0);
    to->name_offset = at.names_offset + to->name;
    to->name_len = (uint64_t)(zero - names) - to->name;
    return 1;
}

#endif
