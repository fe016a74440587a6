/* A file to be compiled with debugging information, whose sections and numbers in LEB128 are then read. */
#include <stdint.h>
#include <stdio.h>
#include <stdlib.h>
#include <string.h>

#define JOIN(a, b) a##_##b
#define JOINED(a, b) JOIN(a, b)
#define NAMED(a) JOINED(a, SUFFIX)

#define ITEM int8_t
#define SUFFIX i8
#include "sample.h"
#undef ITEM
#undef SUFFIX

#define ITEM uint8_t
#define SUFFIX u8
#include "sample.h"
#undef ITEM
#undef SUFFIX

#define ITEM int16_t
#define SUFFIX i16
#include "sample.h"
#undef ITEM
#undef SUFFIX

#define ITEM uint16_t
#define SUFFIX u16
#include "sample.h"
#undef ITEM
#undef SUFFIX

#define ITEM int32_t
#define SUFFIX i32
#include "sample.h"
#undef ITEM
#undef SUFFIX

#define ITEM uint32_t
#define SUFFIX u32
#include "sample.h"
#undef ITEM
#undef SUFFIX

#define ITEM int64_t
#define SUFFIX i64
#include "sample.h"
#undef ITEM
#undef SUFFIX

#define ITEM uint64_t
#define SUFFIX u64
#include "sample.h"
#undef ITEM
#undef SUFFIX

#define ITEM float
#define SUFFIX f32
#include "sample.h"
#undef ITEM
#undef SUFFIX

#define ITEM double
#define SUFFIX f64
#include "sample.h"
#undef ITEM
#undef SUFFIX

#define ITEM long double
#define SUFFIX f80
#include "sample.h"

int main(int count, char **words)
{
    struct list_i32 numbers = {0};
    for (int i = 1; i < count; i++)
        if (parse_i32(&numbers, words[i]))
            return 1;
    sort_i32(&numbers);
    unique_i32(&numbers);
    int written = print_i32(&numbers, stdout, " ");
    clear_i32(&numbers);
    return written < 0;
}
