/* Functions over items of the type ITEM, whose names end in the word that NAMED adds. sample.c includes them for each type. */

struct NAMED(list) {
    ITEM *items;
    unsigned long count, room;
};

int NAMED(push)(struct NAMED(list) *list, ITEM item)
{
    if (list->count == list->room) {
        unsigned long room = list->room ? 2 * list->room : 8;
        ITEM *items = realloc(list->items, room * sizeof *items);
        if (!items)
            return -1;
        list->items = items;
        list->room = room;
    }
    list->items[list->count++] = item;
    return 0;
}

ITEM NAMED(sum)(const struct NAMED(list) *list)
{
    ITEM total = 0;
    for (unsigned long i = 0; i < list->count; i++)
        total += list->items[i];
    return total;
}

long NAMED(find)(const struct NAMED(list) *list, ITEM wanted)
{
    unsigned long low = 0, high = list->count;
    while (low < high) {
        unsigned long middle = low + (high - low) / 2;
        if (list->items[middle] < wanted)
            low = middle + 1;
        else if (list->items[middle] > wanted)
            high = middle;
        else
            return (long)middle;
    }
    return -1;
}

static void NAMED(sift)(ITEM *items, unsigned long root, unsigned long count)
{
    while (2 * root + 1 < count) {
        unsigned long child = 2 * root + 1;
        if (child + 1 < count && items[child] < items[child + 1])
            child++;
        if (items[root] >= items[child])
            return;
        ITEM other = items[root];
        items[root] = items[child];
        items[child] = other;
        root = child;
    }
}

void NAMED(sort)(struct NAMED(list) *list)
{
    unsigned long count = list->count;
    for (unsigned long root = count / 2; root-- > 0;)
        NAMED(sift)(list->items, root, count);
    for (unsigned long last = count; last > 1; last--) {
        ITEM other = list->items[0];
        list->items[0] = list->items[last - 1];
        list->items[last - 1] = other;
        NAMED(sift)(list->items, 0, last - 1);
    }
}

unsigned long NAMED(unique)(struct NAMED(list) *list)
{
    unsigned long kept = 0;
    for (unsigned long i = 0; i < list->count; i++) {
        if (kept && list->items[kept - 1] == list->items[i])
            continue;
        list->items[kept++] = list->items[i];
    }
    list->count = kept;
    return kept;
}

int NAMED(print)(const struct NAMED(list) *list, FILE *to, const char *between)
{
    char text[64];
    int written = 0;
    for (unsigned long i = 0; i < list->count; i++) {
        int len = snprintf(text, sizeof text, "%s%g", i ? between : "", (double)list->items[i]);
        if (len < 0 || (unsigned long)len >= sizeof text)
            return -1;
        if (fwrite(text, 1, (unsigned long)len, to) != (unsigned long)len)
            return -1;
        written += len;
    }
    return written;
}

int NAMED(parse)(struct NAMED(list) *list, const char *text)
{
    while (*text) {
        char *end;
        double number = strtod(text, &end);
        if (end == text)
            return -1;
        if (NAMED(push)(list, (ITEM)number))
            return -2;
        text = end;
        while (*text == ' ' || *text == ',')
            text++;
    }
    return 0;
}

void NAMED(blur)(struct NAMED(list) *list, ITEM *scratch)
{
    unsigned long count = list->count;
    for (unsigned long i = 0; i < count; i++) {
        ITEM left = i ? list->items[i - 1] : list->items[i];
        ITEM right = i + 1 < count ? list->items[i + 1] : list->items[i];
        scratch[i] = (left + 2 * list->items[i] + right) / 4;
    }
    if (count)
        memcpy(list->items, scratch, count * sizeof *scratch);
}

void NAMED(clear)(struct NAMED(list) *list)
{
    free(list->items);
    memset(list, 0, sizeof *list);
}
