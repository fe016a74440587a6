/* Lists the sections of ELF files and the stored files of ZIP archives, one a line: number or offset, size, name. */
#include "scroll_ffi.h"
#include <stdio.h>
#include <stdlib.h>

static int tell(const char *path, const scroll_error *error) {
    fprintf(stderr, "%s: offset %llu: %s\n", path, (unsigned long long)error->offset, scroll_ffi_text(error->code));
    return 1;
}

static int list_sections(const char *path, const uint8_t *file, size_t len) {
    scroll_elf_sections sections;
    scroll_elf_section section;
    scroll_error error;
    int found, status = 0;
    if (scroll_elf_open(file, len, &sections, &error) < 0)
        return tell(path, &error);
    for (unsigned i = 0; (found = scroll_elf_next(file, len, &sections, &section, &error)) != 0; i++) {
        if (found < 0)
            status = tell(path, &error);
        else
            printf("%u %llu %.*s\n", i, (unsigned long long)section.size, (int)section.name_len, (const char *)file + section.name_offset);
    }
    return status;
}

static int list_entries(const char *path, const uint8_t *archive, size_t len) {
    scroll_zip_end end;
    scroll_zip_file file;
    scroll_error error;
    uint64_t offset = 0;
    int found;
    if (scroll_zip_open(archive, len, &end, &error) < 0)
        return tell(path, &error);
    while ((found = scroll_zip_next(archive, len, &offset, end.directory_place, &file, &error)) > 0)
        printf("%llu %u %.*s\n", (unsigned long long)file.contents_offset, file.size, (int)file.name_len, (const char *)archive + file.name_offset);
    return found < 0 ? tell(path, &error) : 0;
}

int main(int count, char **paths) {
    int status = count < 2;
    for (int i = 1; i < count; i++) {
        FILE *from = fopen(paths[i], "rb");
        if (from == NULL || fseek(from, 0, SEEK_END) != 0) {
            perror(paths[i]);
            return 1;
        }
        size_t len = (size_t)ftell(from);
        uint8_t *bytes = malloc(len + 1);
        rewind(from);
        if (bytes == NULL || fread(bytes, 1, len, from) != len) {
            perror(paths[i]);
            return 1;
        }
        status |= len != 0 && bytes[0] == 0x7f ? list_sections(paths[i], bytes, len) : list_entries(paths[i], bytes, len);
        free(bytes);
        fclose(from);
    }
    return status;
}
