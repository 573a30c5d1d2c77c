#include "medium.h"
#include "keep.h"

#include <stdio.h>

static FILE *file;

int medium_open(const char *name)
{
    if (file != NULL) {
        fclose(file);
    }
    file = fopen(name, "r+b");
    if (file == NULL) {
        file = fopen(name, "w+b");
    }
    return file == NULL ? -1 : 0;
}

int medium_read(size_t at, uint8_t *bytes, size_t n)
{
    return fseek(file, (long)at, SEEK_SET) == 0 && fread(bytes, 1, n, file) == n ? 0 : -1;
}

/* a driver of real memory comes back when the bytes are in the cells; here the operating system has them */
int medium_write(size_t at, const uint8_t *bytes, size_t n)
{
    return fseek(file, (long)at, SEEK_SET) == 0 && fwrite(bytes, 1, n, file) == n && fflush(file) == 0 ? 0 : -1;
}
