/* fstsome WAVE.fst [NAME ..]: the signals of these full names in an FST, as a VCD on standard output, for tlwave; of
   the others their names alone. Over the reader of GTKWave that Verilator brings: fstapi.c, fastlz.c and lz4.c of its
   include/gtkwave, and zlib. Status 1 where the file is no FST. */
#include "fstapi.h"
#include <ctype.h>
#include <stdio.h>
#include <stdlib.h>
#include <string.h>

#define MOST_NAME 8192
#define MOST_DEPTH 512

static uint64_t last = ~(uint64_t)0;

static void put(void *none, uint64_t time, fstHandle signal, const unsigned char *value) {
    (void)none;
    if (time != last) printf("#%llu\n", (unsigned long long)time);
    last = time;
    if (value[0] && !value[1]) printf("%cn%u\n", value[0], signal);
    else printf("b%s n%u\n", value, signal);
}
static void put_long(void *none, uint64_t time, fstHandle signal, const unsigned char *value, uint32_t len) {
    (void)len;
    put(none, time, signal, value);
}
/* The name without blanks, and without the range of its bits. */
static void tidy(char *name) {
    char *to = name, *from = name, *open;
    for (; *from; from++) if (!isspace((unsigned char)*from)) *to++ = *from;
    *to = 0;
    open = strrchr(name, '[');
    if (open && strchr(open, ':') && to[-1] == ']') *open = 0;
}
static int is_wanted(const char *name, char **names, int count) {
    int i;
    for (i = 0; i < count; i++) if (!strcmp(name, names[i])) return 1;
    return 0;
}
/* Prints the header, and has the reader look at what is wanted alone; 0 where a name is too long. */
static int header(void *wave, char **names, int count) {
    static char name[MOST_NAME];
    static size_t begins[MOST_DEPTH];
    size_t depth = 0, len = 0;
    struct fstHier *it;
    while ((it = fstReaderIterateHier(wave))) {
        if (it->htyp == FST_HT_SCOPE) {
            size_t more = strlen(it->u.scope.name);
            if (depth == MOST_DEPTH || len + more + 2 > MOST_NAME) return 0;
            printf("$scope module %s $end\n", it->u.scope.name);
            begins[depth++] = len;
            memcpy(name + len, it->u.scope.name, more);
            len += more;
            name[len++] = '.';
        } else if (it->htyp == FST_HT_UPSCOPE) {
            if (!depth) return 0;
            len = begins[--depth];
            printf("$upscope $end\n");
        } else if (it->htyp == FST_HT_VAR) {
            if (len + strlen(it->u.var.name) + 1 > MOST_NAME) return 0;
            strcpy(name + len, it->u.var.name);
            tidy(name + len);
            if (is_wanted(name, names, count)) fstReaderSetFacProcessMask(wave, it->u.var.handle);
            printf("$var wire %u n%u %s $end\n", it->u.var.length, it->u.var.handle, name + len);
        }
    }
    printf("$enddefinitions $end\n");
    return 1;
}
int main(int argc, char **argv) {
    void *wave = argc > 1 ? fstReaderOpen(argv[1]) : NULL;
    if (!wave) {
        fprintf(stderr, "%s is no FST\n", argc > 1 ? argv[1] : "fstsome WAVE.fst NAME ..");
        return 1;
    }
    fstReaderClrFacProcessMaskAll(wave);
    if (!header(wave, argv + 2, argc - 2)) {
        fprintf(stderr, "%s: a name of it is too long\n", argv[1]);
        return 1;
    }
    fstReaderIterBlocks2(wave, put, put_long, NULL, NULL);
    fstReaderClose(wave);
    return 0;
}
