/* The plain loops beside which bench/writeback.sh times zramsim: pages are scanned, and pages are copied. */
#include <stdint.h>
#include <stdio.h>
#include <stdlib.h>
#include <string.h>
#include <time.h>

enum { PAGE = 4096, PAGES = 4096, ENTRIES = 262144, SCANS = 64, RUNS = 9 };

struct entry {
    uint64_t word, touched;
    uint32_t handle, block;
    uint16_t length;
    uint8_t form, idle;
};

static double now(void)
{
    struct timespec t;
    clock_gettime(CLOCK_PROCESS_CPUTIME_ID, &t);
    return t.tv_sec + t.tv_nsec / 1e9;
}

/* Half of the scans mark the entries that have an object, and half look for those that are huge and idle. */
static double scan(void)
{
    struct entry *row = calloc(ENTRIES, sizeof *row);
    volatile uint64_t found = 0;
    double from = now();
    for (int s = 0; s < SCANS; s++) {
        uint64_t n = 0;
        for (int p = 0; p < ENTRIES; p++) {
            struct entry *e = &row[p];
            if (s % 2)
                n += e->form == 3 && e->idle;
            else if (e->form >= 2 && !e->idle)
                e->idle = 1, n++;
        }
        found += n;
    }
    double took = now() - from;
    free(row);
    return took;
}

/* Each page is copied into one page, and from there into its block; then its memory is given up. */
static double copy(unsigned char *blocks)
{
    static unsigned char scratch[PAGE], *page[PAGES];
    for (int p = 0; p < PAGES; p++) {
        page[p] = malloc(PAGE);
        memset(page[p], p, PAGE);
    }
    double from = now();
    for (int p = 0; p < PAGES; p++) {
        memcpy(scratch, page[p], PAGE);
        __asm__ volatile("" ::"r"(scratch) : "memory");
        memcpy(blocks + (size_t)p * PAGE, scratch, PAGE);
        __asm__ volatile("" ::"r"(blocks) : "memory");
        free(page[p]);
    }
    return now() - from;
}

int main(int argc, char **argv)
{
    int scans = argc > 1 && strcmp(argv[1], "scan") == 0;
    double first = 1e9, again = 1e9;
    for (int r = 0; r < RUNS; r++) {
        unsigned char *blocks = malloc((size_t)PAGES * PAGE);
        double took = scans ? scan() : copy(blocks);
        first = took < first ? took : first;
        took = scans ? took : copy(blocks);
        again = took < again ? took : again;
        free(blocks);
    }
    if (scans)
        printf("%12d %9.3f %12.1f\n", ENTRIES * SCANS, first, first * 1e9 / ((double)ENTRIES * SCANS));
    else
        printf(" %12.0f %12.0f\n", first * 1e9 / PAGES, again * 1e9 / PAGES);
    return 0;
}
