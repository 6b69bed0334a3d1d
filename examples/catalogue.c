/* Prints the sheet of one length, 1 to 10: a line for each pattern of so many values, with its list of distances, the least values
 * that have it, and its code, in the order of the lists. Tabs part the three; the first line names them. */
#include <stdio.h>
#include <stdlib.h>
#include "finder.h"

enum { MOST = 10 };

static int refused(const char *what, uint32_t number)
{
    fprintf(stderr, "catalogue: %s: refused %u\n", what, number);
    return 1;
}

/* The line of one list; 1 where a call is refused. */
static int print_line(const uint32_t *list, size_t n)
{
    int32_t values[MOST];
    FinderWritten written = finder_least_realization(list, n, values, MOST);
    if (written.refusal)
        return refused("least values", written.refusal);
    FinderCode encoded = finder_encode(list, n);
    if (encoded.refusal)
        return refused("code", encoded.refusal);
    for (size_t i = 0; i < n; i++)
        printf("%s%u", i ? " " : "", list[i]);
    for (size_t i = 0; i < n; i++)
        printf("%s%d", i ? " " : "\t", values[i]);
    printf("\t%llu\n", (unsigned long long)encoded.code);
    return 0;
}

int main(int argc, char **argv)
{
    char *end = "";
    size_t n = argc == 2 ? strtoul(argv[1], &end, 10) : 0;
    if (n < 1 || n > MOST || *end) {
        fprintf(stderr, "usage: catalogue LENGTH, from 1 to %d\n", MOST);
        return 2;
    }
    uint32_t lists[2][MOST] = {{0}}; /* the list that is printed, and the next one */
    printf("distances\tleast values\tcode\n");
    for (int now = 0;; now = !now) {
        if (print_line(lists[now], n))
            return 1;
        FinderNextList next = finder_next_list(lists[now], n, lists[!now], n);
        if (next.refusal)
            return refused("next list", next.refusal);
        if (next.last)
            return 0;
    }
}
