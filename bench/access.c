// The peer of `bench_layouts table FORM ROWS SETS GETS`: the same work on the same bytes, by accessors written by hand.
//
//   access fixed|general aos|soa|aosoa ROWS SETS GETS
#include "layouts.h"

int main(int count, char **words) {
    int kind = count == 6 ? index_of(words[1], KINDS, 2) : -1;
    int form = count == 6 ? index_of(words[2], FORMS, 3) : -1;
    if (kind < 0 || form < 0) {
        puts("usage: access fixed|general aos|soa|aosoa ROWS SETS GETS");
        return USAGE;
    }
    struct table table;
    number sum;
    struct work work = WORKS[kind][form];
    if (!make_table(&table, (enum form)form, (uint32_t)strtoul(words[3], NULL, 10)) ||
        !work.write(&table, (uint32_t)strtoul(words[4], NULL, 10)) ||
        !work.read(&table, (uint32_t)strtoul(words[5], NULL, 10), &sum)) {
        puts("fault");
        return FAULT;
    }
    print_number(sum);
    return 0;
}
