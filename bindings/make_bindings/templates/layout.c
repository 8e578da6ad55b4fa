/*
 * Prints the size of each record of fimbrast.h and the place of each field, as they are in layout.out. A binding compares its
 * own records with that file. `make write-bindings` makes both from the Rattle source.
 */
#include <stdio.h>

#include "fimbrast.h"

#define SIZE(record) printf(#record " %zu:", sizeof(fimbrast_##record))
#define PLACE(record, field) printf(" " #field " %zu", offsetof(fimbrast_##record, field))
#define END putchar('\n')

int main(void)
{
@records
    return 0;
}
