/* Prints what each number from 0 to 99 means, a line for each. */
#include "hejslopi.h"

#include <stdio.h>

int main(void)
{
    for (unsigned number = 0; number < 100; number++)
        printf("%u %s\n", number, hejslopi_meaning(number));
    return 0;
}
