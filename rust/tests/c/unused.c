/* The header by itself: what is not used of it is no warning. */
#include "hejslopi.h"

int main(void)
{
    return 0;
}
