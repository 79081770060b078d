#include <stdlib.h>
#include <string.h>

int main(void)
{
    char *first = malloc(100), *second = malloc(7);
    memset(first, 'x', 100);
    free(second);
    free(first);
    return first[99] == 'x' ? 0 : 1;
}
