/* Was linked against a library with two functions, and is run with one that has the first alone. */
#include <stdio.h>

int there(int number);
int gone(int number);

int main(void)
{
    volatile int wanted = 0;
    for (int number = 1; number <= 3; number++)
        printf("there(%d) is %d\n", number, there(number));
    return wanted ? gone(1) : 0;
}
