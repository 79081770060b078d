int power(int base, int exponent)
{
    int product = 1;
    while (exponent--)
        product *= base;
    return product;
}
