/* The library in its first version. */
int ticks(int seconds) { return 100 * seconds; }
