/* The library in its second version: ten times as many ticks, and the old ones for who was linked against the first. */
int ticks_1(int seconds) { return 100 * seconds; }
int ticks_2(int seconds) { return 1000 * seconds; }
__asm__(".symver ticks_1, ticks@CLOCK_1");
__asm__(".symver ticks_2, ticks@@CLOCK_2");
