int there(int number) { return 10 * number; }
int gone(int number) { return number; }
