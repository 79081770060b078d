int there(int number) { return 10 * number; }
