int opened(void) { return 1; }
