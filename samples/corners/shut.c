int shut(void) { return 1; }
