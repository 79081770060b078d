__thread int counter = 100;

int count(void) { return ++counter; }
