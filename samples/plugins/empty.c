/* Has no object named plugin. */
int something_else(void) { return 0; }
