/* Two harts make the first call of one slot. Which of them binds it is the schedule's choice; what they get isn't. */
int answer(long hart);

int second(long hart) { return answer(hart); }

int main(void) { return answer(0); }
