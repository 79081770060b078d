static int balance;

int pay(int amount) { return balance += amount; }
