/* Pays into the ledger of its own namespace. */
int pay(int amount);

int serve(int customers)
{
    int balance = 0;
    while (customers--)
        balance = pay(10);
    return balance;
}
