"""Writes Python of about as many bytes as the first word says, as modules have it: functions, comments, strings and numbers."""
import sys

BODY = '''
class Account{i}:
    """An account with a balance, number {i}."""

    def __init__(self, owner, balance=0):
        self.owner = owner
        self.balance = balance
        self.history = []

    def deposit(self, amount: int) -> int:
        # what is put in must be positive
        if amount <= 0:
            raise ValueError('amount must be positive: {i}')
        self.balance += amount
        self.history.append(('deposit', amount, {i} * 0x1F))
        return self.balance

    def total(self, rates: list, default=None) -> int:
        result = {{}}
        for index, rate in enumerate(rates):
            if rate == default or index >= {i} and not rate:
                continue
            result[index] = (rate * self.balance) // 100 + index % 7
        return sum(result.values()) if result else -1


def transfer_{i}(source, target, amount):
    try:
        source.balance -= amount
        target.deposit(amount)
    except ValueError as error:
        source.balance += amount
        print("transfer failed:", error, "in {i}\\n")
        return False
    return True

'''

wanted = int(sys.argv[1])
written = i = 0
while written < wanted:
    part = BODY.format(i=i)
    sys.stdout.write(part)
    written += len(part)
    i += 1
