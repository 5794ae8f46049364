# Two accounts between which sums go, by methods that call no other.
class Account
  attr_reader :balance
  def initialize(owner, balance)
    @owner = owner
    @balance = balance
  end
  def deposit(amount)
    @balance = @balance + amount
    self
  end
  def withdraw(amount)
    if amount > @balance
      false
    else
      @balance -= amount
      true
    end
  end
end
a = Account.new("ann", 100)
b = Account.new("bob", 0)
i = 0
failed = 0
while i < 4_000_000
  if a.withdraw(i % 7)
    b.deposit(i % 7)
  else
    failed += 1
    a.deposit(50)
  end
  i += 1
end
puts a.balance, b.balance, failed
