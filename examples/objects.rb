# An object has its own instance variables; one that was never written is nil. Attributes are methods.
class Account
  attr_reader :balance
  attr_accessor :limit

  def initialize(balance)
    @balance = balance
  end

  def deposit(amount)
    @balance += amount
    self
  end

  def withdraw(amount)
    return false if over?(amount)
    @balance -= amount
    true
  end

  def over?(amount)
    @balance - amount < -(@limit || 0)
  end
end

ann = Account.new(50)
ben = Account.new(0)
puts ann.deposit(10).deposit(20).balance
puts ann.withdraw(100), ann.balance
p ann.limit
ann.limit ||= 40
puts ann.withdraw(100), ann.balance, ben.balance
same = ann
same.limit += 10
puts ann.limit, ann == same, ann == ben

# A list: each cell knows the rest of it.
class Cell
  attr_reader :value, :rest

  def initialize(value, behind)
    @value = value
    @rest = behind
  end

  def sum
    @rest ? @value + @rest.sum : @value
  end
end

list = nil
1.upto(4) { |i| list = Cell.new(i * i, list) }
puts list.sum, list.rest.rest.value
