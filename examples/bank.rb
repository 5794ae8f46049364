# A bank that counts in cents. Interest is told in hundredths of a percent a year, and rounded down to whole cents.
def money(cents)
  return "-" + money(-cents) if cents < 0
  rest = cents % 100
  "#{cents / 100}.#{rest < 10 ? "0" : ""}#{rest}"
end

class Account
  attr_reader :balance, :entries

  def initialize(name, rate)
    @name = name
    @rate = rate
    @balance = 0
    @entries = []
  end

  def deposit(cents)
    return false if cents <= 0
    book(:deposit, cents)
  end

  def withdraw(cents)
    return false if cents <= 0 || cents > @balance
    book(:withdrawal, -cents)
  end

  def add_interest
    interest = @balance * @rate / 10_000
    book(:interest, interest) if interest > 0
    interest
  end

  def book(kind, cents)
    @balance += cents
    @entries << [kind, cents, @balance]
    true
  end

  def to_s
    "#{@name}: #{money(@balance)}"
  end
end

class Bank
  def initialize
    @accounts = {}
  end

  # The account of a name, which is opened where there is none.
  def account(name, rate)
    @accounts[name] ||= Account.new(name, rate)
  end

  def transfer(from, to, cents)
    return "no such account" unless @accounts.key?(from) && @accounts.key?(to)
    return "refused" unless @accounts[from].withdraw(cents)
    @accounts[to].deposit(cents)
    "done"
  end

  def close_year
    paid = 0
    @accounts.each { |name, account| paid += account.add_interest }
    paid
  end

  def total
    sum = 0
    @accounts.values.each { |account| sum += account.balance }
    sum
  end

  def accounts
    @accounts.values
  end
end

bank = Bank.new
bank.account(:ann, 150).deposit(250_000)
bank.account(:ben, 25).deposit(99_999)
puts bank.transfer(:ann, :ben, 50_001), bank.transfer(:ben, :ann, 999_999), bank.transfer(:ann, :eve, 1)

3.times do |year|
  before = bank.total
  paid = bank.close_year
  puts "year #{year + 1}: #{money(paid)} of interest, #{money(bank.total)} in all"
  puts "something is lost" if bank.total != before + paid
end

puts bank.accounts
bank.account(:ann, 0).entries.each do |entry|
  puts "#{entry[0]} #{money(entry[1])}, then #{money(entry[2])}"
end
p bank.accounts.map { |account| account.entries.length }
