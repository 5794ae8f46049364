# Eight threads move money between accounts. A lock keeps each transfer whole, so no cent is lost.
class Bank
  def initialize(count, balance)
    @lock = Mutex.new
    @balances = Array.new(count, balance)
  end

  def transfer(from, to, cents)
    @lock.synchronize do
      return false if @balances[from] < cents
      @balances[from] -= cents
      @balances[to] += cents
      true
    end
  end

  def total
    sum = 0
    @lock.synchronize { @balances.each { |cents| sum += cents } }
    sum
  end
end

bank = Bank.new(5, 1_000)
threads = [0, 1, 2, 3, 4, 5, 6, 7].map do |number|
  Thread.new(number) do |seed|
    i = 0
    while i < 200
      seed = (seed * 1_103_515_245 + 12_345) % 2_147_483_648
      bank.transfer(seed % 5, seed / 7 % 5, seed % 300)
      i += 1
    end
  end
end
threads.each { |thread| thread.join }
puts bank.total
