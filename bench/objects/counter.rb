# A counter whose method is called in a loop.
class Counter
  def initialize
    @count = 0
  end

  def add(n)
    @count += n
  end

  def count
    @count
  end
end

counter = Counter.new
i = 0
while i < 20_000_000
  counter.add(i % 3)
  i += 1
end
puts counter.count
