# Many small objects, made one after the other and left.
class Pair
  def initialize(first, second)
    @first = first
    @second = second
  end

  def sum
    @first + @second
  end
end

sum = 0
i = 0
while i < 6_000_000
  sum += Pair.new(i, 1).sum % 7
  i += 1
end
puts sum
