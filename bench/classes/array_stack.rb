# A stack of integers in an array of an instance variable, behind methods.
class Stack
  def initialize
    @items = []
  end
  def push(v)
    @items.push(v)
  end
  def pop
    @items.pop
  end
end
s = Stack.new
sum = 0
i = 0
while i < 3_000_000
  s.push(i)
  s.push(i + 1)
  sum += s.pop
  sum += s.pop
  i += 1
end
puts sum
