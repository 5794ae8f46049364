# A stack in an array, behind methods that give self on.
class Stack
  def initialize
    @items = []
    @top = 0
  end
  def push(v)
    @items[@top] = v
    @top += 1
    self
  end
  def pop
    return nil if @top == 0
    @top -= 1
    @items[@top]
  end
  def empty?
    @top == 0
  end
end
s = Stack.new
sum = 0
i = 0
while i < 1_500_000
  s.push(i).push(i + 1)
  sum += s.pop
  s.pop if i % 3 == 0
  i += 1
end
until s.empty?
  sum += s.pop
end
puts sum
