# A point that moves by both its variables, and distances.
class Point
  attr_reader :x, :y
  def initialize(x, y)
    @x = x
    @y = y
  end
  def move(dx, dy)
    @x += dx
    @y += dy
    self
  end
  def dist2(other)
    dx = @x - other.x
    dy = @y - other.y
    dx * dx + dy * dy
  end
end
p0 = Point.new(0, 0)
q = Point.new(0, 0)
sum = 0
i = 0
while i < 2_500_000
  q.move(1, 2)
  sum += p0.dist2(q) % 10
  i += 1
end
puts q.x, q.y, sum
