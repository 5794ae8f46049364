# Points that are moved by their attributes, and sums of two of them.
class Point
  attr_accessor :x, :y

  def initialize(x, y)
    @x = x
    @y = y
  end

  def plus(other)
    Point.new(@x + other.x, @y + other.y)
  end
end

at = Point.new(0, 0)
step = Point.new(1, 2)
5_000_000.times do |i|
  at = at.plus(step)
  at.x += 1
  at.y = at.y - i % 2
end
puts at.x, at.y
