# rbso shapes examples/shapes.rb tells the shapes of these objects behind what the script prints.
class Point
  attr_accessor :x, :y, :name

  def initialize(x, y)
    @x = x
    @y = y
  end
end

a = Point.new(1, 2)
b = Point.new(3, 4)
puts a.x + b.x

# One name more is a step to another shape.
b.name = "b"

# A text does not fit a place for integers: x moves to a new place.
a.x = "left"
puts a.x, b.name

# The same names in another order are another path.
class Size
  attr_accessor :wide, :high
end

one = Size.new
one.wide = 1
one.high = 2
other = Size.new
other.high = 3
other.wide = 4
puts one.wide * other.high
