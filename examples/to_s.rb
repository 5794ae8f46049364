# puts, print and code in a text ask an object for its text by its to_s. p and inspect tell its class alone.
class Point
  attr_accessor :x, :y

  def initialize(x, y)
    @x = x
    @y = y
  end

  def plus(other)
    Point.new(@x + other.x, @y + other.y)
  end

  def to_s
    "(#{@x}, #{@y})"
  end
end

class Line
  def initialize(from, to)
    @from = from
    @to = to
  end

  def to_s
    "#{@from} to #{@to}"
  end
end

class Plain
end

a = Point.new(1, 2)
b = a.plus(Point.new(10, -2))
puts a, b
b.x += 1
puts "from #{a} to #{b}: " + Line.new(a, b).to_s
print Line.new(b, a), "\n"
puts Plain.new, "#{Plain.new}"
p a
puts a.inspect
