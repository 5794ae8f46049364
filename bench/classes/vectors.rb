# Vectors of three, added, scaled and multiplied.
class Vec
  attr_reader :x, :y, :z
  def initialize(x, y, z)
    @x = x
    @y = y
    @z = z
  end
  def add(o)
    Vec.new(@x + o.x, @y + o.y, @z + o.z)
  end
  def dot(o)
    @x * o.x + @y * o.y + @z * o.z
  end
  def scale(k)
    Vec.new(@x * k, @y * k, @z * k)
  end
end
v = Vec.new(1, 2, 3)
w = Vec.new(3, -2, 1)
s = 0
i = 0
while i < 1_000_000
  u = v.add(w).scale(2)
  s += u.dot(v)
  s = s % 1000003
  i += 1
end
puts s
