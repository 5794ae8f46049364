# A search tree of objects with attributes, filled and asked.
class BNode
  attr_accessor :key, :left, :right
  def initialize(key)
    @key = key
  end
end
class Bst
  attr_reader :size
  def initialize
    @size = 0
  end
  def insert(key)
    node = BNode.new(key)
    if @root == nil
      @root = node
      @size = 1
      return true
    end
    at = @root
    while true
      if key == at.key
        return false
      elsif key < at.key
        if at.left
          at = at.left
        else
          at.left = node
          @size += 1
          return true
        end
      else
        if at.right
          at = at.right
        else
          at.right = node
          @size += 1
          return true
        end
      end
    end
  end
  def has?(key)
    at = @root
    while at
      return true if at.key == key
      at = key < at.key ? at.left : at.right
    end
    false
  end
end
t = Bst.new
x = 12345
200_000.times do
  x = (x * 1103515245 + 12345) % 2147483648
  t.insert(x % 100_000)
end
found = 0
200_000.times { |i| found += 1 if t.has?(i) }
puts t.size, found
