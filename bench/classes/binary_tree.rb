# Trees without values, made and counted by recursion.
class Tree
  attr_reader :left, :right
  def initialize(left, right)
    @left = left
    @right = right
  end
  def check
    if @left
      @left.check + @right.check + 1
    else
      1
    end
  end
end
def make(depth)
  if depth == 0
    Tree.new(nil, nil)
  else
    Tree.new(make(depth - 1), make(depth - 1))
  end
end
n = 0
60.times do
  n += make(14).check
end
puts n
