# What a thread answers, of each kind.
class Pair
  attr_reader :left, :right
  def initialize(left, right)
    @left = left
    @right = right
  end
end
p Thread.new { nil }.value
p Thread.new { true }.value
p Thread.new { -9_223_372_036_854_775_807 - 1 }.value
p Thread.new { :symbol }.value
p Thread.new { "text" }.value
p Thread.new { [1, [2, "three"], { four: 5 }] }.value
pair = Thread.new { Pair.new([1], Pair.new(nil, "deep")) }.value
p pair.left, pair.right.right
lock = Thread.new { Mutex.new }.value
p lock.synchronize { :locked }
inner = Thread.new { Thread.new { :inner } }.value
p inner.value
