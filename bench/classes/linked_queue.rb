# A list of cells with attributes, behind an object that appends, sums and reverses.
class Node
  attr_accessor :value, :next_node
  def initialize(value)
    @value = value
    @next_node = nil
  end
end
class LinkedList
  attr_reader :size
  def initialize
    @head = nil
    @tail = nil
    @size = 0
  end
  def push(value)
    node = Node.new(value)
    if @head == nil
      @head = node
      @tail = node
    else
      @tail.next_node = node
      @tail = node
    end
    @size += 1
    self
  end
  def sum
    total = 0
    node = @head
    while node != nil
      total = total + node.value
      node = node.next_node
    end
    total
  end
  def reverse
    before = nil
    node = @head
    @tail = @head
    while node
      after = node.next_node
      node.next_node = before
      before = node
      node = after
    end
    @head = before
  end
end
list = LinkedList.new
300_000.times { |i| list.push(i) }
t = 0
10.times do
  t += list.sum
  list.reverse
end
puts t, list.size
