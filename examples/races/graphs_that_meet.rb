# Two threads publish graphs that meet in an array that both have had before.
class Node
  attr_accessor :after, :met
end
$met = []
threads = [1, 2].map do |number|
  Thread.new(number) do |own|
    first = Node.new
    last = first
    20.times do
      node = Node.new
      node.met = $met
      last.after = node
      last = node
    end
    last.after = first
    $met << first
    own
  end
end
p threads.map { |thread| thread.value }
meets = 0
$met.each do |first|
  node = first.after
  count = 1
  while node != first
    count += 1
    meets += 1 if node.met == $met
    node = node.after
  end
  p count
end
p meets
