# A linked list, built once and walked many times.
class Cell
  attr_reader :value, :rest

  def initialize(value, behind)
    @value = value
    @rest = behind
  end
end

list = nil
100_000.times { |i| list = Cell.new(i, list) }
sum = 0
300.times do
  cell = list
  while cell
    sum += cell.value
    cell = cell.rest
  end
end
puts sum
