# A list of cells that is walked until there is none, by `nil?`, and a row of objects that is changed in place.
class Cell
  attr_accessor :value, :rest
  def initialize(value, rest)
    @value = value
    @rest = rest
  end
  def last?
    @rest.nil?
  end
end
list = nil
row = []
50_000.times do |i|
  list = Cell.new(i, list)
  row << list
end
sum = 0
60.times do
  cell = list
  until cell.nil?
    sum += cell.value unless cell.last?
    cell = cell.rest
  end
  row.length.times { |i| row[i].value = row[i].value + 1 }
end
puts sum
