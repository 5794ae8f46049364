# The product of two matrices of integers, row by column.
def matrix(size, seed)
  rows = []
  size.times do |y|
    row = []
    size.times { |x| row << (y * seed + x) % 10 }
    rows << row
  end
  rows
end

def product(left, right)
  size = left.length
  rows = []
  size.times do |y|
    row = left[y]
    made = []
    size.times do |x|
      sum = 0
      i = 0
      while i < size
        sum += row[i] * right[i][x]
        i += 1
      end
      made << sum
    end
    rows << made
  end
  rows
end

made = product(matrix(360, 3), matrix(360, 7))
total = 0
made.each do |row|
  row.each { |value| total += value }
end
puts total
