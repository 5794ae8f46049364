# Methods call one another, and themselves. The value is that of the last statement, or of a return.
def fibonacci(n)
  return n if n < 2
  fibonacci(n - 1) + fibonacci(n - 2)
end

def moves(disks, from, to, over)
  return 0 if disks == 0
  before = moves(disks - 1, from, over, to)
  puts "disk #{disks}: #{from} to #{to}"
  before + 1 + moves(disks - 1, over, to, from)
end

def first_square_above(limit)
  1000.times { |i| return i * i if i * i > limit }
  nil
end

puts fibonacci(20)
puts moves(3, :left, :right, :middle)
puts first_square_above(200)
