# Chains of map and select.
numbers = []
1000.times { |i| numbers << i }
total = 0
12_000.times do |turn|
  squares = numbers.map { |n| n * n + turn }
  even = squares.select { |n| n % 2 == 0 }
  total += even.map { |n| n / 2 }.length + even[turn % even.length]
end
puts total
