# Four threads push numbers onto one array, and four take from it. What was taken and what is left add up.
$numbers = []
makers = [0, 1, 2, 3].map do |number|
  Thread.new(number) { |own| 100.times { |i| $numbers << own * 100 + i } }
end
takers = [0, 1, 2, 3].map do |number|
  Thread.new(number) do |own|
    sum = 0
    80.times do
      taken = own % 2 == 0 ? $numbers.shift : $numbers.pop
      sum += taken if taken != nil
    end
    sum
  end
end
makers.each { |thread| thread.join }
total = 0
takers.each { |thread| total += thread.value }
$numbers.each { |number| total += number }
p total
