# A thousand threads, one after another.
sum = 0
1_000.times { |number| sum += Thread.new(number) { |own| own * 2 }.value }
p sum
