# A queue of integers in an array: one is put behind the others and one is taken out before them.
q = []
8.times { |i| q.push(i) }
sum = 0
i = 0
while i < 8_000_000
  q.push(i)
  sum += q.shift
  i += 1
end
puts sum
