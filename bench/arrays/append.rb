# Integers that are put behind the elements of an array, one by one.
total = 0
4.times do
  a = []
  i = 0
  while i < 2_000_000
    a << i
    i += 1
  end
  total += a.length
end
puts total
