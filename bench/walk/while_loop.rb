# A loop of forty million turns over three locals.
i = 0
sum = 0
odd = 0
while i < 40_000_000
  sum += i * 3
  odd = i - odd
  i += 1
end
puts sum
puts odd
