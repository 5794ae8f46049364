# Calls with three arguments.
def mix(a, b, c)
  a * 2 + b - c
end

i = 0
sum = 0
while i < 25_000_000
  sum = mix(i, sum, 3) % 1_000_003
  i += 1
end
puts sum
