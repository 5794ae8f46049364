# Loops with exits, conditions with `&&` and `!`, and returns.
def prime?(n)
  return false if n < 2
  d = 2
  while d * d <= n
    return false if n % d == 0
    d += 1
  end
  true
end

found = 0
sum = 0
n = 0
while true
  n += 1
  break if n > 700_000
  next if n != 2 && n % 2 == 0
  if prime?(n) && !(n % 10 == 7)
    found += 1
    sum += n
  end
end
puts found
puts sum
