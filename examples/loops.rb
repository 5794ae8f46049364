# The primes below 50, by trial division.
n = 2
while n < 50
  is_prime = true
  divisor = 2
  until divisor * divisor > n
    if n % divisor == 0
      is_prime = false
      break
    end
    divisor += 1
  end
  print n, " " if is_prime
  n += 1
end
puts

i = 0
while true
  i += 1
  next if i % 3 != 0
  break if i > 9
  puts i
end
