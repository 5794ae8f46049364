# The primes below a limit, by crossing out.
limit = 2_000_000
count = 0
8.times do
  crossed = Array.new(limit, false)
  count = 0
  n = 2
  while n < limit
    unless crossed[n]
      count += 1
      multiple = n * n
      while multiple < limit
        crossed[multiple] = true
        multiple += n
      end
    end
    n += 1
  end
end
puts count
