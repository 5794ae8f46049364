# Choices, divisions and comparisons.
def length_of(start)
  n = start
  count = 1
  until n == 1
    if n % 2 == 0
      n /= 2
    else
      n = 3 * n + 1
    end
    count += 1
  end
  count
end

best = 0
longest = 0
1.upto(300_000) do |start|
  count = length_of(start)
  if count > longest
    longest = count
    best = start
  end
end
puts best
puts longest
