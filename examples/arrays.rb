# An array grows as it is written. An index counts from 0, a negative one from the end.
primes = []
n = 2
while primes.length < 10
  i = 0
  i += 1 while i < primes.length && n % primes[i] != 0
  primes << n if i == primes.length
  n += 1
end
p primes, primes.first, primes[-2]

# Where there is no element, it is nil. A write behind the last element fills up with nil.
row = [1, "two", :three]
row[4] = [5, nil]
p row, row[3], row[9]
row[0] += 10
row[1] += "!"
row[3] ||= 4
p row

# A queue, and the same array under another name.
line = Array.new
line.push("ann").push("ben")
line.unshift("eve")
same = line
puts line.shift, same.length, line.pop, line.pop
p line.pop, same, same.empty?, line == same

# Sorting by insertion.
def sorted(values)
  done = []
  values.length.times do |i|
    j = i
    while j > 0 && values[i] < done[j - 1]
      done[j] = done[j - 1]
      j -= 1
    end
    done[j] = values[i]
  end
  done
end

p sorted([3, 1, 2, 3, 0])

# puts writes the elements one by one, those of arrays in an array too.
grid = Array.new(2)
2.times { |y| grid[y] = Array.new(2, y) }
grid[1][0] = "east"
puts grid
grid << grid
puts "#{grid}"
