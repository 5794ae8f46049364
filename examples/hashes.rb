# How often each word stands there.
words = ["red", "blue", "red", "green", "blue", "red"]
counts = {}
words.length.times do |i|
  counts[words[i]] ||= 0
  counts[words[i]] += 1
end
p counts, counts["red"], counts["black"]

# Pairs stand in the order in which their keys came. A key that is there keeps its place.
ages = { ann: 31, ben: 25, "eve" => 40, 7 => nil }
ages[:zoe] = 3
ages[:ann] += 1
p ages.keys, ages.values
puts ages.key?(7), ages.key?(8), ages.delete(:ben), ages.size
ages[:ben] = 26
puts ages

# What was worked out is kept.
def fibonacci(n, known)
  return n if n < 2
  known[n] ||= fibonacci(n - 1, known) + fibonacci(n - 2, known)
end

puts fibonacci(80, {})

# Arrays as values, and a hash inside itself.
groups = Hash.new
1.upto(9) do |n|
  groups[n % 3] ||= []
  groups[n % 3] << n
end
p groups
puts groups[0]
groups[:all] = groups
puts "#{groups}"
groups.clear
puts groups.empty?
