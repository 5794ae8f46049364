# Threads and the global variables that they share.
$words = 0
$letters = 0

def count(text)
  $words += 1
  $letters += text.length
end

# The second thread takes its turn behind the first, since it joins that one.
first = Thread.new { count("one") }
second = Thread.new(first) do |before|
  before.join
  count("three")
end
second.join
puts "#{$words} words, #{$letters} letters"

# The value of a thread is that of its last statement.
square = Thread.new(12) { |n| n * n }
root = Thread.new { square.value / 12 }
puts root.value
