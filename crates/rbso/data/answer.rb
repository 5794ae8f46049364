a = 6
puts a * 7
