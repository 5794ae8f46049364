# Integers have 64 bits. Division and remainder round down, as in Ruby.
puts 7 + 3 * 2, (7 + 3) * 2
puts 7 / 2, -7 / 2, 7 % -3, -7 % 3
puts 1_000_000 * 1_000_000
puts 3 < 4, 3 == 4, 3 != 4, -(2 - 5)
total = 10
total += 5
total *= 2
puts total
