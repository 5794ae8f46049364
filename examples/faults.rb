# A fault ends the script with the status 1, and a line on standard error tells its name and its place.
def half(n)
  n / 2
end

puts half(10)
puts half("ten")
