$x = 0
y = 0
i = 0
while i < 1000000
  y = i
  i += 1
end
puts y
