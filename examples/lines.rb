width = 12
height = 7
area = width * height
puts area
puts area - 100
area = area + 1
puts area
