# Texts that are built and compared.
same = 0
size = 0
1_200_000.times do |i|
  left = "item #{i % 10}: " + "total"
  right = "item #{i % 7}: total"
  same += 1 if left == right
  line = left + " and " + right
  size += line.length
end
puts same
puts size

text = ""
20_000.times { |i| text = text + "ab" }
puts text.length
