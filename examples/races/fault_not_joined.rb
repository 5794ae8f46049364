# A fault ends its thread alone, where nobody joins it.
$left = []
t = Thread.new do
  $left << 1
  $left << 1 / 0
  $left << 2
end
i = 0
while i < 100
  i += 1
end
puts i
