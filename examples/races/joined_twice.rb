# One thread is joined by two others and by its maker. All are told the same.
slow = Thread.new do
  i = 0
  while i < 500
    i += 1
  end
  [i, "done"]
end
first = Thread.new(slow) { |thread| thread.value }
second = Thread.new(slow) { |thread| thread.value }
p first.value, second.value, slow.value
first.value << :more
p slow.value
