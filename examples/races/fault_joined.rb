# Whoever joins a thread that ended with a fault ends so too.
slow = Thread.new do
  i = 0
  while i < 100
    i += 1
  end
  [1][0] + nil
end
other = Thread.new(slow) { |thread| thread.join }
slow.join
puts "not reached"
