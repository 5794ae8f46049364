$pairs = {}
threads = []
4.times do
  threads << Thread.new do
    i = 0
    while i < 25000
      $pairs[i % 1000] = i
      i += 1
    end
  end
end
threads.each { |thread| thread.join }
puts $pairs.size
