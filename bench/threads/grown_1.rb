$list = []
threads = []
1.times do
  threads << Thread.new do
    i = 0
    while i < 100000
      $list << i
      i += 1
    end
  end
end
threads.each { |thread| thread.join }
puts $list.size
