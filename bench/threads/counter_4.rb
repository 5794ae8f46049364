$count = 0
$mutex = Mutex.new
threads = []
4.times do
  threads << Thread.new do
    i = 0
    while i < 25000
      $mutex.synchronize { $count += 1 }
      i += 1
    end
  end
end
threads.each { |thread| thread.join }
puts $count
