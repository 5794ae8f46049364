# Four threads count under a lock, and four without one, each in a place of its own.
$count = 0
$own = [0, 0, 0, 0]
$lock = Mutex.new
threads = []
4.times do |number|
  threads << Thread.new { 250.times { $lock.synchronize { $count += 1 } } }
  threads << Thread.new(number) { |place| 250.times { $own[place] += 1 } }
end
threads.each { |thread| thread.join }
p $count, $own
