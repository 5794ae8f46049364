# Fifteen threads beside the main one are there at once: none ends before all have begun.
$begun = 0
$lock = Mutex.new
threads = []
15.times do |number|
  threads << Thread.new(number) do |own|
    $lock.synchronize { $begun += 1 }
    while $begun < 15
    end
    own
  end
end
p threads.map { |thread| thread.value }
