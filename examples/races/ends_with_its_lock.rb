# The end of a thread frees the locks that it has. Another takes them then.
$first = Mutex.new
$second = Mutex.new
Thread.new do
  $first.lock
  $second.lock
end.join
takers = [$first, $second].map { |lock| Thread.new(lock) { |own| own.synchronize { :mine } } }
p takers.map { |thread| thread.value }
