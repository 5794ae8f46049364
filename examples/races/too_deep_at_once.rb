# Fifteen threads go too deep at once. Nobody joins them, so their faults are dropped.
def down(left)
  return 0 if left == 0
  1 + down(left - 1)
end
$begun = 0
$lock = Mutex.new
15.times do
  Thread.new do
    $lock.synchronize { $begun += 1 }
    down(100_000)
  end
end
p down(200)
