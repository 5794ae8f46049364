# One thread more than there may be.
$go = false
threads = []
16.times do
  threads << Thread.new do
    while !$go
    end
  end
  $go = true if threads.size == 15
end
