# Four threads count words into one hash, under a lock.
words = ["rose", "is", "a", "rose", "red", "a", "rose"]
$counts = {}
$lock = Mutex.new
threads = []
4.times do
  threads << Thread.new(words) do |own|
    20.times do
      own.each do |word|
        $lock.synchronize do
          $counts[word] ||= 0
          $counts[word] += 1
        end
      end
    end
  end
end
threads.each { |thread| thread.join }
["rose", "is", "a", "red"].each { |word| puts "#{word} #{$counts[word]}" }
