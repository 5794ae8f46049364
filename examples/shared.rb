# Threads count words into one hash that they share. A mutex keeps each count whole.
class WordCount
  def initialize
    @counts = {}
    @lock = Mutex.new
  end

  def add(word)
    @lock.synchronize do
      @counts[word] ||= 0
      @counts[word] += 1
    end
  end

  def count(word)
    @counts[word]
  end
end

lines = [["a", "rose", "is", "a", "rose"], ["the", "rose", "is", "red"], ["and", "red", "is", "the", "sun"]]
counted = WordCount.new

# Each thread is given a line of its own, and all of them the same counts.
threads = lines.map do |line|
  Thread.new(line) { |words| words.each { |word| counted.add(word) } }
end
threads.each { |thread| thread.join }
["a", "and", "is", "red", "rose", "sun", "the"].each { |word| puts "#{word} #{counted.count(word)}" }
