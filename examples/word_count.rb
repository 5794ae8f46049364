# Counts the words of a few lines. A line is an array of words, as no text is taken apart here.
lines = [
  ["a", "rose", "is", "a", "rose", "is", "a", "rose"],
  ["the", "rose", "is", "red"],
  ["and", "red", "is", "the", "evening", "sun"]
]

class WordCount
  attr_reader :counts

  def initialize
    @counts = {}
    @total = 0
  end

  def add(word)
    @counts[word] ||= 0
    @counts[word] += 1
    @total += 1
  end

  # The words, those that stand there most often first. Words that stand there as often keep their order.
  def ranking
    ranked = []
    @counts.each do |word, count|
      place = ranked.length
      while place > 0 && @counts[ranked[place - 1]] < count
        ranked[place] = ranked[place - 1]
        place -= 1
      end
      ranked[place] = word
    end
    ranked
  end

  # How much of all a word is, in tenths of a percent.
  def share(word)
    @counts[word] * 1000 / @total
  end

  def to_s
    "#{@total} words, #{@counts.length} different ones"
  end
end

def padded(text, width)
  text += " " while text.length < width
  text
end

def bar(length)
  text = ""
  length.times { text += "*" }
  text
end

words = WordCount.new
lines.each do |line|
  line.each { |word| words.add(word) }
end

puts words
words.ranking.each_with_index do |word, i|
  break if i == 5
  share = words.share(word)
  puts "#{i + 1}. #{padded(word, 6)}#{padded(bar(words.counts[word]), 6)}#{share / 10}.#{share % 10} %"
end

letters = 0
words.counts.each { |word, count| letters += word.length * count }
puts "#{letters} letters"
puts "once: #{words.counts.keys.select { |word| words.counts[word] == 1 }}"
