# How often each word comes, with texts as keys.
words = []
2000.times { |i| words << "word#{i * 7919 % 1009}" }
counts = {}
5000.times do
  words.each do |word|
    counts[word] = (counts[word] || 0) + 1
  end
end
most = nil
counts.each do |word, count|
  most = word if most == nil || count > counts[most]
end
puts counts.length, most, counts[most]
