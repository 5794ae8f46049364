# Blocks in blocks over locals of outside.
sum = 0
700.times do |a|
  200.times do |b|
    sum += a * b
    200.times do |c|
      sum += c - b
    end
  end
end
puts sum
