# A block sees the locals round it; its own are new at each turn.
sum = 0
5.times { |i| sum += i }
puts sum

1.upto(15) do |n|
  text = ""
  text += "Fizz" if n % 3 == 0
  text += "Buzz" if n % 5 == 0
  puts text == "" ? n : text
end

2.times do |turn|
  seen = "first" if turn == 0
  p seen
end
p 9.times { |i| break if i == 4 }
