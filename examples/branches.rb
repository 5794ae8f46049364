# Only nil and false are false. A branch that is not taken leaves nil.
def size_of(n)
  if n < 10
    "small"
  elsif n < 100
    "middling"
  else
    "large"
  end
end

puts size_of(3), size_of(30), size_of(300)
puts 5 > 3 ? "yes" : "no"
puts "not so" unless 1 < 2
x = 1 if false
p x
name = nil
name ||= "nobody"
puts name && "somebody"
