# A text never changes; += makes another.
greeting = "Hello"
other = greeting
greeting += ", world"
puts greeting, other
puts "1 + 2 is #{1 + 2}, and nil is '#{nil}'"
puts 'no #{code} and no \n here'
p "a line\n\tand \"more\""
p :name
print "one", " ", "line\n"
puts 12.to_s + "3", nil.inspect, "a" == "a"
