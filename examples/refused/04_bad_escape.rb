puts "a\q"
