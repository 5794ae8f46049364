x = Foo.new
