puts @x
