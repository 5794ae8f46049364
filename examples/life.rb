# The game of life, on a board whose edges touch the opposite ones. A cell with three neighbours lives, one with two stays as it is,
# and every other one dies.
class Board
  attr_reader :rows

  def initialize(rows)
    @rows = rows
    @height = rows.length
    @width = rows.first.length
  end

  def neighbours(y, x)
    count = 0
    [-1, 0, 1].each do |down|
      row = @rows[(y + down) % @height]
      [-1, 0, 1].each do |right|
        next if down == 0 && right == 0
        count += row[(x + right) % @width]
      end
    end
    count
  end

  # What a cell is in the next generation: 1 where it lives, else 0.
  def grown(cell, y, x)
    count = neighbours(y, x)
    return 1 if count == 3
    count == 2 ? cell : 0
  end

  def next_board
    rows = []
    @rows.each_with_index do |row, y|
      cells = []
      row.each_with_index { |cell, x| cells << grown(cell, y, x) }
      rows << cells
    end
    Board.new(rows)
  end

  def living
    count = 0
    @rows.each { |row| count += row.select { |cell| cell == 1 }.length }
    count
  end

  def to_s
    lines = ""
    @rows.each do |row|
      row.each { |cell| lines += cell == 1 ? "#" : "." }
      lines += "\n"
    end
    lines
  end
end

rows = Array.new(6)
6.times { |y| rows[y] = Array.new(6, 0) }

# A glider.
[[0, 1], [1, 2], [2, 0], [2, 1], [2, 2]].each { |place| rows[place[0]][place[1]] = 1 }

board = Board.new(rows)
3.times do |generation|
  puts "generation #{generation}, #{board.living} living"
  puts board
  board = board.next_board
end

# After 24 generations it has come round the board, to where it began.
21.times { board = board.next_board }
same = true
board.rows.each_with_index do |row, y|
  row.each_with_index { |cell, x| same = false if cell != rows[y][x] }
end
puts same ? "back where it began" : "somewhere else"
