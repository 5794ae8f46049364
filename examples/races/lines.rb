# Three threads print. The lines come in any order, and each is whole.
threads = [:a, :b, :c].map do |name|
  Thread.new(name) { |own| 40.times { |number| puts "#{own} #{number}" } }
end
threads.each { |thread| thread.join }
