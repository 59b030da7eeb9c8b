# Several workers add to one counter, each addition once: counter.rb PORT COUNTER WORKERS TIMES.
require_relative "client"

port, counter, workers, times = ARGV[0].to_i, ARGV[1], ARGV[2].to_i, ARGV[3].to_i
store = Store.new(port)
tries = Queue.new
added = Array.new(workers) do |worker|
  Thread.new do
    Array.new(times) do |turn|
      store.once("#{counter}.#{worker}.#{turn}") do |redis|
        tries << 1
        redis.call("SET", counter, redis.call("GET", counter).to_i + 1)
      end
    end
  end
end.flat_map(&:value)
count = store.transact { |redis| redis.call("GET", counter) }
puts "added #{added.count(true)}, counter #{count}", "tries #{tries.size}"
