require "redis"

port, mode, form = ARGV
client = Redis.new(port: port.to_i, **(mode == "off" ? { reconnect_attempts: 0 } : {}))
lines = $stdin.map(&:split)

def show
  puts "gave #{yield.inspect}"
rescue Redis::BaseError => e
  puts "raised #{e.class} #{e.message}"
end

if form == "each"
  lines.each { |line| show { client.call(*line) } }
else
  show { client.pipelined { |pipe| lines.each { |line| pipe.call(*line) } } }
end
