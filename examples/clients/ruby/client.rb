# A client of ssikvd over redis-rb (Debian: ruby-redis, ruby-connection-pool), whose resending is switched off.
require "connection_pool"
require "redis"

# Runs transactions over at most 64 connections. Each is lent for one whole transaction.
class Store
  class Refused < StandardError; end

  def initialize(port, host: "127.0.0.1", size: 64)
    @pool = ConnectionPool.new(size: size, timeout: 60) do
      Redis.new(host: host, port: port, timeout: 30, reconnect_attempts: 0)
    end
  end

  # Runs the block in a transaction until COMMIT is answered a number, and gives what the block gave. Where it raises
  # Redis::BaseConnectionError the connection was lost: if COMMIT was sent, its outcome is unknown.
  def transact(tries: 1_000, &work)
    tries.times do |turn|
      return @pool.with { |redis| try(redis, &work) }
    rescue Redis::CommandError => e
      raise unless e.message.start_with?("CONFLICT") || e.message == "FULL transactions"
      pause(turn)
    end
    raise Refused, "#{tries} times in a row"
  end

  # Runs the block in a transaction that commits once, though connections are lost. Did this call commit it?
  def once(name, tries: 1_000)
    tries.times do |turn|
      return transact do |redis|
        next false if redis.call("GET", "done:#{name}")
        yield redis
        redis.call("SET", "done:#{name}", "")
        true
      end
    rescue Redis::BaseConnectionError
      pause(turn)
    end
    raise Refused, "#{tries} connections, one after another"
  end

  private

  def try(redis)
    redis.call("BEGIN")
    is_open = true
    result = yield redis
    is_open = false
    redis.call("COMMIT")
    result
  ensure
    redis.call("ABORT") if is_open && redis.connected? # else the next borrower would find the transaction open
  end

  # Waits at random, so that two do not meet again and again.
  def pause(turn)
    sleep(rand * 0.001 * 2**[turn, 6].min)
  end
end
