# frozen_string_literal: true

# The jobs of harness/packages.py: `ruby -Ilib harness.rb ADDRESS JOB WORDS..`. The workers are threads.
require "ssikvd"

class Raised < StandardError; end

def shown(error)
  case error
  when Ssikvd::Conflict then error.key ? "Conflict key #{error.key.unpack1('H*')}" : "Conflict pivot #{error.pivot}"
  when Ssikvd::Full then "Full #{error.limit}"
  else error.instance_of?(Ssikvd::Refused) ? "Refused #{error.text}" : error.class.name.split("::").last
  end
end

# What the block gives as text, or its error.
def attempt
  yield.to_s
rescue Ssikvd::Error, Raised => error
  shown(error)
end

# Lets each worker take its turns, one after another.
def work(workers, times, &turn)
  threads = Array.new(workers.to_i) { |worker| Thread.new { times.to_i.times { |number| turn.call(worker, number) } } }
  threads.each(&:join)
end

def count(address, name, workers, times)
  store = Ssikvd.connect(address, connections: 4, deadline: 60)
  tries = Queue.new
  work(workers, times) do |worker, number|
    store.once("#{name}:#{worker}:#{number}") do |transaction|
      tries << 1
      transaction.set(name, (transaction.get(name).to_i + 1).to_s)
      nil
    end
  end
  puts "counter #{store.transact { |transaction| transaction.get(name) }.to_i} tries #{tries.size}"
end

def book(transaction, room, start, ending, value)
  place = ->(second) { format("%s:%03d", room, second) }
  transaction.range(place[start + 1], "#{room};", limit: 1) { |_, found| return "taken" if found.to_i < ending }
  transaction.set(place[ending], value)
  "booked"
end

def reserve(address, room, workers, times)
  store = Ssikvd.connect(address, deadline: 60)
  work(workers, times) do |worker, number|
    start = ((13 * worker) + (7 * number)) % 60
    ending = start + 1 + ((worker + number) % 5)
    found = store.once("by:#{room}:#{worker}:#{number}") do |transaction|
      book(transaction, room, start, ending, "#{start} #{worker} #{number}")
    end
    $stdout.write("#{worker} #{number} #{found}\n")
  end
end

def walk(address, pairs)
  store = Ssikvd.connect(address, deadline: 60)
  total = sum = 0
  at = "\0"
  while at
    found = store.transact { |transaction| transaction.range(at, nil, limit: pairs.to_i).to_a }
    found.flatten.each { |part| part.each_byte { |byte| sum = ((31 * sum) + byte) % 1_000_000_007 } }
    total += found.size
    at = found.size == pairs.to_i ? Ssikvd.after(found.last[0]) : nil
  end
  puts "pairs #{total} sum #{sum}"
end

def errors(address)
  store = Ssikvd.connect(address)
  small = Ssikvd.connect(address, connections: 1)
  works = {
    "overwritten" => lambda { |transaction|
      transaction.set("k", "1")
      store.transact { |other| other.set("k", "2") }
    },
    "pivot" => lambda { |transaction|
      transaction.get("x")
      transaction.set("y", "1")
      store.transact do |other|
        other.get("y")
        other.set("x", "1")
      end
    },
    "writes" => ->(transaction) { 65.times { |number| transaction.set("w#{number}", "") } },
    "marks" => ->(transaction) { 257.times { |number| transaction.get("m#{number}") } },
    "connections" => ->(_) { small.transact(deadline: 0) { |other| other.get("k") } },
    "empty key" => ->(transaction) { transaction.get("") },
    "long key" => ->(transaction) { transaction.get("a" * 257) },
    "long value" => ->(transaction) { transaction.set("a", "a" * 16_385) },
    "zero limit" => ->(transaction) { transaction.range("", nil, limit: 0).to_a }
  }
  works.each do |what, steps|
    puts "#{what}: #{attempt { (what == 'connections' ? small : store).transact(deadline: 0, &steps) }}"
  end
  kept = store.transact { |transaction| transaction }
  puts "ended: #{attempt { kept.get('k') }}"
  raising = lambda { |transaction|
    transaction.set("raised", "1")
    raise Raised
  }
  puts "raised: #{attempt { store.transact(&raising) }}"
  puts "after it: #{store.transact { |transaction| transaction.get('raised') } || 'none'}"
  store.close
  puts "closed: #{attempt { store.transact { nil } }}"
end

def set(address, key, value, deadline, reply)
  puts(attempt do
    Ssikvd.connect(address, deadline: deadline.to_f, reply_timeout: reply.to_f).transact { |transaction| transaction.set(key, value) } || "done"
  end)
end

def once(address, key, deadline, reply)
  puts(attempt { Ssikvd.connect(address, deadline: deadline.to_f, reply_timeout: reply.to_f).once(key) { "made" } })
end

address, job, *words = ARGV
{ "count" => :count, "reserve" => :reserve, "walk" => :walk, "errors" => :errors, "set" => :set, "once" => :once }
  .fetch(job).then { |name| send(name, address, *words) }
