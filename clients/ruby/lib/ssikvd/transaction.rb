# frozen_string_literal: true

require "set"

module Ssikvd
  # What the work of `transact` reads and writes, in one thread. Once it has ended, its calls raise Invalid.
  class Transaction
    def initialize(session)
      @session = session
      @written = Set.new
      @read = Set.new
    end

    # The value of the key as bytes; nil where it isn't there. Raises Invalid, Full at the 257th new key, Unreachable.
    def get(key)
      name = Frames.key_of(key)
      unless @written.include?(name) || @read.include?(name)
        raise Full, "FULL marks" if @read.size == MARKS_MAX

        @read << name
      end
      ask("GET", name)
    end

    # Writes the key. Raises Invalid, Full at the 65th key that is written, Unreachable.
    def set(key, value)
      write("SET", Frames.key_of(key), Frames.value_of(value))
    end

    # Deletes the key, whether it is there or not. Raises what `set` raises.
    def delete(key)
      write("DEL", Frames.key_of(key))
    end

    # Yields the pairs with lo <= key < hi by rising key, at most `limit`; without a block, an Enumerator. They are asked page by page, as
    # they are needed.
    def range(low = "", high = nil, limit: Float::INFINITY, &block)
      raise Invalid, "a limit is at least 1, this one is #{limit}" unless limit >= 1

      at = low.empty? ? "\0".b : Frames.key_of(low)
      pairs = Enumerator.new { |yielder| pages(at, Frames.key_of(high || "", 0), limit) { |pair| yielder << pair } }
      block ? pairs.each(&block) : pairs
    end

    # Lets further calls raise Invalid.
    def end!
      @session = nil
    end

    private

    def pages(at, high, limit)
      while at && limit.positive? && (high.empty? || at < high)
        size = [limit, PAIRS_MAX].min
        page = ask("RANGE", at, high, size.to_s).each_slice(2).to_a
        page.each { |pair| yield pair }
        at = page.size == size ? Ssikvd.after(page.last[0]) : nil
        limit -= size
      end
    end

    def write(name, key, *value)
      raise Full, "FULL writes" if @written.size == WRITES_MAX && !@written.include?(key)

      @written << key
      ask(name, key, *value)
      nil
    end

    def ask(*parts)
      raise Invalid, "the transaction has ended" unless @session

      @session.ask(*parts)
    end
  end
end
