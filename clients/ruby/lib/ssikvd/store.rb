# frozen_string_literal: true

module Ssikvd
  # A pool of connections, which several threads may share. Each try of a transaction has one for itself.
  class Store
    # What `Ssikvd.connect` calls.
    def initialize(address, connections, connect_timeout, reply_timeout, deadline)
      host, port = address.match(/\A\[?([^\]]+)\]?:(\d{1,5})\z/)&.captures
      raise Invalid, "an address is HOST:PORT, this one is #{address}" unless host && port.to_i < 65_536
      raise Invalid, "a pool has 1 to #{CONNECTIONS_MAX} connections" unless connections.between?(1, CONNECTIONS_MAX)

      @opening = [host, port.to_i, connect_timeout, reply_timeout]
      @deadline = deadline
      @lock = Mutex.new
      @came_free = ConditionVariable.new
      @lent = 0
      @connections = connections
      @process = Process.pid
      @is_closed = false
      @idle = [Session.new(*@opening)]
      @idle[0].ask("PING")
    end

    # Yields a transaction, commits, and gives what the block gave.
    #
    # The block may run more than once, so it does nothing but read and write through its transaction. Leave it with `next`: what leaves it
    # in another way, as an error, `return` or `break`, aborts the transaction. No try begins after the deadline, in seconds; then the last
    # try's Conflict, Full or Unreachable is raised. Raises also Stopped, and Lost.
    def transact(deadline: @deadline, &work)
      tries = Tries.new(deadline)
      begin
        try(tries.left, &work)
      rescue Conflict, Unreachable, Full => error
        raise if error.is_a?(Full) && error.limit != :transactions

        tries.wait(error)
        retry
      end
    end

    # Commits the work once for this key, however often it is called, and gives the bytes that the block gave then.
    #
    # The store keeps them as the value of the key. Raises what `transact` raises, and Lost where the outcome of a try isn't known.
    def once(key, deadline: @deadline)
      name = Frames.key_of(key)
      tries = Tries.new(deadline)
      lost = nil
      begin
        transact(deadline: tries.left) do |transaction|
          transaction.get(name) || Frames.value_of(yield(transaction) || "").tap { |made| transaction.set(name, made) }
        end
      rescue Lost => error
        lost = error
        tries.wait(error)
        retry
      rescue StandardError => error
        raise lost ? Lost.new("#{lost.message}; then #{error.message}") : error
      end
    end

    # Closes the connections that are idle, and each other one at the end of its transaction.
    def close
      @lock.synchronize do
        @is_closed = true
        close_idle
      end
    end

    private

    def try(seconds)
      session = lend(seconds)
      transaction = Transaction.new(session)
      is_open = false
      begin
        session.ask("BEGIN")
        is_open = true
        result = yield transaction
        is_open = false
        session.commit
        result
      ensure
        transaction.end!
        take_back(session, is_open)
      end
    end

    def lend(seconds)
      take_place(Ssikvd.now + seconds)
      begin
        @lock.synchronize { @idle.pop } || Session.new(*@opening)
      rescue Exception # whatever it is, the place is free again
        leave_place
        raise
      end
    end

    def take_place(ending)
      @lock.synchronize do
        raise Invalid, "the store is closed" if @is_closed

        forget_other_process if @process != Process.pid
        while @lent == @connections
          seconds = ending - Ssikvd.now
          raise Full, "FULL connections" if seconds <= 0

          @came_free.wait(@lock, seconds)
        end
        @lent += 1
      end
    end

    # After a fork the idle connections are the other process's, and so are those that are lent.
    def forget_other_process
      @process = Process.pid
      @idle = []
      @lent = 0
    end

    def leave_place
      @lock.synchronize do
        @lent -= 1
        @came_free.signal
      end
    end

    # Keeps the connection, once its transaction has ended. Closes it where a reply is due, and those that are idle with it.
    def take_back(session, is_open)
      session.ask("ABORT") if is_open
    rescue Error
      nil # it is lost, or the server has ended the transaction
    ensure
      @lock.synchronize do
        if session.whole? && !@is_closed
          @idle << session
        else
          session.close
          close_idle
        end
      end
      leave_place
    end

    def close_idle
      @idle.pop.close until @idle.empty?
    end
  end

  # The tries of one call, none of which begins after its deadline.
  class Tries
    def initialize(seconds)
      @ending = Ssikvd.now + seconds
      @failed = 0
    end

    # The seconds until the deadline, at least 0.
    def left = [0, @ending - Ssikvd.now].max

    # Waits after this error, by chance, so that two don't meet again and again. Raises it where no time is left.
    def wait(error)
      seconds = rand * 0.001 * 2**[@failed, 6].min
      @failed += 1
      raise error if seconds >= left

      sleep(seconds)
    end
  end
  private_constant :Tries
end
