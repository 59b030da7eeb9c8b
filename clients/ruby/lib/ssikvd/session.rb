# frozen_string_literal: true

module Ssikvd
  # The seconds of a clock that only goes on.
  def self.now = Process.clock_gettime(Process::CLOCK_MONOTONIC)

  # One connection. It is whole while no reply is due; else it is of no more use.
  class Session
    def initialize(host, port, connect_timeout, reply_timeout)
      @reply_timeout = reply_timeout
      @socket = Socket.tcp(host, port, connect_timeout: connect_timeout)
      @socket.setsockopt(Socket::IPPROTO_TCP, Socket::TCP_NODELAY, 1)
      @is_whole = true
    rescue SystemCallError, SocketError => error
      raise Unreachable, error.message
    end

    def whole? = @is_whole

    # Sends one request and gives its reply. Raises its refusal, or Unreachable.
    def ask(*parts)
      raise Unreachable, "the connection was lost" unless @is_whole

      @is_whole = false
      ending = Ssikvd.now + @reply_timeout
      send_all(Frames.encode(*parts), ending)
      reply = receive(ending)
      @is_whole = true
      reply.is_a?(Refused) ? raise(reply) : reply
    rescue SystemCallError, IOError => error
      raise Unreachable, error.message
    end

    # Sends COMMIT. Raises its refusal, Unreachable before it is sent, or Lost where the outcome isn't known.
    def commit
      raise Unreachable, "the connection was lost" unless @is_whole

      begin
        ask("COMMIT")
      rescue Unreachable => error
        raise Lost, "no reply to COMMIT: #{error.message}"
      rescue Refused => refusal
        raise refusal.text == "STORE fault" ? Lost.new(refusal.text) : refusal
      end
    end

    def close = @socket.close

    private

    def send_all(frame, ending)
      until frame.empty?
        sent = @socket.write_nonblock(frame, exception: false)
        if sent == :wait_writable
          in_time(@socket.wait_writable(ending - Ssikvd.now))
        else
          frame = frame.byteslice(sent..)
        end
      end
    end

    def receive(ending)
      data = "".b
      until (found = Frames.decode(data))
        piece = @socket.read_nonblock(1 << 16, exception: false)
        raise Unreachable, "the server closed the connection: it has ended, or 128 are open" if piece.nil?

        piece == :wait_readable ? in_time(@socket.wait_readable(ending - Ssikvd.now)) : data << piece
      end
      found[0]
    end

    def in_time(is_ready)
      raise Unreachable, "no reply in time" unless is_ready
    end
  end
end
