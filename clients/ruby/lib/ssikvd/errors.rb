# frozen_string_literal: true

module Ssikvd
  # What this package raises.
  class Error < StandardError; end

  # A call that breaks a limit, or comes after the end of its transaction. Nothing was sent.
  class Invalid < Error; end

  # No connection, or one that was lost before COMMIT was sent. Nothing was written.
  class Unreachable < Error; end

  # COMMIT was sent, and its outcome isn't known. `once` with the same key settles it.
  class Lost < Error; end

  # A refusal of the server's, whose words are `text`.
  class Refused < Error
    attr_reader :text

    def initialize(text)
      super
      @text = text
    end

    # The error of a refusal.
    def self.of(text)
      case text
      when /\ACONFLICT (overwritten (\h\h)+|pivot (self|\d+))\z/ then Conflict.new(text)
      when /\AFULL \w+\z/ then Full.new(text)
      when "STORE stopped" then Stopped.new(text)
      else Refused.new(text)
      end
    end
  end

  # COMMIT met other commits: `key` was overwritten by one, or else `pivot` is :self or the number of one.
  class Conflict < Refused
    attr_reader :key, :pivot

    def initialize(text)
      super
      _, kind, what = text.split
      if kind == "overwritten"
        @key = [what].pack("H*")
      else
        @pivot = what == "self" ? :self : Integer(what, 10)
      end
    end
  end

  # There is no room: `limit` is transactions, writes, marks, log, numbers, or connections, which are the pool's.
  class Full < Refused
    def limit = text.split.last.to_sym
  end

  # The store was stopped by a fault of its device. Nothing was written.
  class Stopped < Refused; end
end
