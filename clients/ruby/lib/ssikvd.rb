# frozen_string_literal: true

require "io/wait"
require "socket"
require_relative "ssikvd/errors"
require_relative "ssikvd/frames"
require_relative "ssikvd/session"
require_relative "ssikvd/store"
require_relative "ssikvd/transaction"
require_relative "ssikvd/version"

# A client of ssikvd, an ordered key-value store with strictly serializable transactions.
#
#   Ssikvd.connect("127.0.0.1:7777") do |store|
#     store.transact { |transaction| transaction.set("greeting", "hello") }
#   end
module Ssikvd
  # A store, once the server at HOST:PORT has answered. It has at most so many connections, 1 to 64; times are in seconds. With a block it
  # is given to that and closed at its end. Raises Unreachable where no server answers, and Invalid.
  def self.connect(address, connections: 16, connect_timeout: 5, reply_timeout: 10, deadline: 30)
    store = Store.new(address, connections, connect_timeout, reply_timeout, deadline)
    return store unless block_given?

    begin
      yield store
    ensure
      store.close
    end
  end
end
