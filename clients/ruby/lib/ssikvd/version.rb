# frozen_string_literal: true

module Ssikvd
  # The version of the program that this package comes with.
  VERSION = "0.2.0"
end
