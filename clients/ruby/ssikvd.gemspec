# frozen_string_literal: true

require_relative "lib/ssikvd/version"

Gem::Specification.new do |spec|
  spec.name = "ssikvd"
  spec.version = Ssikvd::VERSION
  spec.summary = "Client of ssikvd, an ordered key-value store with strictly serializable transactions"
  spec.authors = ["ssikvd maintainers"]
  spec.license = "Apache-2.0"
  spec.required_ruby_version = ">= 3.1"
  spec.files = Dir["lib/**/*.rb"] + ["README.md"]
end
