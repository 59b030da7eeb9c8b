# frozen_string_literal: true

module Ssikvd
  KEY_MAX = 256
  VALUE_MAX = 16_384
  WRITES_MAX = 64
  MARKS_MAX = 256
  PAIRS_MAX = 128
  CONNECTIONS_MAX = 64

  # The least key above this one; nil above the last of all.
  def self.after(key)
    data = Frames.key_of(key)
    data.bytesize < KEY_MAX ? "#{data}\0".b : end_of_prefix(data)
  end

  # The least key above all that begin with the prefix; nil where there is none.
  def self.end_of_prefix(prefix)
    head = Frames.key_of(prefix, 0).sub(/\xff+\z/n, "")
    head.empty? ? nil : head[0...-1] + (head[-1].ord + 1).chr
  end

  # Frames and keys. Nothing here touches a socket; all strings are bytes.
  module Frames
    LINE_MAX = 600

    module_function

    # The request of these parts.
    def encode(*parts)
      parts.reduce("*#{parts.size}\r\n".b) { |frame, part| frame << "$#{part.bytesize}\r\n" << part << "\r\n" }
    end

    # The reply at this place and the place after it; nil while it isn't whole. A value and a text are strings, no value is nil, a refusal
    # is its error, pairs are an array of key, value, key, value. Raises Unreachable at bytes that are no reply.
    def decode(data, at = 0)
      found = data.index("\r\n", at)
      is_line = found && found - at <= LINE_MAX
      return nil unless is_line || data.bytesize - at > LINE_MAX

      line = is_line ? data[at...found] : ""
      after_line = found.to_i + 2
      case line
      when /\A\+/n then [line[1..], after_line]
      when /\A-/n then [Refused.of(line[1..].force_encoding("UTF-8").scrub), after_line]
      when "$-1" then [nil, after_line]
      when /\A[:$*]\d{1,19}\z/n then counted(line[0], Integer(line[1..], 10), data, after_line)
      else no_reply(data, at)
      end
    end

    # The rest of a reply whose first line is this mark and this number.
    def counted(mark, number, data, at)
      return [number, at] if mark == ":"

      no_reply(data, at) if number > (mark == "$" ? VALUE_MAX : 2 * PAIRS_MAX)
      return array(data, at, number) if mark == "*"

      data.bytesize >= at + number + 2 ? [data[at, number], at + number + 2] : nil
    end

    def array(data, at, count)
      parts = []
      count.times do
        part, at = decode(data, at)
        return nil unless at

        parts << part
      end
      [parts, at]
    end

    def no_reply(data, at)
      raise Unreachable, "this is no reply of ssikvd: #{data[at, 60].inspect}"
    end

    # The bytes of a key, or with least 0 of a bound.
    def key_of(key, least = 1)
      data = key.b
      return data if data.bytesize.between?(least, KEY_MAX)

      raise Invalid, "a key has 1 to #{KEY_MAX} bytes, this one has #{data.bytesize}"
    end

    # The bytes of a value.
    def value_of(value)
      data = value.b
      return data if data.bytesize <= VALUE_MAX

      raise Invalid, "a value has at most #{VALUE_MAX} bytes, this one has #{data.bytesize}"
    end
  end
end
