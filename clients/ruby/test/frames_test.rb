# frozen_string_literal: true

# The frames of ../../frames.txt: `ruby -Ilib test/frames_test.rb`.
require "minitest/autorun"
require "ssikvd"

class FramesTest < Minitest::Test
  LINES = File.readlines(File.join(__dir__, "../../frames.txt"), chomp: true)

  def bytes(word) = word == "-" ? "".b : [word].pack("H*")

  def hex(data) = data.empty? ? "-" : data.unpack1("H*")

  def rows(kind) = LINES.grep(/\A#{kind} /).map { |line| line.delete_prefix("#{kind} ").split(" = ") }

  # A reply in the words of a row.
  def shown(reply)
    case reply
    when nil then "none"
    when Ssikvd::Refused then "refused #{hex(reply.text)}"
    when Integer then "number #{reply}"
    when Array then ["pairs", *reply.map { |part| hex(part) }].join(" ")
    else hex(reply)
    end
  end

  def test_requests
    rows("request").each { |parts, frame| assert_equal frame, hex(Ssikvd::Frames.encode(*parts.split.map { |word| bytes(word) })) }
  end

  def test_replies
    rows("reply").each do |frame, due|
      data = bytes(frame)
      reply, ending = Ssikvd::Frames.decode("#{data}+OK\r\n".b)
      assert_equal data.bytesize, ending
      assert_equal due.sub(/\A(done|value) /, ""), shown(reply)
      data.bytesize.times { |length| assert_nil Ssikvd::Frames.decode(data[0, length]) }
    end
  end

  def test_what_is_no_reply
    [*rows("bad").map { |word,| bytes(word) }, "+#{'a' * 1_000}"].each do |frame|
      assert_raises(Ssikvd::Unreachable) { Ssikvd::Frames.decode(frame) }
    end
  end

  def test_keys
    assert_equal "a\0", Ssikvd.after("a")
    assert_equal "#{'a' * 255}b", Ssikvd.after("a" * 256)
    assert_equal "b", Ssikvd.after("a".b + ("\xff".b * 255))
    assert_nil Ssikvd.after("\xff".b * 256)
    assert_equal "user;", Ssikvd.end_of_prefix("user:")
    assert_equal "b", Ssikvd.end_of_prefix("a\xff".b)
    assert_nil Ssikvd.end_of_prefix("")
    assert_nil Ssikvd.end_of_prefix("\xff\xff".b)
  end
end
