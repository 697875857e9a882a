#!/usr/bin/env ruby
# Names that branches claim, for tests/bursts.py: in this process (--shared), or each a file. A claim looks and stores at once, or not (--racy).
require_relative "../../examples/clients/pst_client"
require "fileutils"

RACY = ARGV.include?("--racy")
FOLDER = "#{Dir.tmpdir}/names-#{ENV["PST_WORKER"]}"
$calls = 0

# What both forms have.
class Calls
  def count = $calls += 1
  def text(size) = "x" * size
  def fail = raise("as asked")
  def unknown = raise(Pst::Unknown, "as asked")
  def end = exit!(3)
end

class Names < Calls
  def initialize
    @names, @lock = {}, RACY ? nil : Mutex.new
  end

  def claim(name) = @lock ? @lock.synchronize { store(name) } : store(name)
  def claimed(name) = @names.key?(name)

  def store(name)
    return false if claimed(name)
    @names[name] = true
  end
end

# A name is a file. Two calls of the system look and make it, or one.
class Files < Calls
  def reset
    return unless ENV["PST_BRANCH"] == "1"
    FileUtils.rm_rf(FOLDER)
    FileUtils.mkdir(FOLDER)
  end

  def claimed(name) = File.exist?("#{FOLDER}/#{name}")

  def claim(name)
    return false if RACY && claimed(name)
    File.open("#{FOLDER}/#{name}", File::WRONLY | File::CREAT | (RACY ? 0 : File::EXCL)).close
    true
  rescue Errno::EEXIST
    false
  end
end

ENV["PST_PIPES"] ? Pst.serve { Names.new } : Pst.serve_branch(Files.new)
