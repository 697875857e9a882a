#!/usr/bin/env ruby
# A client of examples/cache.model in one process (--shared): a set under a lock, or without one (--racy).
require_relative "pst_client"
require "set"

class Cache
  def initialize = @kept = Set.new

  def add(key)
    return false if has(key)

    @kept.add(key)
    true
  end

  def has(key) = @kept.include?(key)

  def clear
    @kept.clear
    true
  end
end

class LockedCache < Cache
  def initialize
    super
    @lock = Mutex.new
  end

  def add(key) = @lock.synchronize { super }
end

Pst.serve { (ARGV.include?("--racy") ? Cache : LockedCache).new } if __FILE__ == $PROGRAM_NAME
