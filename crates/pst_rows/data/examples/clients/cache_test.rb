# Tests the caches of cache.rb: ruby cache_test.rb
require "minitest/autorun"
require_relative "cache"

class CacheTest < Minitest::Test
  MODEL = File.expand_path("../cache.model", __dir__)

  def test_locked
    Pst.check(MODEL, trials: 40) { LockedCache.new }
  end

  # Fails, with the race as its message.
  def test_racy
    Pst.check(MODEL, trials: 40, repeats: 20, limit: 200, max_failures: 1) { Cache.new }
  end
end
