# Gives options to `check` of pst_client.rb: in two spellings, and those that it sets itself.
require "pst_client"

class Values
  def give_back(*values) = values
end

Pst.check(ARGV[0], trials: 7, branches: 3, workers: 2, limit: 50, "max-failures": 9, max_failures: 1) { Values.new }
