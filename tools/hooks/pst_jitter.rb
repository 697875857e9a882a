# Pauses at random between the lines of a program. `pst jitter` names this file in RUBYOPT, so Ruby loads it when it starts.
#
# PST_JITTER_PAUSES has the longest pauses in microseconds, as 5,50,300, by turns. PST_JITTER_SEED chooses the pauses, with PST_WORKER and PST_BRANCH.
module PstJitter
  LINES_FOR_A_PAUSE = 4

  class << self
    def start(seed, longest)
      @random = Random.new(seed)
      @longest = longest
      @turn = 0
      TracePoint.new(:line, :c_return) { pause }.enable
    end

    # Lets other threads and processes run, at one line in four.
    def pause
      return unless @random.rand(LINES_FOR_A_PAUSE) == 0
      @turn += 1
      sleep(@longest[@turn % @longest.size] * @random.rand * 1e-6)
    end

    # A child would else draw what its parent draws.
    def draw_seed = @random.rand(2**64)

    def take_seed(seed)
      @random = Random.new(seed)
    end
  end

  module Fork
    def _fork
      seed = PstJitter.draw_seed
      child = super
      PstJitter.take_seed(seed) if child == 0
      child
    end
  end
end

seed, worker, branch = %w[PST_JITTER_SEED PST_WORKER PST_BRANCH].map { |name| ENV[name].to_i }
longest = ENV["PST_JITTER_PAUSES"].to_s.split(",").map(&:to_i).reject(&:zero?)
unless longest.empty?
  Process.singleton_class.prepend(PstJitter::Fork)
  PstJitter.start((seed * 16 + worker) * 16 + branch, longest)
end
