# Tests an object whose methods several threads call at once, or a system that several processes call.
#
# `Pst.check` is for the tests of minitest and others. `Pst.serve` makes a client for `pst campaign --shared --client`, and `Pst.serve_branch` one for
# `pst campaign --client`. All make bursts (docs/clients.md).
require "json"
require "open3"
require "tmpdir"

module Pst
  # Lets other threads run between two lines of the system, every other time. Without it Ruby's lock hides most races.
  def self.yields(&call)
    TracePoint.new(:line) { sleep 0.0001 if rand < 0.5 }.enable(target_thread: Thread.current, &call)
  end

  # A call raises this if nobody knows whether it took effect, as after a timeout.
  class Unknown < StandardError; end

  # The burst of a branch ends before the drive that it is in.
  class BurstEnds < StandardError; end

  # The words by which the branches of a worker wait for each other in a burst. They do not spin, since that would keep Ruby's lock from each other.
  class Gate
    ENDED = 2**32 - 1 # the step of a branch that has ended its burst
    attr_reader :branches

    def initialize(branches)
      @branches, @words, @lock, @changed = (1..branches), Hash.new(0), Mutex.new, ConditionVariable.new
    end

    def set(branch, burst, step)
      @lock.synchronize do
        @words[branch] = (burst << 32) + step
        @changed.broadcast
      end
    end

    # Waits until branches have come to a step. Raises BurstEnds if one of them has ended the burst, or after two seconds.
    def wait(branches, burst, step)
      ends = now + 2
      @lock.synchronize do
        until branches.all? { |branch| @words[branch] >= (burst << 32) + step }
          raise BurstEnds if now > ends
          @changed.wait(@lock, ends - now + 0.01)
        end
        raise BurstEnds if branches.any? { |branch| @words[branch] >= (burst << 32) + ENDED }
      end
    end

    def now = Process.clock_gettime(Process::CLOCK_MONOTONIC)
  end

  # The same for processes, which spin: words in a file that all map. The 8 bytes of a word are written, and read, at once.
  class GateOfFile < Gate
    def initialize(branches, path)
      require "fiddle"
      super(branches)
      word, int = Fiddle::TYPE_VOIDP, Fiddle::TYPE_INT
      map = Fiddle::Function.new(Fiddle::Handle::DEFAULT["mmap"], [word, word, int, int, int, word], word)
      @words = File.open(path, "r+") { |file| map.call(nil, 4096, 3, 1, file.fileno, 0) } # to be read and written, shared
      @yield = Fiddle::Function.new(Fiddle::Handle::DEFAULT["sched_yield"], [], int)
    end

    def set(branch, burst, step)
      @words[64 * branch, 8] = [(burst << 32) + step].pack("Q<")
    end

    def get(branch) = @words[64 * branch, 8].unpack1("Q<")

    def wait(branches, burst, step)
      begun = now
      branches.each do |branch|
        while get(branch) < (burst << 32) + step
          waited = now - begun
          raise BurstEnds if waited > 2
          next if waited < 0.00001
          waited < 0.001 ? @yield.call : sleep(0.00005) # the other one may wait for this processor
        end
        raise BurstEnds if get(branch) >= (burst << 32) + ENDED
      end
    end
  end

  # A branch, which answers its lines. The block makes a call, and returns the line that answers it. Without a gate there are no bursts.
  class Branch
    def initialize(number, gate, &make)
      @number, @gate, @make = number, gate, make
    end

    # Returns the line that answers a line.
    def answer(line)
      words = JSON.parse(line)
      return burst(*words[1..]) if words.size == 6 && ["burst", Integer, Integer, Array, Array, Array].zip(words).all? { |kind, word| kind === word }
      answer = @make.call(words)
      words[0] == "reset" && @gate && outcome?(answer) ? "burst" : answer
    end

    private

    def failed?(answer) = answer.start_with?("failed")
    def outcome?(answer) = !answer.start_with?("failed", "unknown")

    # Makes the drives of a burst, and returns the line with the number of each one's answers, and each list of answers once.
    def burst(burst, drives, *parts)
      return "failed: this burst cannot be made" unless @gate && drives.between?(1, 1000) && burst.between?(1, Gate::ENDED)
      calls, places, lists, size = JSON.generate(parts), [], {}, 10
      limit = Process.clock_gettime(Process::CLOCK_MONOTONIC) + Float(ENV.fetch("PST_BURST_MILLISECONDS", 1_000_000)) / 1000
      begin
        @gate.set(@number, burst, 0)
        drives.times do |at|
          list = JSON.generate(drive(burst, 3 * at, *JSON.parse(calls))) # a system may change its arguments
          size += 5 + (lists.key?(list) ? 0 : list.bytesize + 1)
          raise BurstEnds if size > 1_000_000
          places << (lists[list] ||= lists.size)
          raise BurstEnds if @number == 1 && Process.clock_gettime(Process::CLOCK_MONOTONIC) > limit
        end
      rescue BurstEnds
        @gate.set(@number, burst, Gate::ENDED)
      end
      "[#{[JSON.generate(places), *lists.keys].join(",")}]"
    end

    # Makes calls up to one that has no outcome, and returns an answer for each, nil if it was not made.
    def make_all(calls)
      answers = []
      calls.each do |words|
        answers << @make.call(words)
        break unless outcome?(answers.last)
      end
      answers + [nil] * (calls.size - answers.size)
    end

    # Makes a drive: a reset after that of the branch before, the prefix, the branch at the same time as the others, the suffix.
    def drive(burst, step, prefix, branch, suffix)
      wait_if_first(burst, step)
      @gate.wait([@number - 1], burst, step + 1) if @number > 1
      raise BurstEnds unless outcome?(@make.call(["reset"]))
      @gate.set(@number, burst, step + 1)
      wait_if_first(burst, step + 1)
      before = make_all(prefix)
      raise BurstEnds unless before.all? { |answer| answer && outcome?(answer) }
      @gate.set(@number, burst, step + 2)
      @gate.wait(@gate.branches, burst, step + 2)
      own = make_all(branch)
      @gate.set(@number, burst, step + 3)
      wait_if_first(burst, step + 3)
      before + own + (own.compact.any? { |answer| failed?(answer) } ? [nil] * suffix.size : make_all(suffix))
    end

    def wait_if_first(burst, step)
      @gate.wait(@gate.branches, burst, step) if @number == 1
    end
  end

  # Returns the line that answers a call of a method of an object.
  def self.answer_to(object, name, arguments)
    JSON.generate(object.public_send(name.tr("-", "_"), *arguments))
  rescue StandardError => error
    "#{error.is_a?(Unknown) ? "unknown" : "failed"}: #{error.inspect}".tr("\n", " ")
  end

  # Answers the lines of all branches, and returns their threads. Each reset of branch 1 makes a new system.
  def self.start(pipes, branches, make_system)
    system, gate = nil, Gate.new(branches)
    (1..branches).map do |number|
      branch = Branch.new(number, gate) do |(name, *arguments)|
        system = make_system.call if name == "reset" && number == 1
        name == "reset" ? "true" : yields { answer_to(system, name, arguments) }
      end
      Thread.new do
        calls, answers = File.open("#{pipes}-#{number}.calls"), File.open("#{pipes}-#{number}.answers", "w")
        calls.each_line { |line| answers.syswrite("#{branch.answer(line)}\n") }
      end
    end
  end

  # Answers the calls of all branches on systems of this process, which the block makes.
  def self.serve(&make_system)
    abort "PST_PIPES is not set: run this client by pst campaign --client 'ruby #{$PROGRAM_NAME}' --shared" unless ENV["PST_PIPES"]
    start(ENV["PST_PIPES"], ENV["PST_BRANCHES"].to_i, make_system).each(&:join)
  end

  # Answers the calls of the branch of this process, by the methods of an object: one for each operation, and one for `reset`.
  def self.serve_branch(calls)
    gate = ENV["PST_GATE"] && GateOfFile.new(ENV["PST_BRANCHES"].to_i, ENV["PST_GATE"])
    branch = Branch.new(ENV["PST_BRANCH"].to_i, gate) { |(name, *arguments)| answer_to(calls, name, arguments) }
    $stdout.sync = true
    $stdin.each_line { |line| $stdout.write("#{branch.answer(line)}\n") }
  end

  # Runs a campaign on systems of this process, and fails with the smallest run that the model cannot explain, if there is one.
  #
  # The block makes a system in the initial state of the model: an object with a method for each operation. The options are those of `pst campaign`, as in
  # `max_failures: 1`. The variable PST names the program, if it is not `pst` on the path.
  def self.check(model, **options, &make_system)
    options = { workers: 1, branches: 2 }.merge(options).to_h { |name, value| [name.to_s.tr("_", "-"), value.to_s] }
    workers, branches = options.values_at("workers", "branches").map(&:to_i)
    Dir.mktmpdir do |folder|
      (1..workers).each do |worker|
        (1..branches).each { |branch| %w[calls answers].each { |pipe| File.mkfifo("#{folder}/#{worker}-#{branch}.#{pipe}") } }
        start("#{folder}/#{worker}", branches, make_system)
      end
      words = options.flat_map { |name, value| ["--#{name}", value] }
      report, explanation, status = Open3.capture3(ENV.fetch("PST", "pst"), "campaign", "shared:#{folder}", model, *words)
      raise(defined?(Minitest) ? Minitest::Assertion : RuntimeError, explanation + report) unless status.success?
    end
  end
end
