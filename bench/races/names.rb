# A server of names: a claim looks under a lock, and stores under the same lock taken again. Ruby's lock changes threads each 100 milliseconds alone.
require "socket"

class Names
  def initialize
    @lock, @names = Mutex.new, {}
  end

  def reset = @lock.synchronize { @names.clear } && true
  def claimed(name) = @lock.synchronize { @names.key?(name) }

  def claim(name)
    is_free = !claimed(name)
    @lock.synchronize { @names[name] = true } if is_free
    is_free
  end
end

objects = Array.new(64) { Names.new }
server = TCPServer.new("127.0.0.1", ARGV[0].to_i)
loop do
  Thread.new(server.accept) do |client|
    client.setsockopt(Socket::IPPROTO_TCP, Socket::TCP_NODELAY, 1)
    while (line = client.gets)
      object, name, *arguments = line.split
      client.write("#{objects[object.to_i].public_send(name, *arguments)}\n")
    end
  end
end
