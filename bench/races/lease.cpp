// A server of leases: `release` looks under one lock who holds it, and clears it under another. It is wrong only if a `release` and an `acquire` of another
// connection come in between, in some 50 nanoseconds.
// g++ -O2 -pthread -o lease lease.cpp
#include <arpa/inet.h>
#include <cstdlib>
#include <mutex>
#include <netinet/tcp.h>
#include <sstream>
#include <string>
#include <sys/socket.h>
#include <thread>
#include <unistd.h>

struct Lease {
  std::mutex lock;
  int holder = 0; // nobody

  int get() {
    std::lock_guard<std::mutex> held(lock);
    return holder;
  }
  bool set(int owner, bool is_forced) {
    std::lock_guard<std::mutex> held(lock);
    if (holder && !is_forced) return false;
    holder = owner;
    return true;
  }
  void release(int owner) {
    if (get() == owner) set(0, true);
  }
} leases[64];

std::string answer(const std::string &line) {
  std::istringstream words(line);
  int object = 0, owner = 0;
  std::string name;
  words >> object >> name >> owner;
  Lease &lease = leases[object];
  if (name == "holder") return std::to_string(lease.get());
  if (name == "acquire") return lease.set(owner, false) ? "true" : "false";
  if (name == "release") lease.release(owner);
  else lease.set(0, true);
  return "true";
}

void serve(int client) {
  std::string bytes(256, 0), lines;
  for (ssize_t count; (count = recv(client, &bytes[0], bytes.size(), 0)) > 0;) {
    lines.append(bytes, 0, count);
    for (size_t end; (end = lines.find('\n')) != std::string::npos; lines.erase(0, end + 1)) {
      std::string line = answer(lines.substr(0, end)) + "\n";
      send(client, line.data(), line.size(), MSG_NOSIGNAL);
    }
  }
  close(client);
}

int main(int, char **words) {
  int server = socket(AF_INET, SOCK_STREAM, 0), yes = 1;
  setsockopt(server, SOL_SOCKET, SO_REUSEADDR, &yes, sizeof yes);
  sockaddr_in address{};
  address.sin_family = AF_INET;
  address.sin_port = htons(std::atoi(words[1]));
  address.sin_addr.s_addr = htonl(INADDR_LOOPBACK);
  if (bind(server, reinterpret_cast<sockaddr *>(&address), sizeof address) || listen(server, 64)) return 1;
  for (int client; (client = accept(server, nullptr, nullptr)) >= 0;) {
    setsockopt(client, IPPROTO_TCP, TCP_NODELAY, &yes, sizeof yes);
    std::thread(serve, client).detach();
  }
}
